/* Types alone: nothing here prints. */
#pragma once
#include <stdint.h>
