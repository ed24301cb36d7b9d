/* Types alone, for sources that include it and print nothing: there are no files. */
#pragma once
#include <stddef.h>
