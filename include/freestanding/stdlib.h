/* Types alone: there is no heap and no end of a program. */
#ifndef SANCUS_STDLIB_H
#define SANCUS_STDLIB_H
#include <stddef.h>

#endif
