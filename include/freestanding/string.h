/* The functions of memory that `sancus-cc --runtime` has. */
#ifndef SANCUS_STRING_H
#define SANCUS_STRING_H
#include <stddef.h>

void *memcpy(void *to, const void *from, size_t count);
void *memmove(void *to, const void *from, size_t count);
void *memset(void *to, int value, size_t count);
int memcmp(const void *left, const void *right, size_t count);
size_t strlen(const char *text);
/* 0 where all bytes are equal: shorter than memcmp, and does not say which differ. */
int memcmp_ct(const void *left, const void *right, size_t count);

#endif
