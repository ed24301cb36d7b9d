/* What the programs here share. */

typedef unsigned char byte;
typedef unsigned int word;
typedef unsigned long dword;

/* Leaves eight words of result in R4 to R11 and stays at `done`. */
void finish(const word *result);

void *memset(void *to, int value, unsigned count);
void *memcpy(void *to, const void *from, unsigned count);
