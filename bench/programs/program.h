/* What the programs of this folder share. `main` gives a word to `finish`, which leaves it in R4. */
#ifndef PROGRAM_H
#define PROGRAM_H

typedef unsigned char byte;
typedef unsigned word; /* 16 bits */

void finish(word answer) __attribute__((noreturn));

#endif
