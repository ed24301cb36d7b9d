/* The entries of the modules `vault` and `prover`. */
#pragma once

unsigned seal(unsigned byte);      /* the byte under the next byte of the key stream */
unsigned challenge(unsigned byte); /* keeps the last sixteen bytes */
unsigned prove(void);              /* tags them under the prover's own key: 1, or 0 */
unsigned tag_byte(void);           /* the next byte of the tag */
