/* Random tapes, and tapes with random damage. */
#ifndef SCRAP_H
#define SCRAP_H

#include <stdint.h>
#include <stdio.h>

#include "bytes.h"

/* Prints a well-formed tape of so many records, of all kinds. */
void random_tape(uint64_t seed, uint64_t records);

/* One to three bytes changed, the end cut off, or a byte put in or taken out. */
void spoil_bytes(uint64_t *random, struct bytes *b);

/* Prints the tape in the file, damaged so. */
void spoil_tape(uint64_t seed, FILE *file);

#endif
