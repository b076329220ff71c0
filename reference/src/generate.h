/* Random scripts. */
#ifndef GENERATE_H
#define GENERATE_H

#include <stdint.h>

/*
 * Prints a script that is answered with `calls` lines: one for each call, and one more for each slot that
 * a call for many slots runs.
 */
void generate(uint64_t seed, uint64_t calls);

#endif
