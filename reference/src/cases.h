/* Random cases for the judge. */
#ifndef CASES_H
#define CASES_H

#include <stdint.h>

/* Prints a case file of so many cases of every kind. */
void random_cases(uint64_t seed, uint64_t count);

/* The same of tapes of our own machine alone, from its first slot and with its own words: all are accepted. */
void own_cases(uint64_t seed, uint64_t count);

#endif
