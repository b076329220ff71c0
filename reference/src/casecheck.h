/* The judge held against legality.c and sdram.c, which know nothing of it. */
#ifndef CASECHECK_H
#define CASECHECK_H

#include <stdbool.h>
#include <stdio.h>

/*
 * Prints the line of each case, as judge_cases does. The first case of which the two say something else, or
 * about which they differ, is named on standard error and ends the program with status 1. False where the
 * file ends within a case.
 */
bool check_cases(FILE *file);

#endif
