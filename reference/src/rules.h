/*
 * R1 to R16 stand in legality.c and a second time in sdram.c. Here the two are held against each other, on
 * commands in an order that no machine gives them. For judge.c, which has them a third time, see casecheck.h.
 */
#ifndef RULES_H
#define RULES_H

#include <stdbool.h>
#include <stdint.h>

/*
 * Asks both about so many random commands and sends what both take. Prints the first command about which
 * they differ, and then gives false; otherwise how often each rule was the first to be broken.
 */
bool compare_rules(uint64_t seed, uint64_t commands);

#endif
