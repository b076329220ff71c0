/*
 * A table of tapes, each with the rule that its last command is the first to break, and the bank: cases for the
 * judge, and the lines that they get.
 */
#ifndef RULECASES_H
#define RULECASES_H

/* Both in the same order. The lines come of the table alone. */
void write_rule_cases(void);
void write_rule_lines(void);

#endif
