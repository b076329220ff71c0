/* R1 to R16 in words, and what a broken one has to do with the commands before. Whether a rule is broken the judge has said before. */
#ifndef RULES_H
#define RULES_H

#include "past.h"
#include "words.h"

/* An illegal command: what it is, what stands before it, and the rule and bank of the judge's answer. */
typedef struct {
    Device device;
    Record command;
    Past past;
    unsigned rule, bank;
} Illegal;

/* Each prints a sentence a line: the rule; how it is broken; and, for a rule that waiting does not mend, what does. The last one ends a sentence. */
void print_rule(unsigned rule);
void print_cause(const Illegal *illegal);
void print_need(unsigned rule, unsigned bank);

#endif
