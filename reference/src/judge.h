/* Document 02, (v): a judge for tapes. */
#ifndef JUDGE_H
#define JUDGE_H

#include <stddef.h>
#include <stdint.h>

#include "words.h"

enum { LONGEST_TAPE = 16777216 };

/* With number 0: slot, rule and bank of the first illegal slot, 0 where all is legal. With another they are 0. */
struct verdict {
    enum number number;
    uint64_t slot;
    unsigned rule, bank;
};

/* Of a tape above LONGEST_TAPE no byte is read. */
struct verdict judge(struct words w, const unsigned char *tape, size_t length);

/* TAPES.md's line. */
void print_verdict(struct verdict v);

#endif
