/* Document 01, "Commands and their distances", and R16 of document 02: the rules over the list of past commands. */
#ifndef LEGALITY_H
#define LEGALITY_H

#include <stdbool.h>
#include <stdint.h>

#include "command.h"
#include "words.h"

/*
 * No distance is longer than 32 slots (tRFC) and a slot carries one command, so a command that is not
 * among the last 32 is far enough away for every rule. 64 are kept.
 */
enum { LONGEST_DISTANCE = 32, KEPT_COMMANDS = 64 };

struct past_command {
    struct command command;
    uint64_t slot;
};

struct history {
    struct past_command list[KEPT_COMMANDS]; /* the n-th sent, from 0, stands at n % KEPT_COMMANDS */
    uint64_t sent;                           /* commands sent so far, NOP not counted */
    bool mrs_sent;
    bool open[MOST_BANKS];
    unsigned row[MOST_BANKS]; /* the open row, where open */
};

void history_begin(struct history *h);
void history_send(struct history *h, uint64_t slot, struct command sent);
bool all_banks_closed(const struct history *h);

/* May `next` be sent in slot `now`? It may name any bank. */
bool legal(const struct configuration *c, const struct history *h, uint64_t now, struct command next);

#endif
