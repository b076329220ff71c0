/* What stands before a command on a tape: the last commands from which distances count, and which banks are open. */
#ifndef PAST_H
#define PAST_H

#include "records.h"

enum { BANKS = 4 };

/* A record that has not occurred has slot 0. A bank that no device has is passed over. */
typedef struct {
    Record act[BANKS], wrt[BANKS];
    Record pre[BANKS];  /* its last PRE or any DEAC, whichever is later */
    Record shut[BANKS]; /* what closed it last */
    Record any_pre, read, refr, mrs;
    bool open[BANKS];
    unsigned run; /* the count of the run just before the command, or 0 */
} Past;

/* Finds the command in a slot of a tape, and what stands before it. */
bool find_command(const uint8_t *tape, size_t length, uint64_t slot, Record *command, Past *past);

#endif
