#include "waiting.h"
#include "../include/girmutsab.h"
#include <stdlib.h>
#include <string.h>

/* The longest distance is 32 slots, so a command that is illegal after so many more NOPs stays so. */
enum { ENOUGH = 33 };

/* A copy of the tape up to the command. */
typedef struct {
    Words words;
    uint8_t *bytes;
    size_t place;         /* of the run before the command, or of the command where there is none */
    unsigned run;         /* the run's count */
    const uint8_t *command;
    size_t command_bytes;
} Trial;

static size_t put_run(uint8_t *bytes, unsigned count) {
    bytes[0] = NOP;
    bytes[1] = (uint8_t)count;
    bytes[2] = (uint8_t)(count >> 8);
    return RUN_BYTES;
}

/* The length of the tape with so many NOPs more. They lengthen the run; what is above a full one makes a further run. */
static size_t length_with(const Trial *trial, unsigned nops) {
    size_t runs = trial->run + nops > FULL_RUN ? 2 : 1;
    return trial->place + runs * RUN_BYTES + trial->command_bytes;
}

/* The judge's answer with so many NOPs more, 1 or more. */
static uint64_t judged_with(const Trial *trial, unsigned nops) {
    unsigned count = trial->run + nops;
    size_t at = trial->place;
    if (count > FULL_RUN) {
        at += put_run(trial->bytes + at, FULL_RUN);
        count -= FULL_RUN;
    }
    at += put_run(trial->bytes + at, count);
    memcpy(trial->bytes + at, trial->command, trial->command_bytes);
    Words w = trial->words;
    return girmutsab_judge(w.cfg, w.row, w.ref, w.tim, trial->bytes, at + trial->command_bytes);
}

/* What is legal after some NOPs is so after more: the least number, given that ENOUGH are enough. */
static unsigned least_nops(const Trial *trial) {
    unsigned illegal = 0, legal = ENOUGH;
    while (legal - illegal > 1) {
        unsigned middle = (illegal + legal) / 2;
        if (judged_with(trial, middle) == 0) legal = middle;
        else illegal = middle;
    }
    return legal;
}

Waiting waiting_for(Words words, const uint8_t *tape, const Record *command, unsigned run) {
    Trial trial = { .words = words, .place = command->place - (run == 0 ? 0 : RUN_BYTES), .run = run, .command = tape + command->place,
                    .command_bytes = kind_bytes(command->kind) };
    size_t longest = length_with(&trial, ENOUGH);
    if (longest > GIRMUTSAB_TAPE_LIMIT) return (Waiting){ .found = TOO_LONG_TO_TRY };
    trial.bytes = malloc(longest);
    if (trial.bytes == NULL) return (Waiting){ .found = NO_MEMORY_TO_TRY };
    memcpy(trial.bytes, tape, trial.place);
    uint64_t answer = judged_with(&trial, ENOUGH);
    Waiting waiting = { .found = NEVER_LEGAL, .rule = girmutsab_rule(answer), .bank = girmutsab_bank(answer) };
    if (answer == 0) waiting = (Waiting){ .found = LEGAL_FROM, .slot = command->slot + least_nops(&trial) };
    free(trial.bytes);
    return waiting;
}
