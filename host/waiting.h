/* From which slot on an illegal command would have been legal. The judge itself is asked, about the tape up to the command with NOPs put in before it. */
#ifndef WAITING_H
#define WAITING_H

#include "records.h"
#include "words.h"

typedef struct {
    enum { LEGAL_FROM, NEVER_LEGAL, TOO_LONG_TO_TRY, NO_MEMORY_TO_TRY } found;
    uint64_t slot;       /* LEGAL_FROM: the first slot */
    unsigned rule, bank; /* NEVER_LEGAL: what is broken after any wait */
} Waiting;

/* `run` is the count of the run just before the command, or 0. */
Waiting waiting_for(Words words, const uint8_t *tape, const Record *command, unsigned run);

#endif
