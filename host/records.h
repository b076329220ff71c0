/* The records of a tape, read for the sentences that explain an answer. Whether a tape is well formed the judge has said before. */
#ifndef RECORDS_H
#define RECORDS_H

#include <stdbool.h>
#include <stddef.h>
#include <stdint.h>

enum { NOP, ACT, READ, WRT, PRE, DEAC, REFR, MRS, KINDS };
enum { FULL_RUN = 65535, RUN_BYTES = 3 };

typedef struct {
    size_t place;     /* of its first byte */
    uint64_t slot;    /* its first slot, from 1 */
    unsigned kind;
    unsigned bank;    /* ACT, READ, WRT, PRE */
    unsigned number;  /* a run's count, a row, a column or the word of MRS */
    unsigned halfword; /* WRT */
} Record;

/* How far a tape has been read: the place and slot of the next record, and the count of the run just before it, or 0. */
typedef struct {
    const uint8_t *tape;
    size_t length, place;
    uint64_t slot;
    unsigned run;
} Scan;

Scan scan_of(const uint8_t *tape, size_t length);

/* The next record; false where there is none: at the end, or at a record that a reader refuses. */
bool next_record(Scan *scan, Record *record);

/* A kind's name, and the bytes of its record. */
const char *kind_name(unsigned kind);
size_t kind_bytes(unsigned kind);

/* Prints a command as a tape's listing has it, and its slot: `WRT 0 5 7 in slot 229`. */
void print_command(const Record *record);

#endif
