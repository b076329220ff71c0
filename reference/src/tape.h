/* Document 02, (ii): bus tapes, out and in. */
#ifndef TAPE_H
#define TAPE_H

#include <stdbool.h>
#include <stdint.h>
#include <stdio.h>

#include "bytes.h"
#include "command.h"
#include "words.h"

enum { LONGEST_RUN = 65535 };

/* So many slots with this command; more than one only of NOP. */
struct record {
    struct command command;
    unsigned slots;
};

/* ---- Out: slots in, the one spelling out, whatever the calls that the slots come from ---- */

struct tape_writer {
    FILE *file;          /* NULL where the tape is put into the bytes below */
    struct bytes *bytes;
    unsigned run; /* NOPs that are not written yet */
};

void tape_write_begin(struct tape_writer *w, FILE *file);
void tape_write_bytes(struct tape_writer *w, struct bytes *bytes);
void tape_put(struct tape_writer *w, struct record r);
void tape_write_end(struct tape_writer *w);

/* ---- In ---- */

struct tape_reader {
    FILE *file; /* NULL where the tape is the bytes below */
    const unsigned char *bytes;
    size_t length;
    uint64_t taken;     /* bytes read so far */
    uint64_t place;     /* the first place of the record read last, or refused; counted from 0 */
    uint64_t slots;     /* of all records read so far */
    unsigned run;       /* the count of a run read just before, else 0 */
    enum number number; /* 11 to 13 once a record is refused, else ACCEPTED */
};

void tape_read_file(struct tape_reader *t, FILE *file);
void tape_read_bytes(struct tape_reader *t, const unsigned char *bytes, size_t length);

/* The next record. False at the end and at a refusal. */
bool tape_next(struct tape_reader *t, struct record *r);

#endif
