/* TAPES.md, `show`: the records of a tape as lines. And what becomes of a tape that is cut or changed. */
#ifndef SHOW_H
#define SHOW_H

#include <stdbool.h>
#include <stdio.h>

/* Prints the records, then `end SLOTS` or `refused NUMBER PLACE`. True where the tape is accepted. */
bool show_tape(FILE *file);

/*
 * Reads a tape and writes its slots anew: an accepted tape has one spelling, so the two are equal. False
 * where the tape is refused; what was written then is that of the records before.
 */
bool copy_tape(FILE *file);

/*
 * How a tape ends at each cut and at each byte changed to each value. False, with a sentence and nothing
 * else, where it is longer than LONGEST_DAMAGED_TAPE.
 */
enum { LONGEST_DAMAGED_TAPE = 4096 };
bool damage_tape(FILE *file);

#endif
