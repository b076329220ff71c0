/*
 * Case files: cases one after the other, each CFG, ROW, REF, TIM and the tape's length, 4 bytes each, low byte
 * first, and the tape's bytes.
 */
#ifndef CASEFILE_H
#define CASEFILE_H

#include <stdbool.h>
#include <stdint.h>
#include <stdio.h>

#include "bytes.h"
#include "words.h"

struct tape_case {
    struct words words;
    struct bytes tape;
};

/* ---- Out ---- */

void case_put(const struct tape_case *k, FILE *file);

/* ---- In ---- */

struct case_reader {
    FILE *file;
    uint64_t cases; /* whole ones, so far */
    bool cut;       /* the file ends within a case */
    struct tape_case current;
};

void case_read_begin(struct case_reader *r, FILE *file);

/* The next case. False at the end, and where the file ends within a case. */
bool case_next(struct case_reader *r);

/* False, with a sentence, where the file ended within a case. */
bool case_read_end(struct case_reader *r);

/* ---- Judging ---- */

/* Prints the line of each case. False where the file ends within one; the lines before are printed. */
bool judge_cases(FILE *file);

#endif
