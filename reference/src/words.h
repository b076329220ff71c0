/* Document 01, "Register words", "Numbers given back", "Address and cell". */
#ifndef WORDS_H
#define WORDS_H

#include <stdbool.h>
#include <stdint.h>

/* The numbers given back. UNSOUND is never given here: a script hands in no record of its own. */
enum number {
    ACCEPTED = 0,
    UNNAMED_BIT = 1,
    FIELD_NOT_OFFERED = 2,
    RR_TOO_SMALL = 3,
    ODD_ADDRESS = 4,
    BEYOND_CAPACITY = 5,
    QUEUE_FULL = 6,
    NUMBERS_USED_UP = 7,
    BLANK = 8,
    UNSOUND = 9,
    OUTSIDE_GEOMETRY = 10,
    KIND_ABOVE_7 = 11, /* 11 to 13 are the tape reader's: document 02, (ii) */
    BODY_CUT = 12,
    RUN_MISSPELLED = 13,
    TAPE_TOO_LONG = 19 /* the judge's: document 02, (v) */
};

struct words {
    uint32_t cfg, row, ref, tim;
};

struct geometry {
    unsigned column_bits, bank_bits, row_bits;
};

/* What the four words say. The distances are in slots, that is field plus one. */
struct configuration {
    struct geometry geometry;
    unsigned CL, RR;
    unsigned tRFC, tRP, tRCD, tWR, tRAS, tRC, tRRD;
};

struct cell {
    unsigned bank, row, column;
};

/* Reads the words. Only after ACCEPTED is *c meant to be used. */
enum number configure(struct words w, struct configuration *c);

/* A + 6F. */
unsigned least_rr(const struct configuration *c);

uint32_t capacity(struct geometry g);
bool in_geometry(struct geometry g, struct cell cell);

/* 4, 5 or ACCEPTED. */
enum number test_address(struct geometry g, uint32_t address);

/* For an accepted address, and for a cell within the geometry. */
struct cell cell_of(struct geometry g, uint32_t address);
uint32_t address_of(struct geometry g, struct cell cell);

/* The standalone map. Refused, it gives cell 0 0 0 or address 0. */
enum number map_to_cell(uint32_t cfg, uint32_t row, uint32_t address, struct cell *cell);
enum number map_to_address(uint32_t cfg, uint32_t row, struct cell cell, uint32_t *address);

#endif
