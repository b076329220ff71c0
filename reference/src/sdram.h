/*
 * Document 01's plain SDRAM. It sees the commands alone, one a slot, and keeps its own record of them.
 * R1 to R16 are written a second time here, on the last command of each kind, so that a mistake in
 * legality.c shows as a rejected command.
 */
#ifndef SDRAM_H
#define SDRAM_H

#include <stdbool.h>
#include <stdint.h>

#include "command.h"
#include "memory.h"
#include "words.h"

enum { LARGEST_CL = 3 };

struct sdram_bank {
    bool open;
    unsigned row;                         /* where open */
    uint64_t last_act, last_pre, last_wrt; /* their slots; 0: not yet sent */
};

struct sdram {
    struct configuration c;
    uint64_t slot; /* slots seen so far; the first is 1 */
    struct sdram_bank bank[MOST_BANKS];
    uint64_t last_read, last_deac, last_refr, last_mrs;
    struct memory cells;
    struct {
        uint64_t slot; /* 0: none */
        uint16_t halfword;
    } on_bus[LARGEST_CL + 1]; /* by slot, modulo */
};

/* What a cell holds at first. Document 01 leaves it open; scripts for `check` go by this. */
uint16_t first_contents(struct cell cell);

void sdram_begin(struct sdram *s, const struct configuration *c);
void sdram_end(struct sdram *s);

/* Is there a halfword on the bus in the coming slot? */
bool sdram_bus(const struct sdram *s, uint16_t *halfword);

/* The coming slot's command. 0, or the number of the first rule that it breaks; then it is not sent. */
unsigned sdram_slot(struct sdram *s, struct command x);

uint16_t sdram_halfword(const struct sdram *s, struct cell cell);

/* The cell that a READ or WRT of an open bank means. */
bool sdram_open_cell(const struct sdram *s, struct command x, struct cell *cell);

#endif
