#include "sdram.h"

#include <string.h>

/* ---- Cells ---- */

/* A number for each cell, the same in every geometry: bank, 13 row bits, 11 column bits. */
static uint32_t cell_number(struct cell cell)
{
    return (uint32_t)cell.bank << 24 | (uint32_t)cell.row << 11 | (uint32_t)cell.column;
}

/* Scattered, so that a wrong cell gives a wrong halfword. */
uint16_t first_contents(struct cell cell)
{
    return (uint16_t)(((cell_number(cell) + 1) * UINT32_C(2654435769)) >> 16);
}

uint16_t sdram_halfword(const struct sdram *s, struct cell cell)
{
    return memory_get(&s->cells, cell_number(cell), first_contents(cell));
}

bool sdram_open_cell(const struct sdram *s, struct command x, struct cell *cell)
{
    if ((x.kind != READ && x.kind != WRT) || x.bank >= MOST_BANKS || !s->bank[x.bank].open)
        return false;
    cell->bank = x.bank;
    cell->row = s->bank[x.bank].row;
    cell->column = x.column;
    return true;
}

void sdram_begin(struct sdram *s, const struct configuration *c)
{
    memset(s, 0, sizeof *s);
    s->c = *c;
    memory_begin(&s->cells);
}

void sdram_end(struct sdram *s)
{
    memory_end(&s->cells);
}

/* ---- R1 to R16, in the coming slot: s->slot has already been counted up ---- */

static bool since(const struct sdram *s, uint64_t past, unsigned distance)
{
    return past == 0 || s->slot - past >= distance;
}

static bool any_open(const struct sdram *s)
{
    return s->bank[0].open || s->bank[1].open || s->bank[2].open || s->bank[3].open;
}

static unsigned breaks_act(const struct sdram *s, struct command x)
{
    const struct sdram_bank *own = &s->bank[x.bank];
    unsigned b;

    if (s->last_mrs == 0)
        return 3;
    if (own->open)
        return 4;
    if (!since(s, own->last_pre, s->c.tRP) || !since(s, s->last_deac, s->c.tRP))
        return 5;
    if (!since(s, own->last_act, s->c.tRC))
        return 6;
    for (b = 0; b < MOST_BANKS; b++)
        if (b != x.bank && !since(s, s->bank[b].last_act, s->c.tRRD))
            return 7;
    return 0;
}

static unsigned breaks_access(const struct sdram *s, struct command x)
{
    if (!s->bank[x.bank].open)
        return 8;
    if (!since(s, s->bank[x.bank].last_act, s->c.tRCD))
        return 9;
    if (x.kind == WRT && !since(s, s->last_read, s->c.CL + 2))
        return 10;
    return 0;
}

/* R12 and R13 for one bank. */
static unsigned breaks_closing(const struct sdram *s, const struct sdram_bank *bank)
{
    if (!since(s, bank->last_act, s->c.tRAS))
        return 12;
    if (!since(s, bank->last_wrt, s->c.tWR))
        return 13;
    return 0;
}

static unsigned breaks_deac(const struct sdram *s)
{
    unsigned b, rule = 0;

    for (b = 0; b < MOST_BANKS && rule == 0; b++)
        if (s->bank[b].open)
            rule = breaks_closing(s, &s->bank[b]);
    return rule;
}

static unsigned breaks_refr_or_mrs(const struct sdram *s)
{
    unsigned b;

    if (any_open(s))
        return 14;
    if (!since(s, s->last_deac, s->c.tRP))
        return 15;
    for (b = 0; b < MOST_BANKS; b++)
        if (!since(s, s->bank[b].last_pre, s->c.tRP))
            return 15;
    return 0;
}

/* R16 comes on top, for REFR only. */
static unsigned breaks_refr(const struct sdram *s)
{
    unsigned b, rule = breaks_refr_or_mrs(s);

    for (b = 0; b < MOST_BANKS && rule == 0; b++)
        if (!since(s, s->bank[b].last_act, s->c.tRC))
            rule = 16;
    return rule;
}

static bool names_outside(const struct sdram *s, struct command x)
{
    return x.bank >= 1u << s->c.geometry.bank_bits || x.row >= 1u << s->c.geometry.row_bits ||
           x.column >= 1u << s->c.geometry.column_bits;
}

static unsigned broken_rule(const struct sdram *s, struct command x)
{
    if (x.kind == NOP)
        return 0;
    if (names_outside(s, x) || (x.kind == MRS && x.word != 16 * s->c.CL))
        return 1;
    if (!since(s, s->last_refr, s->c.tRFC) || !since(s, s->last_mrs, 2))
        return 2;
    switch (x.kind) {
    case ACT:
        return breaks_act(s, x);
    case READ:
    case WRT:
        return breaks_access(s, x);
    case PRE:
        return s->bank[x.bank].open ? breaks_closing(s, &s->bank[x.bank]) : 11;
    case DEAC:
        return breaks_deac(s);
    case REFR:
        return breaks_refr(s);
    default:
        return breaks_refr_or_mrs(s);
    }
}

/* ---- A slot ---- */

bool sdram_bus(const struct sdram *s, uint16_t *halfword)
{
    uint64_t coming = s->slot + 1;

    *halfword = s->on_bus[coming % (LARGEST_CL + 1)].halfword;
    return s->on_bus[coming % (LARGEST_CL + 1)].slot == coming;
}

static void put_on_bus(struct sdram *s, uint16_t halfword)
{
    uint64_t slot = s->slot + s->c.CL;

    s->on_bus[slot % (LARGEST_CL + 1)].slot = slot;
    s->on_bus[slot % (LARGEST_CL + 1)].halfword = halfword;
}

static void carry_out(struct sdram *s, struct command x)
{
    struct cell cell = {0, 0, 0};
    unsigned b;

    sdram_open_cell(s, x, &cell);
    switch (x.kind) {
    case ACT:
        s->bank[x.bank].open = true;
        s->bank[x.bank].row = x.row;
        s->bank[x.bank].last_act = s->slot;
        break;
    case READ:
        put_on_bus(s, sdram_halfword(s, cell));
        s->last_read = s->slot;
        break;
    case WRT:
        memory_put(&s->cells, cell_number(cell), x.word);
        s->bank[x.bank].last_wrt = s->slot;
        break;
    case PRE:
        s->bank[x.bank].open = false;
        s->bank[x.bank].last_pre = s->slot;
        break;
    case DEAC:
        for (b = 0; b < MOST_BANKS; b++)
            s->bank[b].open = false;
        s->last_deac = s->slot;
        break;
    case REFR:
        s->last_refr = s->slot;
        break;
    case MRS:
        s->last_mrs = s->slot;
        break;
    case NOP:
        break;
    }
}

unsigned sdram_slot(struct sdram *s, struct command x)
{
    unsigned rule;

    s->slot++;
    rule = broken_rule(s, x);
    if (rule == 0)
        carry_out(s, x);
    return rule;
}
