#include "words.h"

#include "damage.h"

/* ---- Register words ---- */

static uint32_t bits(unsigned high, unsigned low)
{
    return (UINT32_MAX >> (31 - (high - low))) << low;
}

static unsigned field(uint32_t word, unsigned high, unsigned low)
{
    return (word & bits(high, low)) >> low;
}

static bool unnamed_bit_in_cfg_or_row(uint32_t cfg, uint32_t row)
{
    uint32_t cfg_named = bits(14, 14) | bits(11, 9) | bits(6, 4) | bits(2, 0);
    uint32_t row_named = bits(2, 0);

    return (cfg & ~cfg_named) != 0 || (row & ~row_named) != 0;
}

static bool unnamed_bit_in_ref_or_tim(uint32_t ref, uint32_t tim)
{
    uint32_t ref_named = bits(12, 0);
    uint32_t tim_named = bits(31, 27) | bits(26, 24) | bits(22, 20) | bits(18, 16) | bits(15, 12) |
                         bits(11, 8) | bits(6, 4);

    return (ref & ~ref_named) != 0 || (tim & ~tim_named) != 0;
}

/* Every RR and every TIM field is offered; only CFG and ROW can hold a field that is not. */
static bool all_fields_offered(uint32_t cfg, uint32_t row)
{
    unsigned nm = field(cfg, 14, 14);
    unsigned cl = field(cfg, 11, 9);
    unsigned ibank = field(cfg, 6, 4);
    unsigned pagesize = field(cfg, 2, 0);
    unsigned rowsize = field(row, 2, 0);

    return nm == 1 && (cl == 2 || cl == 3) && ibank <= 2 && pagesize <= 3 && rowsize <= 4;
}

static struct geometry read_geometry(uint32_t cfg, uint32_t row)
{
    struct geometry g;

    g.column_bits = 8 + field(cfg, 2, 0);
    g.bank_bits = field(cfg, 6, 4);
    g.row_bits = 9 + field(row, 2, 0);
    return g;
}

static struct configuration read_fields(struct words w)
{
    struct configuration c;

    c.geometry = read_geometry(w.cfg, w.row);
    c.CL = field(w.cfg, 11, 9);
    c.RR = field(w.ref, 12, 0);
    c.tRFC = 1 + field(w.tim, 31, 27);
    c.tRP = 1 + field(w.tim, 26, 24);
    c.tRCD = 1 + field(w.tim, 22, 20);
    c.tWR = 1 + field(w.tim, 18, 16);
    c.tRAS = 1 + field(w.tim, 15, 12);
    c.tRC = 1 + field(w.tim, 11, 8);
    c.tRRD = 1 + field(w.tim, 6, 4);
    return c;
}

static unsigned larger(unsigned x, unsigned y)
{
    return x < y ? y : x;
}

static unsigned smaller(unsigned x, unsigned y)
{
    return x < y ? x : y;
}

static unsigned access_span(const struct configuration *c, unsigned M)
{
    unsigned rows = M + c->tRP + c->tRC;

    if (DAMAGED(ACCESS_SPAN_BY_LARGER))
        rows = larger(M + c->tRP, c->tRC);
    return rows + c->tRRD + c->tRCD + c->CL + 2;
}

/* Document 02, (iv): a row cycle that is longer than closing the banks takes counts in its place. */
static unsigned refresh_span(const struct configuration *c, unsigned M)
{
    unsigned closing = M + c->tRP;

    if (DAMAGED(REFRESH_SPAN_WITHOUT_TRC))
        return closing + c->tRFC;
    if (DAMAGED(REFRESH_SPAN_BY_SMALLER))
        return smaller(closing, c->tRC) + c->tRFC;
    if (DAMAGED(REFRESH_SPAN_BY_SUM))
        return closing + c->tRC + c->tRFC;
    if (DAMAGED(REFRESH_SPAN_TRFC_WITHIN))
        return larger(closing, c->tRC + c->tRFC);
    return larger(closing, c->tRC) + c->tRFC;
}

unsigned least_rr(const struct configuration *c)
{
    unsigned M = SLIP(SPAN_WITHOUT_TWR, larger(c->tRAS, c->tWR), c->tRAS);

    return access_span(c, M) + SLIP(RR_FIVE_SPANS, 6, 5) * refresh_span(c, M);
}

enum number configure(struct words w, struct configuration *c)
{
    bool unnamed = unnamed_bit_in_cfg_or_row(w.cfg, w.row) || unnamed_bit_in_ref_or_tim(w.ref, w.tim);
    bool offered = all_fields_offered(w.cfg, w.row);

    *c = read_fields(w);
    if (DAMAGED(REFUSE_EVERYTHING))
        return RR_TOO_SMALL;
    if (DAMAGED(FIELDS_BEFORE_BITS) && !offered)
        return FIELD_NOT_OFFERED;
    if (unnamed && !DAMAGED(BITS_NOT_TESTED))
        return UNNAMED_BIT;
    if (!offered)
        return FIELD_NOT_OFFERED;
    if (c->RR < least_rr(c) + SLIP(RR_ABOVE_LEAST, 0, 1))
        return RR_TOO_SMALL;
    return ACCEPTED;
}

/* ---- Address and cell ---- */

uint32_t capacity(struct geometry g)
{
    return UINT32_C(1) << (1 + g.column_bits + g.bank_bits + g.row_bits);
}

bool in_geometry(struct geometry g, struct cell cell)
{
    return cell.bank >> g.bank_bits == 0 && cell.row >> g.row_bits == 0 &&
           cell.column >> g.column_bits == 0;
}

enum number test_address(struct geometry g, uint32_t address)
{
    uint32_t end = capacity(g) + SLIP(CAPACITY_TWO_MORE, 0, 2) - SLIP(CAPACITY_TWO_LESS, 0, 2);

    if (DAMAGED(CAPACITY_BEFORE_ODD) && address >= end)
        return BEYOND_CAPACITY;
    if (address % 2 != 0)
        return ODD_ADDRESS;
    if (address >= end)
        return BEYOND_CAPACITY;
    return ACCEPTED;
}

/* From the low end: one zero bit, the column bits, the bank bits, the row bits. */
struct cell cell_of(struct geometry g, uint32_t address)
{
    unsigned bank_shift = 1 + g.column_bits;
    unsigned row_shift = bank_shift + g.bank_bits;
    struct cell cell;

    cell.column = (address >> 1) & ((1u << g.column_bits) - 1);
    cell.bank = (address >> bank_shift) & ((1u << g.bank_bits) - 1);
    cell.row = (address >> row_shift) & ((1u << g.row_bits) - 1);
    if (DAMAGED(BANK_ABOVE_ROW)) {
        cell.row = (address >> bank_shift) & ((1u << g.row_bits) - 1);
        cell.bank = (address >> (bank_shift + g.row_bits)) & ((1u << g.bank_bits) - 1);
    }
    return cell;
}

uint32_t address_of(struct geometry g, struct cell cell)
{
    unsigned bank_shift = 1 + g.column_bits;
    unsigned row_shift = bank_shift + g.bank_bits;

    return (uint32_t)cell.column << 1 | (uint32_t)cell.bank << bank_shift |
           (uint32_t)cell.row << row_shift;
}

static enum number test_cfg_and_row(uint32_t cfg, uint32_t row)
{
    if (unnamed_bit_in_cfg_or_row(cfg, row))
        return UNNAMED_BIT;
    if (!all_fields_offered(cfg, row))
        return FIELD_NOT_OFFERED;
    return ACCEPTED;
}

enum number map_to_cell(uint32_t cfg, uint32_t row, uint32_t address, struct cell *cell)
{
    struct cell none = {0, 0, 0};
    enum number number = test_cfg_and_row(cfg, row);

    if (number == ACCEPTED)
        number = test_address(read_geometry(cfg, row), address);
    *cell = number == ACCEPTED ? cell_of(read_geometry(cfg, row), address) : none;
    return number;
}

enum number map_to_address(uint32_t cfg, uint32_t row, struct cell cell, uint32_t *address)
{
    enum number number = test_cfg_and_row(cfg, row);

    if (number == ACCEPTED && !in_geometry(read_geometry(cfg, row), cell))
        number = OUTSIDE_GEOMETRY;
    *address = number == ACCEPTED ? address_of(read_geometry(cfg, row), cell) : 0;
    return number;
}
