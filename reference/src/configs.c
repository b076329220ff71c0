#include "configs.h"

#include "random.h"

static const struct words named_bits = {0x4E77, 0x7, 0x1FFF, 0xFF77FF70};

static const uint32_t tim_fields[] = {0xF8000000, 0x07000000, 0x00700000, 0x00070000,
                                      0x0000F000, 0x00000F00, 0x00000070};
enum { TIM_FIELDS = sizeof tim_fields / sizeof tim_fields[0] };

static uint32_t draw_any_tim(uint64_t *random)
{
    uint32_t one_field = tim_fields[random_below(random, TIM_FIELDS)];
    uint32_t corner = 0;
    unsigned n;

    for (n = 0; n < TIM_FIELDS; n++)
        if (random_once_in(random, 2))
            corner |= tim_fields[n];
    switch (random_below(random, 8)) {
    case 0:
        return 0;
    case 1:
        return named_bits.tim;
    case 2:
        return one_field;
    case 3:
        return named_bits.tim & ~one_field;
    case 4:
        return (uint32_t)random_next(random) & named_bits.tim;
    case 5:
        return (uint32_t)random_next(random) & corner;
    default:
        return corner;
    }
}

/*
 * tRC 13 to 16, tRP at most 2, tRAS and tRCD at most 4: a refresh that is chosen right after an access which
 * sent ACT has to wait for the row cycle, unless the access was a write and its tWR lasts longer.
 */
static uint32_t with_long_row_cycle(uint32_t tim)
{
    return (tim & 0xF9373F70) | 0x00000C00;
}

/* tRFC weighs most in RR. It is kept short in two of three, so that more happens in as many calls. */
uint32_t draw_tim(uint64_t *random)
{
    uint32_t tim = draw_any_tim(random);
    uint32_t high_bits_of_trfc = 0xE0000000;

    if (random_once_in(random, 4))
        tim = with_long_row_cycle(tim);
    return random_once_in(random, 3) ? tim : tim & ~high_bits_of_trfc;
}

/* RR at its least or a little above it, so that the start is short; seldom a large one. */
static uint32_t draw_rr(uint64_t *random, uint32_t least, bool large)
{
    switch (random_below(random, 8)) {
    case 0:
    case 1:
        return least + random_below(random, 8);
    case 2:
        return least + random_below(random, 200);
    case 3:
        if (random_once_in(random, 8) && large)
            return least + random_below(random, 8192 - least);
        return least;
    default:
        return least;
    }
}

/* IBANK 0 to 2, PAGESIZE 0 to 3, ROWSIZE 0 to 4. */
void set_geometry(struct words *w, uint32_t geometry)
{
    w->cfg = (w->cfg & ~UINT32_C(0x77)) | (geometry % 3) << 4 | (geometry / 3) % 4;
    w->row = geometry / 12;
}

struct words draw_words(uint64_t *random, bool large_rr)
{
    struct words w;
    struct configuration c;

    w.cfg = 0x4000 | (2 + random_below(random, 2)) << 9;
    set_geometry(&w, random_below(random, GEOMETRIES));
    w.ref = named_bits.ref;
    w.tim = draw_tim(random);
    configure(w, &c);
    w.ref = draw_rr(random, least_rr(&c), large_rr);
    return w;
}

static uint32_t draw_unnamed_bit(uint64_t *random, uint32_t named)
{
    uint32_t bit;

    do {
        bit = UINT32_C(1) << random_below(random, 32);
    } while ((bit & named) != 0);
    return bit;
}

void spoil_words(uint64_t *random, struct words *w)
{
    struct configuration c;

    configure(*w, &c);
    switch (random_below(random, 12)) {
    case 0:
        w->cfg |= draw_unnamed_bit(random, named_bits.cfg);
        break;
    case 1:
        w->row |= draw_unnamed_bit(random, named_bits.row);
        break;
    case 2:
        w->ref |= draw_unnamed_bit(random, named_bits.ref);
        break;
    case 3:
        w->tim |= draw_unnamed_bit(random, named_bits.tim);
        break;
    case 4:
        w->cfg &= ~UINT32_C(0x4000);
        break;
    case 5:
        w->cfg = (w->cfg & ~UINT32_C(0xE00)) | ((4 + random_below(random, 6)) % 8) << 9; /* CL 4 to 7, 0, 1 */
        break;
    case 6:
        w->cfg = (w->cfg & ~UINT32_C(0x70)) | (3 + random_below(random, 5)) << 4;
        break;
    case 7:
        w->cfg = (w->cfg & ~UINT32_C(0x7)) | (4 + random_below(random, 4));
        break;
    case 8:
        w->row = (w->row & ~UINT32_C(0x7)) | (5 + random_below(random, 3));
        break;
    case 9:
        w->ref = random_below(random, least_rr(&c));
        break;
    default:
        w->ref = least_rr(&c) - 1;
        break;
    }
}

struct cell draw_cell(uint64_t *random, struct geometry g)
{
    struct cell cell;

    cell.bank = random_below(random, 1u << g.bank_bits);
    cell.row = random_below(random, 1u << g.row_bits);
    cell.column = random_below(random, 1u << g.column_bits);
    return cell;
}
