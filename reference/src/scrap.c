#include "scrap.h"

#include <stdbool.h>
#include <string.h>

#include "random.h"
#include "tape.h"

/* ---- Random tapes ---- */

/* One of a device's, any, or the last. */
static unsigned draw_bank(uint64_t *random)
{
    switch (random_below(random, 4)) {
    case 0:
        return 255;
    case 1:
        return random_below(random, 256);
    default:
        return random_below(random, 4);
    }
}

/* Any, or one at which a byte begins or ends. */
static uint16_t draw_number(uint64_t *random)
{
    static const uint16_t edges[] = {0, 1, 255, 256, 257, 32767, 32768, 65280, 65534, 65535};
    uint32_t n = random_below(random, 2 * sizeof edges / sizeof edges[0]);

    return n < sizeof edges / sizeof edges[0] ? edges[n] : (uint16_t)random_below(random, 65536);
}

static struct record draw_command(uint64_t *random)
{
    struct record r = {{NOP, 0, 0, 0, 0}, 1};
    struct command *x = &r.command;

    x->kind = (enum command_kind)(ACT + random_below(random, MRS - ACT + 1));
    if (x->kind == ACT || x->kind == READ || x->kind == WRT || x->kind == PRE)
        x->bank = draw_bank(random);
    if (x->kind == ACT)
        x->row = draw_number(random);
    if (x->kind == READ || x->kind == WRT)
        x->column = draw_number(random);
    if (x->kind == WRT || x->kind == MRS)
        x->word = draw_number(random);
    return r;
}

/* A run's count: short ones most, each edge often. */
static unsigned draw_count(uint64_t *random)
{
    unsigned count = draw_number(random);

    if (random_below(random, 3) == 0)
        return 1 + random_below(random, 20);
    return count == 0 ? 1 : count;
}

/* NOPs that take so many records: full runs, and one that may be shorter. */
static struct record draw_nops(uint64_t *random, unsigned records)
{
    struct record r = {{NOP, 0, 0, 0, 0}, (records - 1) * LONGEST_RUN + draw_count(random)};

    return r;
}

void random_tape(uint64_t seed, uint64_t records)
{
    uint64_t random = seed;
    struct tape_writer w;
    bool after_nops = false;

    tape_write_begin(&w, stdout);
    while (records > 0) {
        unsigned runs = random_below(&random, 8) == 0 ? 2 + random_below(&random, 5) : 1;

        if (runs > records)
            runs = (unsigned)records;
        if (after_nops || random_below(&random, 2) == 0) {
            runs = 1;
            tape_put(&w, draw_command(&random));
            after_nops = false;
        } else {
            tape_put(&w, draw_nops(&random, runs));
            after_nops = true;
        }
        records -= runs;
    }
    tape_write_end(&w);
}

/* ---- Damage ---- */

static size_t draw_place(uint64_t *random, size_t below)
{
    return (size_t)(random_next(random) % below);
}

static void change_bytes(uint64_t *random, struct bytes *b)
{
    unsigned times = 1 + random_below(random, 3);

    while (times-- > 0) {
        size_t place = draw_place(random, b->length);

        /* A small value is a kind, or the high byte of a small number. */
        b->at[place] = (unsigned char)random_below(random, random_below(random, 2) == 0 ? 9 : 256);
    }
}

static void put_byte_in(uint64_t *random, struct bytes *b)
{
    size_t place = draw_place(random, b->length + 1);
    unsigned char byte = (unsigned char)random_below(random, random_below(random, 2) == 0 ? 9 : 256);

    bytes_put(b, &byte, 1);
    memmove(b->at + place + 1, b->at + place, b->length - 1 - place);
    b->at[place] = byte;
}

static void take_byte_out(uint64_t *random, struct bytes *b)
{
    size_t place = draw_place(random, b->length);

    b->length--;
    memmove(b->at + place, b->at + place + 1, b->length - place);
}

void spoil_bytes(uint64_t *random, struct bytes *b)
{
    enum { CHANGE, CUT, TAKE_OUT, PUT_IN, WAYS } way = random_below(random, WAYS);

    if (b->length == 0)
        way = PUT_IN; /* there is nothing to change */
    switch (way) {
    case CHANGE:
        change_bytes(random, b);
        break;
    case CUT:
        b->length = draw_place(random, b->length);
        break;
    case TAKE_OUT:
        take_byte_out(random, b);
        break;
    default:
        put_byte_in(random, b);
        break;
    }
}

void spoil_tape(uint64_t seed, FILE *file)
{
    uint64_t random = seed;
    struct bytes b = {NULL, 0, 0};

    bytes_take(&b, file, SIZE_MAX);
    spoil_bytes(&random, &b);
    fwrite(b.at, 1, b.length, stdout);
    bytes_end(&b);
}
