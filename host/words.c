#include "words.h"
#include "../include/girmutsab.h"
#include <stddef.h>
#include <stdio.h>
#include <string.h>

/* A field of a word with the values that are offered; all other bits of a word must be 0. */
typedef struct { const char *name; size_t word; unsigned high, low; uint32_t least, most; } Field;

enum { CFG, ROW, REF, TIM, WORDS };
enum { NM, CL, IBANK, PAGESIZE, ROWSIZE, RR, T_RFC, T_RP, T_RCD, T_WR, T_RAS, T_RC, T_RRD, FIELDS };

static const char *const NAMES[WORDS] = { "CFG", "ROW", "REF", "TIM" };

static const Field FIELD[FIELDS] = {
    [NM] = { "NM", CFG, 14, 14, 1, 1 },
    [CL] = { "CL", CFG, 11, 9, 2, 3 },
    [IBANK] = { "IBANK", CFG, 6, 4, 0, 2 },
    [PAGESIZE] = { "PAGESIZE", CFG, 2, 0, 0, 3 },
    [ROWSIZE] = { "ROWSIZE", ROW, 2, 0, 0, 4 },
    [RR] = { "RR", REF, 12, 0, 0, 8191 },
    [T_RFC] = { "T_RFC", TIM, 31, 27, 0, 31 },
    [T_RP] = { "T_RP", TIM, 26, 24, 0, 7 },
    [T_RCD] = { "T_RCD", TIM, 22, 20, 0, 7 },
    [T_WR] = { "T_WR", TIM, 18, 16, 0, 7 },
    [T_RAS] = { "T_RAS", TIM, 15, 12, 0, 15 },
    [T_RC] = { "T_RC", TIM, 11, 8, 0, 15 },
    [T_RRD] = { "T_RRD", TIM, 6, 4, 0, 7 },
};

/* The value of a digit, or the base where it is none. */
static unsigned digit_of(char c, unsigned base) {
    unsigned value = base;
    if (c >= '0' && c <= '9') value = (unsigned)(c - '0');
    else if (c >= 'a' && c <= 'f') value = (unsigned)(c - 'a') + 10;
    else if (c >= 'A' && c <= 'F') value = (unsigned)(c - 'A') + 10;
    return value < base ? value : base;
}

bool parse_word(const char *text, uint32_t *word) {
    unsigned base = strncmp(text, "0x", 2) == 0 ? 16 : 10;
    if (base == 16) text += 2;
    if (*text == 0) return false;
    uint64_t value = 0;
    for (; *text != 0; text++) {
        unsigned digit = digit_of(*text, base);
        if (digit == base) return false;
        value = value * base + digit;
        if (value > UINT32_MAX) return false;
    }
    *word = (uint32_t)value;
    return true;
}

static uint32_t word_of(Words words, size_t word) {
    const uint32_t all[WORDS] = { words.cfg, words.row, words.ref, words.tim };
    return all[word];
}

static uint32_t mask_of(const Field *field) { return ((2u << (field->high - field->low)) - 1) << field->low; }

static uint32_t value_of(Words words, size_t field) {
    return (word_of(words, FIELD[field].word) & mask_of(&FIELD[field])) >> FIELD[field].low;
}

Device device_of(Words words) {
    return (Device){ .banks = 1u << value_of(words, IBANK), .rows = 512u << value_of(words, ROWSIZE), .columns = 256u << value_of(words, PAGESIZE),
                     .cl = value_of(words, CL), .rfc = value_of(words, T_RFC) + 1, .rp = value_of(words, T_RP) + 1, .rcd = value_of(words, T_RCD) + 1,
                     .wr = value_of(words, T_WR) + 1, .ras = value_of(words, T_RAS) + 1, .rc = value_of(words, T_RC) + 1, .rrd = value_of(words, T_RRD) + 1 };
}

static void explain_unnamed(Words words) {
    for (size_t w = 0; w < WORDS; w++) {
        uint32_t unnamed = word_of(words, w);
        for (size_t f = 0; f < FIELDS; f++)
            if (FIELD[f].word == w) unnamed &= ~mask_of(&FIELD[f]);
        for (unsigned bit = 0; bit < 32; bit++)
            if (unnamed >> bit & 1) printf("# %s is 0x%lX: bit %u is set, and no field has it; it must be 0.\n", NAMES[w], (unsigned long)word_of(words, w), bit);
    }
}

static void print_field(const Field *field) {
    if (field->high == field->low) printf("# %s (bit %u of %s)", field->name, field->low, NAMES[field->word]);
    else printf("# %s (bits %u to %u of %s)", field->name, field->high, field->low, NAMES[field->word]);
}

static void explain_not_offered(Words words) {
    for (size_t f = 0; f < FIELDS; f++) {
        uint32_t value = value_of(words, f);
        if (value >= FIELD[f].least && value <= FIELD[f].most) continue;
        print_field(&FIELD[f]);
        if (FIELD[f].least == FIELD[f].most) printf(" is %lu; it must be %lu.\n", (unsigned long)value, (unsigned long)FIELD[f].least);
        else printf(" is %lu; %lu to %lu are offered.\n", (unsigned long)value, (unsigned long)FIELD[f].least, (unsigned long)FIELD[f].most);
    }
}

static unsigned larger(unsigned a, unsigned b) { return a > b ? a : b; }

static void explain_short_interval(Words words) {
    Device d = device_of(words);
    unsigned m = larger(d.ras, d.wr);
    unsigned access = m + d.rp + d.rc + d.rrd + d.rcd + d.cl + 2;
    unsigned refresh = larger(m + d.rp, d.rc) + d.rfc;
    print_field(&FIELD[RR]);
    printf(" is %lu; with these distances it must be at least %u: A + 6F, A is %u and F is %u.\n", (unsigned long)value_of(words, RR), access + 6 * refresh,
           access, refresh);
}

void explain_words(unsigned number, Words words) {
    if (number == GIRMUTSAB_UNNAMED_BIT) explain_unnamed(words);
    else if (number == GIRMUTSAB_NOT_OFFERED) explain_not_offered(words);
    else explain_short_interval(words);
}
