#include "casefile.h"

#include <inttypes.h>

#include "judge.h"

enum { HEAD = 20 };

static void store_word(unsigned char *at, uint32_t word)
{
    unsigned n;

    for (n = 0; n < 4; n++)
        at[n] = (unsigned char)(word >> 8 * n);
}

static uint32_t load_word(const unsigned char *at)
{
    return at[0] | (uint32_t)at[1] << 8 | (uint32_t)at[2] << 16 | (uint32_t)at[3] << 24;
}

/* ---- Out ---- */

void case_put(const struct tape_case *k, FILE *file)
{
    unsigned char head[HEAD];

    store_word(head, k->words.cfg);
    store_word(head + 4, k->words.row);
    store_word(head + 8, k->words.ref);
    store_word(head + 12, k->words.tim);
    store_word(head + 16, (uint32_t)k->tape.length);
    fwrite(head, 1, HEAD, file);
    if (k->tape.length > 0)
        fwrite(k->tape.at, 1, k->tape.length, file);
}

/* ---- In ---- */

void case_read_begin(struct case_reader *r, FILE *file)
{
    struct case_reader begun = {file, 0, false, {{0, 0, 0, 0}, {NULL, 0, 0}}};

    *r = begun;
}

bool case_next(struct case_reader *r)
{
    struct tape_case *k = &r->current;
    unsigned char head[HEAD];
    size_t got = fread(head, 1, HEAD, r->file);
    uint32_t length;

    r->cut = got > 0 && got < HEAD;
    if (got < HEAD)
        return false;
    k->words.cfg = load_word(head);
    k->words.row = load_word(head + 4);
    k->words.ref = load_word(head + 8);
    k->words.tim = load_word(head + 12);
    length = load_word(head + 16);
    k->tape.length = 0;
    r->cut = bytes_take(&k->tape, r->file, length) < length;
    if (r->cut)
        return false;
    r->cases++;
    return true;
}

bool case_read_end(struct case_reader *r)
{
    bytes_end(&r->current.tape);
    if (r->cut)
        fprintf(stderr, "reference: the file ends within case %" PRIu64 ": give it whole\n", r->cases + 1);
    return !r->cut;
}

/* ---- Judging ---- */

bool judge_cases(FILE *file)
{
    struct case_reader r;

    case_read_begin(&r, file);
    while (case_next(&r))
        print_verdict(judge(r.current.words, r.current.tape.at, r.current.tape.length));
    return case_read_end(&r);
}
