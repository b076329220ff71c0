#include "casecheck.h"

#include <inttypes.h>
#include <stdbool.h>
#include <stdlib.h>

#include "casefile.h"
#include "judge.h"
#include "legality.h"
#include "sdram.h"
#include "tape.h"
#include "words.h"

/* Ends the program. */
static void fail(const struct case_reader *r, const char *what, uint64_t slot)
{
    fflush(stdout);
    fprintf(stderr, "claim failed: case %" PRIu64 ", slot %" PRIu64 ": %s\n", r->cases, slot, what);
    exit(1);
}

/* ---- What the SDRAM's record says of a rejected command; its slot is counted already ---- */

static bool too_near(const struct sdram *s, uint64_t past, unsigned distance)
{
    return past > 0 && past + distance > s->slot;
}

/* sdram.c tries DEAC bank by bank, so that it names R13 of one bank where R12 of a later one is broken too. */
static unsigned lowest_rule(const struct sdram *s, struct command x, unsigned rule)
{
    unsigned b;

    for (b = 0; b < MOST_BANKS && x.kind == DEAC && rule == 13; b++)
        if (s->bank[b].open && too_near(s, s->bank[b].last_act, s->c.tRAS))
            return 12;
    return rule;
}

static bool bank_breaks(const struct sdram *s, unsigned rule, const struct sdram_bank *bank)
{
    switch (rule) {
    case 12:
        return bank->open && too_near(s, bank->last_act, s->c.tRAS);
    case 13:
        return bank->open && too_near(s, bank->last_wrt, s->c.tWR);
    case 14:
        return bank->open;
    default: /* R16 */
        return too_near(s, bank->last_act, s->c.tRC);
    }
}

static unsigned bank_to_report(const struct sdram *s, struct command x, unsigned rule)
{
    unsigned b = 0;

    if (rule <= 3 || rule == 10 || rule == 15)
        return 0;
    if (rule <= 11 || x.kind == PRE)
        return x.bank;
    while (b < MOST_BANKS - 1 && !bank_breaks(s, rule, &s->bank[b]))
        b++;
    return b;
}

/* ---- The verdict by legality.c and sdram.c ---- */

struct opinion {
    struct configuration c;
    struct history past; /* legality.c's record */
    struct sdram sdram;
};

/* One record: by which rule, in which bank its command is rejected, if it is. */
static void ask_both(const struct case_reader *r, struct opinion *o, struct record record, struct verdict *v)
{
    struct command x = record.command;
    uint64_t slot = o->sdram.slot + 1;
    unsigned rule;

    if (x.kind == NOP) {
        o->sdram.slot += record.slots; /* nothing else changes */
        return;
    }
    rule = sdram_slot(&o->sdram, x);
    if (legal(&o->c, &o->past, slot, x) != (rule == 0))
        fail(r, "legality.c and sdram.c differ", slot);
    if (rule == 0) {
        history_send(&o->past, slot, x);
        return;
    }
    v->slot = slot;
    v->rule = lowest_rule(&o->sdram, x, rule);
    v->bank = bank_to_report(&o->sdram, x, v->rule);
}

/* For accepted words and a tape that is not too long. */
static struct verdict opinion_of_tape(const struct case_reader *r, const struct configuration *c)
{
    struct verdict v = {ACCEPTED, 0, 0, 0};
    struct opinion o;
    struct tape_reader t;
    struct record record;

    o.c = *c;
    history_begin(&o.past);
    sdram_begin(&o.sdram, c);
    tape_read_bytes(&t, r->current.tape.at, r->current.tape.length);
    while (tape_next(&t, &record))
        if (v.slot == 0)
            ask_both(r, &o, record, &v);
    sdram_end(&o.sdram);
    if (t.number != ACCEPTED) {
        struct verdict refused = {t.number, 0, 0, 0};

        v = refused;
    }
    return v;
}

static struct verdict opinion(const struct case_reader *r)
{
    struct verdict v = {ACCEPTED, 0, 0, 0};
    struct configuration c;

    v.number = configure(r->current.words, &c);
    if (v.number == ACCEPTED && r->current.tape.length > LONGEST_TAPE)
        v.number = TAPE_TOO_LONG;
    return v.number == ACCEPTED ? opinion_of_tape(r, &c) : v;
}

/* ---- Holding them against each other ---- */

static bool same(struct verdict x, struct verdict y)
{
    return x.number == y.number && x.slot == y.slot && x.rule == y.rule && x.bank == y.bank;
}

static void check_case(const struct case_reader *r)
{
    struct verdict given = judge(r->current.words, r->current.tape.at, r->current.tape.length);
    struct verdict expected = opinion(r);

    print_verdict(given);
    if (same(given, expected))
        return;
    if (given.number != expected.number)
        fail(r, "the judge gives another number", expected.slot);
    if (given.slot != expected.slot)
        fail(r, "the judge gives another slot than legality.c and sdram.c reject first", expected.slot);
    if (given.rule != expected.rule)
        fail(r, "the judge gives another rule", expected.slot);
    fail(r, "the judge gives another bank", expected.slot);
}

bool check_cases(FILE *file)
{
    struct case_reader r;

    case_read_begin(&r, file);
    while (case_next(&r))
        check_case(&r);
    return case_read_end(&r);
}
