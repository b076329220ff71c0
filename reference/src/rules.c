#include "rules.h"

#include <inttypes.h>
#include <stdio.h>

#include "command.h"
#include "legality.h"
#include "random.h"
#include "sdram.h"
#include "words.h"

enum { RULES = 16 };

struct trial {
    uint64_t random; /* state of the random numbers */

    /* The device: a new one every few hundred commands. */
    struct words words;
    struct configuration c;
    struct history past;    /* legality.c's record */
    struct sdram sdram;     /* sdram.c's; it counts the slots for both */
    uint64_t last_act;      /* its slot, in whatever bank; 0: not yet sent */
    struct command command; /* the last one asked about */
    bool taken;             /* and whether it was legal */

    /* Counted on all devices. */
    uint64_t asked;
    uint64_t first_broken[RULES + 1]; /* by sdram.c's rule; at 0 the legal commands */
    uint64_t early_refr, early_mrs;   /* legal, and less than tRC after an ACT */
};

/* One of 0 to below - 1. */
static uint32_t draw(struct trial *t, uint32_t below)
{
    return random_below(&t->random, below);
}

static bool once_in(struct trial *t, uint32_t times)
{
    return draw(t, times) == 0;
}

/* ---- Devices ---- */

static uint32_t draw_tim(struct trial *t)
{
    uint32_t any = (uint32_t)random_next(&t->random) & 0xFF77FF70;

    switch (draw(t, 3)) {
    case 0:
        return any;
    case 1: /* no distance above 4, so that several end in neighbouring slots */
        return any & 0x1B333330;
    default: /* the same, but tRP at most 2 and tRC 13 to 16: a bank is closed long before its row cycle ends */
        return (any & 0x19333330) | 0x00000C00;
    }
}

static struct words draw_words(struct trial *t)
{
    struct words w = {0x4000, 0, 8191, 0}; /* no TIM refuses the largest RR */

    w.cfg |= (2 + draw(t, 2)) << 9;
    w.cfg |= draw(t, 3) << 4;
    w.cfg |= draw(t, 4);
    w.row = draw(t, 5);
    w.tim = draw_tim(t);
    return w;
}

static void begin_device(struct trial *t)
{
    t->words = draw_words(t);
    configure(t->words, &t->c);
    history_begin(&t->past);
    sdram_begin(&t->sdram, &t->c);
    t->last_act = 0;
    t->taken = true;
}

/* ---- Commands ---- */

/* Seldom a number that lies outside: the first such one, or any up to `most`. */
static unsigned draw_number(struct trial *t, unsigned bits, unsigned most)
{
    unsigned outside = 1u << bits;

    if (!once_in(t, 64))
        return draw(t, outside);
    return once_in(t, 2) ? outside : outside + draw(t, most + 1 - outside);
}

/* A bank that is open, or closed, as the command needs it; now and then one that is not. */
static unsigned draw_bank(struct trial *t, bool open)
{
    unsigned bank_bits = t->c.geometry.bank_bits;
    unsigned bank = draw_number(t, bank_bits, 255);
    unsigned tries;

    for (tries = 0; tries < 4 && bank < MOST_BANKS && t->past.open[bank] != open; tries++)
        bank = draw_number(t, bank_bits, 255);
    return bank;
}

static enum command_kind draw_kind(struct trial *t)
{
    static const enum command_kind closed[] = {ACT,  ACT, ACT, ACT, ACT,  ACT, REFR, REFR,
                                               REFR, MRS, MRS, MRS, DEAC, PRE, READ, NOP};
    static const enum command_kind open[] = {ACT, ACT, ACT,  READ, READ, WRT,  WRT, WRT,
                                             PRE, PRE, PRE, DEAC, DEAC, REFR, MRS, NOP};
    uint32_t n = draw(t, 16);

    return all_banks_closed(&t->past) ? closed[n] : open[n];
}

/* Seldom the other CL's, or any. */
static uint16_t draw_mrs_word(struct trial *t)
{
    unsigned CL = t->c.CL;

    if (!once_in(t, 16))
        return (uint16_t)(16 * CL);
    return (uint16_t)(once_in(t, 2) ? 16 * (5 - CL) : draw(t, 65536));
}

static struct command draw_command(struct trial *t)
{
    struct command x = {draw_kind(t), 0, 0, 0, 0};

    if (x.kind == ACT || x.kind == READ || x.kind == WRT || x.kind == PRE)
        x.bank = draw_bank(t, x.kind != ACT);
    if (x.kind == ACT)
        x.row = draw_number(t, t->c.geometry.row_bits, 65535);
    if (x.kind == READ || x.kind == WRT)
        x.column = draw_number(t, t->c.geometry.column_bits, 65535);
    if (x.kind == WRT)
        x.word = (uint16_t)draw(t, 65536);
    if (x.kind == MRS)
        x.word = draw_mrs_word(t);
    return x;
}

/*
 * A refused command is mostly asked about again in the next slot. So it is met one slot before each distance
 * ends and in the slot in which it ends; NOPs and commands given up let others come later than that.
 */
static struct command next_command(struct trial *t)
{
    if (!t->taken && !once_in(t, 8))
        return t->command;
    return draw_command(t);
}

/* ---- Asking both ---- */

static void print_difference(const struct trial *t, unsigned rule)
{
    struct words w = t->words;

    printf("config 0x%" PRIX32 " %" PRIu32 " %" PRIu32 " 0x%" PRIX32 ", slot %" PRIu64 ", ", w.cfg, w.row,
           w.ref, w.tim, t->sdram.slot);
    print_command(t->command);
    if (rule == 0)
        puts(": legality.c refuses it, sdram.c takes it");
    else
        printf(": legality.c takes it, sdram.c refuses it by R%u\n", rule);
}

/* A legal command. */
static void send(struct trial *t)
{
    uint64_t slot = t->sdram.slot;
    bool early = t->last_act != 0 && slot - t->last_act < t->c.tRC;

    if (t->command.kind == REFR && early)
        t->early_refr++;
    if (t->command.kind == MRS && early)
        t->early_mrs++;
    if (t->command.kind == ACT)
        t->last_act = slot;
    history_send(&t->past, slot, t->command);
}

/* One slot. False where the two differ. */
static bool ask(struct trial *t)
{
    unsigned rule;

    t->command = next_command(t);
    t->taken = legal(&t->c, &t->past, t->sdram.slot + 1, t->command);
    rule = sdram_slot(&t->sdram, t->command); /* which sends what it takes */
    t->asked++;
    t->first_broken[rule]++;
    if (t->taken != (rule == 0)) {
        print_difference(t, rule);
        return false;
    }
    if (t->taken)
        send(t);
    return true;
}

static void print_counts(const struct trial *t)
{
    unsigned n;

    printf("%" PRIu64 " asked, %" PRIu64 " legal, first broken:", t->asked, t->first_broken[0]);
    for (n = 1; n <= RULES; n++)
        printf(" R%u %" PRIu64, n, t->first_broken[n]);
    printf(", legal within tRC of an ACT: REFR %" PRIu64 " MRS %" PRIu64 "\n", t->early_refr, t->early_mrs);
}

bool compare_rules(uint64_t seed, uint64_t commands)
{
    static struct trial t; /* zero at first */
    bool same = true;

    t.random = seed;
    while (same && t.asked < commands) {
        uint32_t on_this_device = 100 + draw(&t, 500);

        begin_device(&t);
        while (same && t.asked < commands && on_this_device-- > 0)
            same = ask(&t);
        sdram_end(&t.sdram);
    }
    if (same)
        print_counts(&t);
    return same;
}
