#include "legality.h"

#include <string.h>

#include "damage.h"

/* ---- The list of past commands ---- */

void history_begin(struct history *h)
{
    memset(h, 0, sizeof *h);
}

void history_send(struct history *h, uint64_t slot, struct command sent)
{
    struct past_command *place = &h->list[h->sent % KEPT_COMMANDS];

    if (sent.kind == NOP)
        return;
    place->command = sent;
    place->slot = slot;
    h->sent++;
    switch (sent.kind) {
    case ACT:
        h->open[sent.bank] = true;
        h->row[sent.bank] = sent.row;
        break;
    case PRE:
        h->open[sent.bank] = false;
        break;
    case DEAC:
        memset(h->open, 0, sizeof h->open);
        break;
    case MRS:
        h->mrs_sent = true;
        break;
    default:
        break;
    }
}

bool all_banks_closed(const struct history *h)
{
    unsigned bank;

    for (bank = 0; bank < MOST_BANKS; bank++)
        if (h->open[bank])
            return false;
    return true;
}

/* Sets of banks, one bit each. Commands without a bank carry bank 0, so ANY_BANK finds them too. */
enum { ANY_BANK = 0xF };

static unsigned only(unsigned bank)
{
    return 1u << bank;
}

static unsigned all_but(unsigned bank)
{
    return ANY_BANK & ~only(bank);
}

/* Is `now` at least `distance` slots after every past command of this kind to one of these banks? */
static bool kept(const struct history *h, uint64_t now, unsigned distance, enum command_kind kind,
                 unsigned banks)
{
    uint64_t n;

    for (n = h->sent; n > 0 && n + KEPT_COMMANDS > h->sent; n--) {
        const struct past_command *past = &h->list[(n - 1) % KEPT_COMMANDS];

        if (now - past->slot >= LONGEST_DISTANCE)
            return true;
        if (past->command.kind == kind && (only(past->command.bank) & banks) != 0)
            return now - past->slot >= distance;
    }
    return true;
}

/* ---- R1 to R16 ---- */

/* R1: bank, row and column lie in the geometry; the MRS word is 16 x CL. */
static bool r1_holds(const struct configuration *c, struct command x)
{
    struct cell named = {x.bank, x.row, x.column};

    return in_geometry(c->geometry, named) && (x.kind != MRS || x.word == 16 * c->CL);
}

/* R12 and R13: is the distance kept in every open bank of the set? */
static bool kept_in_open_banks(const struct history *h, uint64_t now, unsigned distance,
                               enum command_kind kind, unsigned banks)
{
    unsigned bank;

    for (bank = 0; bank < MOST_BANKS; bank++)
        if (h->open[bank] && (only(bank) & banks) != 0 && !kept(h, now, distance, kind, only(bank)))
            return false;
    return true;
}

/* REFR alone, document 02, (iv). */
static bool has_r16(enum command_kind kind)
{
    return kind == REFR || (DAMAGED(R16_FOR_MRS_TOO) && kind == MRS) ||
           (DAMAGED(R16_FOR_DEAC_TOO) && kind == DEAC);
}

/* A set of rules, bit n for Rn. */
static unsigned rule(unsigned n)
{
    return 1u << n;
}

static unsigned unless(bool holds, unsigned n)
{
    return holds ? 0 : rule(n);
}

static unsigned broken_rules(const struct configuration *c, const struct history *h, uint64_t now,
                             struct command x)
{
    unsigned broken = 0;

    if (x.kind == NOP)
        return 0;
    broken |= unless(r1_holds(c, x), 1);
    if (x.bank >= MOST_BANKS)
        return broken; /* R1 it is, and of such a bank nothing is kept */
    broken |= unless(kept(h, now, c->tRFC, REFR, ANY_BANK), 2);
    broken |= unless(kept(h, now, 2, MRS, ANY_BANK), 2);

    if (x.kind == ACT) {
        broken |= unless(h->mrs_sent, 3);
        broken |= unless(!h->open[x.bank], 4);
        broken |= unless(kept(h, now, c->tRP, PRE, only(x.bank)), 5);
        broken |= unless(kept(h, now, c->tRP, DEAC, ANY_BANK), 5);
        broken |= unless(kept(h, now, c->tRC, ACT, only(x.bank)), 6);
        broken |= unless(kept(h, now, c->tRRD, ACT, all_but(x.bank)), 7);
    }
    if (x.kind == READ || x.kind == WRT) {
        broken |= unless(h->open[x.bank], 8);
        broken |= unless(kept(h, now, c->tRCD, ACT, only(x.bank)), 9);
    }
    if (x.kind == WRT) {
        broken |= unless(kept(h, now, c->CL + 2, READ, ANY_BANK), 10);
    }
    if (x.kind == PRE) {
        broken |= unless(h->open[x.bank], 11);
        broken |= unless(kept_in_open_banks(h, now, c->tRAS, ACT, only(x.bank)), 12);
        broken |= unless(kept_in_open_banks(h, now, c->tWR, WRT, only(x.bank)), 13);
    }
    if (x.kind == DEAC) {
        broken |= unless(kept_in_open_banks(h, now, c->tRAS, ACT, ANY_BANK), 12);
        broken |= unless(kept_in_open_banks(h, now, c->tWR, WRT, ANY_BANK), 13);
    }
    if (x.kind == REFR || x.kind == MRS) {
        broken |= unless(all_banks_closed(h), 14);
        broken |= unless(kept(h, now, c->tRP, PRE, ANY_BANK), 15);
        broken |= unless(kept(h, now, c->tRP, DEAC, ANY_BANK), 15);
    }
    if (has_r16(x.kind)) {
        /* The latest ACT of all banks decides; no bank's own is later. */
        broken |= unless(kept(h, now, c->tRC, ACT, ANY_BANK), 16);
    }
    return broken;
}

/* ---- Damaged builds only: the rules that the build forgets for this command ---- */

/* The bank of the last READ or WRT. */
static unsigned last_used_bank(const struct history *h)
{
    uint64_t n;

    for (n = h->sent; n > 0 && n + KEPT_COMMANDS > h->sent; n--) {
        struct command past = h->list[(n - 1) % KEPT_COMMANDS].command;

        if (past.kind == READ || past.kind == WRT)
            return only(past.bank);
    }
    return 0;
}

static unsigned forgotten_rules(const struct configuration *c, const struct history *h, uint64_t now,
                                enum command_kind kind)
{
    if (DAMAGE >= FORGET_R1 && DAMAGE <= FORGET_R16)
        return rule(DAMAGE - FORGET_R1 + 1);
    if (DAMAGED(SHORT_AFTER_MRS) && kept(h, now, c->tRFC, REFR, ANY_BANK))
        return rule(2);
    if (DAMAGED(PRE_WITHOUT_TRAS) && kind == PRE)
        return rule(12);
    if (DAMAGED(DEAC_WITHOUT_TRAS) && kind == DEAC)
        return rule(12);
    if (DAMAGED(PRE_WITHOUT_TWR) && kind == PRE)
        return rule(13);
    if (DAMAGED(DEAC_WITHOUT_TWR) && kind == DEAC)
        return rule(13);
    if (DAMAGED(TWR_OF_LAST_BANK_ONLY) && kind == DEAC &&
        kept_in_open_banks(h, now, c->tWR, WRT, last_used_bank(h)))
        return rule(13);
    if (DAMAGED(R16_OF_BANK_0_ONLY) && kept(h, now, c->tRC, ACT, only(0)))
        return rule(16);
    if (DAMAGED(R16_OF_LAST_BANK_ONLY) && kept(h, now, c->tRC, ACT, last_used_bank(h)))
        return rule(16);
    if (DAMAGED(R16_OF_OPEN_BANKS_ONLY) && kept_in_open_banks(h, now, c->tRC, ACT, ANY_BANK))
        return rule(16);
    return 0;
}

bool legal(const struct configuration *c, const struct history *h, uint64_t now, struct command next)
{
    return (broken_rules(c, h, now, next) & ~forgotten_rules(c, h, now, next.kind)) == 0;
}
