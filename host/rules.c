#include "rules.h"
#include <stdio.h>

static const char *const RULE[] = {
    "",
    "bank, row and column must be in the device's geometry, and the word of an MRS must be 16 x CL",
    "no command but NOP may come less than tRFC after a REFR, or less than 2 slots after an MRS",
    "an MRS must come before the first ACT",
    "the bank of an ACT must be closed",
    "an ACT must keep tRP from the last PRE of its bank and from any DEAC",
    "an ACT must keep tRC from the last ACT of its bank",
    "an ACT must keep tRRD from the ACTs of other banks",
    "the bank of a READ or WRT must be open",
    "a READ or WRT must keep tRCD from the ACT of its bank",
    "a WRT must keep CL + 2 slots from any READ",
    "the bank of a PRE must be open",
    "a PRE or DEAC must keep tRAS from the ACT of each bank that it closes",
    "a PRE or DEAC must keep tWR from the last WRT to each bank that it closes",
    "all banks must be closed at a REFR or MRS",
    "a REFR or MRS must keep tRP from any PRE or DEAC",
    "a REFR must keep tRC from the last ACT of every bank",
};
enum { LAST_RULE = sizeof RULE / sizeof *RULE - 1 };

void print_rule(unsigned rule) {
    if (rule <= LAST_RULE) printf("# R%u: %s.\n", rule, RULE[rule]);
}

static void print_distance(const char *name, unsigned slots, const char *by, const Record *from) {
    if (from->slot == 0) return;
    printf("# %s is %u slots%s, and counts from ", name, slots, by);
    print_command(from);
    printf(".\n");
}

static void print_outside(const Illegal *i) {
    const Record *c = &i->command;
    bool has_bank = c->kind >= ACT && c->kind <= PRE, has_column = c->kind == READ || c->kind == WRT;
    if (has_bank && c->bank >= i->device.banks) printf("# Bank %u is outside: the largest is %u by CFG.\n", c->bank, i->device.banks - 1);
    if (c->kind == ACT && c->number >= i->device.rows) printf("# Row %u is outside: the largest is %u by ROW.\n", c->number, i->device.rows - 1);
    if (has_column && c->number >= i->device.columns) printf("# Column %u is outside: the largest is %u by CFG.\n", c->number, i->device.columns - 1);
    if (c->kind == MRS) printf("# The word is %u; 16 x CL is %u by CFG.\n", c->number, 16 * i->device.cl);
}

static void print_busy(const Illegal *i) {
    const Past *p = &i->past;
    bool refreshing = p->refr.slot != 0 && i->command.slot - p->refr.slot < i->device.rfc;
    if (refreshing) print_distance("tRFC", i->device.rfc, " by TIM", &p->refr);
    else print_distance("The distance from an MRS", 2, "", &p->mrs);
}

static void print_open(const Record *act) {
    printf("# Bank %u is open since ", act->bank);
    print_command(act);
    printf(".\n");
}

static void print_closed(unsigned bank, const Record *by) {
    if (by->slot == 0) {
        printf("# Bank %u was not opened before.\n", bank);
        return;
    }
    printf("# Bank %u is closed since ", bank);
    print_command(by);
    printf(".\n");
}

/* The last ACT of another bank. */
static const Record *other_act(const Past *past, unsigned bank) {
    const Record *last = &past->act[bank == 0 ? 1 : 0];
    for (unsigned b = 0; b < BANKS; b++)
        if (b != bank && past->act[b].slot > last->slot) last = &past->act[b];
    return last;
}

void print_cause(const Illegal *i) {
    const Device *d = &i->device;
    const Past *p = &i->past;
    unsigned bank = i->bank < BANKS ? i->bank : 0;
    switch (i->rule) {
    case 1: print_outside(i); break;
    case 2: print_busy(i); break;
    case 3: printf("# No MRS stands before it.\n"); break;
    case 4: print_open(&p->act[bank]); break;
    case 5: print_distance("tRP", d->rp, " by TIM", &p->pre[bank]); break;
    case 6: print_distance("tRC", d->rc, " by TIM", &p->act[bank]); break;
    case 7: print_distance("tRRD", d->rrd, " by TIM", other_act(p, bank)); break;
    case 8: print_closed(bank, &p->shut[bank]); break;
    case 9: print_distance("tRCD", d->rcd, " by TIM", &p->act[bank]); break;
    case 10: print_distance("CL + 2", d->cl + 2, " by CFG", &p->read); break;
    case 11: print_closed(bank, &p->shut[bank]); break;
    case 12: print_distance("tRAS", d->ras, " by TIM", &p->act[bank]); break;
    case 13: print_distance("tWR", d->wr, " by TIM", &p->wrt[bank]); break;
    case 14: print_open(&p->act[bank]); break;
    case 15: print_distance("tRP", d->rp, " by TIM", &p->any_pre); break;
    case 16: print_distance("tRC", d->rc, " by TIM", &p->act[bank]); break;
    default: break;
    }
}

void print_need(unsigned rule, unsigned bank) {
    switch (rule) {
    case 1: printf(": it needs other numbers, or these are not the words of its device"); break;
    case 3: printf(": an MRS has to come before it"); break;
    case 4: printf(": a PRE of bank %u or a DEAC has to come before it", bank); break;
    case 8:
    case 11: printf(": an ACT of bank %u has to come before it", bank); break;
    case 14: printf(": a DEAC, or a PRE of each open bank, has to come before it"); break;
    default: break;
    }
    printf(".\n");
}
