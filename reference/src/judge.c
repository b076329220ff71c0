#include "judge.h"

#include <inttypes.h>
#include <stdbool.h>
#include <stdio.h>

#include "command.h"
#include "damage.h"
#include "tape.h"

/* ---- The device, as far as the tape has told ---- */

struct device {
    struct configuration c;
    uint64_t slot; /* the one that is judged */

    /* The slot of the last command of each kind to each bank, or at 0 if it has none; 0: not yet sent. */
    uint64_t last[MRS + 1][MOST_BANKS];
};

static bool sent(const struct device *d, enum command_kind kind, unsigned bank)
{
    return d->last[kind][bank] != 0;
}

/* Less than so many slots after the last such command? A distance from one not yet sent counts as kept. */
static bool early(const struct device *d, unsigned distance, enum command_kind kind, unsigned bank)
{
    uint64_t age = d->slot - d->last[kind][bank];

    age = SLIP(JUDGE_AGES_OF_16_BITS, age, age % 65536);
    age = SLIP(JUDGE_AGES_OF_32_BITS, age, (uint32_t)age);
    return (sent(d, kind, bank) || DAMAGED(JUDGE_NOT_SENT_IS_SLOT_0)) && age < distance;
}

static bool early_in_any_bank(const struct device *d, unsigned distance, enum command_kind kind)
{
    unsigned bank;

    for (bank = 0; bank < MOST_BANKS; bank++)
        if (early(d, distance, kind, bank))
            return true;
    return false;
}

/* Open from its ACT to its PRE or to any DEAC. */
static bool is_open(const struct device *d, unsigned bank)
{
    return d->last[ACT][bank] > d->last[PRE][bank] && d->last[ACT][bank] > d->last[DEAC][0];
}

/* ---- Document 01, "Commands and their distances", and R16 ---- */

enum { RULES = 16 };

/* A set of rules. */
#define R(n) (1u << (n))

static const unsigned rules_of[] = {
    [NOP] = 0,
    [ACT] = R(1) | R(2) | R(3) | R(4) | R(5) | R(6) | R(7),
    [READ] = R(1) | R(2) | R(8) | R(9),
    [WRT] = R(1) | R(2) | R(8) | R(9) | R(10),
    [PRE] = R(1) | R(2) | R(11) | R(12) | R(13),
    [DEAC] = R(1) | R(2) | R(12) | R(13),
    [REFR] = R(1) | R(2) | R(14) | R(15) | R(16),
    [MRS] = R(1) | R(2) | R(14) | R(15),
};

/* Damaged builds only: a rule forgotten altogether, or by one of its commands. */
static bool forgotten(struct command x, unsigned rule)
{
    static const struct {
        enum damage damage;
        enum command_kind kind;
        unsigned rule;
    } lost[] = {
        {JUDGE_ACT_WITHOUT_R1, ACT, 1},     {JUDGE_READ_WITHOUT_R1, READ, 1},   {JUDGE_WRT_WITHOUT_R1, WRT, 1},
        {JUDGE_PRE_WITHOUT_R1, PRE, 1},     {JUDGE_ACT_WITHOUT_R2, ACT, 2},     {JUDGE_READ_WITHOUT_R2, READ, 2},
        {JUDGE_WRT_WITHOUT_R2, WRT, 2},     {JUDGE_PRE_WITHOUT_R2, PRE, 2},     {JUDGE_DEAC_WITHOUT_R2, DEAC, 2},
        {JUDGE_REFR_WITHOUT_R2, REFR, 2},   {JUDGE_MRS_WITHOUT_R2, MRS, 2},     {JUDGE_READ_WITHOUT_R8, READ, 8},
        {JUDGE_WRT_WITHOUT_R8, WRT, 8},     {JUDGE_READ_WITHOUT_R9, READ, 9},   {JUDGE_WRT_WITHOUT_R9, WRT, 9},
        {JUDGE_PRE_WITHOUT_R12, PRE, 12},   {JUDGE_DEAC_WITHOUT_R12, DEAC, 12}, {JUDGE_PRE_WITHOUT_R13, PRE, 13},
        {JUDGE_DEAC_WITHOUT_R13, DEAC, 13}, {JUDGE_REFR_WITHOUT_R14, REFR, 14}, {JUDGE_MRS_WITHOUT_R14, MRS, 14},
        {JUDGE_REFR_WITHOUT_R15, REFR, 15}, {JUDGE_MRS_WITHOUT_R15, MRS, 15},
    };
    unsigned n;

    if (rule == 1 && x.bank >= MOST_BANKS)
        return false; /* of such a bank nothing is kept */
    if (DAMAGE >= JUDGE_FORGET_R1 && rule == DAMAGE - JUDGE_FORGET_R1 + 1)
        return true;
    for (n = 0; n < sizeof lost / sizeof lost[0]; n++)
        if (DAMAGED(lost[n].damage) && x.kind == lost[n].kind && rule == lost[n].rule)
            return true;
    return false;
}

static bool has_rule(struct command x, unsigned rule)
{
    if (DAMAGED(JUDGE_MRS_WITH_R16) && x.kind == MRS && rule == 16)
        return true;
    return (rules_of[x.kind] & R(rule)) != 0 && (DAMAGE == SOUND || !forgotten(x, rule));
}

/* Is the rule looked at in this bank? The first bank in which it is broken is the one reported. */
static bool looked_at(struct command x, unsigned rule, unsigned bank)
{
    switch (rule) {
    case 1:
    case 2:
    case 3:
    case 10:
    case 15:
        return bank == 0; /* once; it is no matter of a bank */
    case 12:
    case 13:
        return x.kind == DEAC || bank == x.bank;
    case 14:
    case 16:
        return true;
    default:
        return bank == x.bank;
    }
}

/* R1: bank, row and column lie in the geometry; the MRS word is 16 x CL. */
static bool lies_outside(const struct configuration *c, struct command x)
{
    bool bank = x.bank >= 1u << c->geometry.bank_bits;
    bool row = x.row >= 1u << c->geometry.row_bits;
    bool column = x.column >= 1u << c->geometry.column_bits;
    bool word = x.kind == MRS && x.word != 16 * c->CL;

    if (DAMAGED(JUDGE_R1_WITHOUT_BANK))
        bank = x.bank >= MOST_BANKS;
    return bank || SLIP(JUDGE_R1_WITHOUT_ROW, row, false) || SLIP(JUDGE_R1_WITHOUT_COLUMN, column, false) ||
           SLIP(JUDGE_R1_WITHOUT_WORD, word, false);
}

static bool other_bank_early(const struct device *d, unsigned distance, enum command_kind kind, unsigned bank)
{
    unsigned other;

    for (other = 0; other < MOST_BANKS; other++)
        if (other != bank && early(d, distance, kind, other))
            return true;
    return false;
}

/* A rule's distance. In damaged builds it may be one slot shorter or longer. */
#define DISTANCE(rule, slots) ((slots) - SLIP(JUDGE_SHORT_##rule, 0, 1) + SLIP(JUDGE_LONG_##rule, 0, 1))

/* Does the command break this rule, which it has, in this bank? */
static bool broken(const struct device *d, struct command x, unsigned rule, unsigned bank)
{
    const struct configuration *c = &d->c;

    switch (rule) {
    case 1:
        return lies_outside(c, x);
    case 2: /* after REFR, tRFC, and after MRS, 2 slots */
        return (early(d, DISTANCE(R2_REFR, c->tRFC), REFR, 0) && !DAMAGED(JUDGE_R2_WITHOUT_REFR)) ||
               (early(d, DISTANCE(R2_MRS, 2), MRS, 0) && !DAMAGED(JUDGE_R2_WITHOUT_MRS));
    case 3: /* an MRS has been sent */
        return !sent(d, MRS, 0);
    case 4: /* bank closed */
        return is_open(d, bank);
    case 5: /* tRP after its last PRE or any DEAC */
        return (early(d, DISTANCE(R5, c->tRP), PRE, bank) && !DAMAGED(JUDGE_R5_WITHOUT_PRE)) ||
               (early(d, DISTANCE(R5, c->tRP), DEAC, 0) && !DAMAGED(JUDGE_R5_WITHOUT_DEAC)) ||
               (DAMAGED(JUDGE_R5_BY_ANY_PRE) && early_in_any_bank(d, c->tRP, PRE));
    case 6: /* tRC after the bank's last ACT */
        return early(d, DISTANCE(R6, c->tRC), ACT, bank);
    case 7: /* tRRD after an ACT of another bank */
        return other_bank_early(d, DISTANCE(R7, c->tRRD), ACT, bank) ||
               (DAMAGED(JUDGE_R7_BY_ITS_BANK_TOO) && early(d, c->tRRD, ACT, bank));
    case 8: /* bank open */
        return !is_open(d, bank);
    case 9: /* tRCD after its ACT */
        return early(d, DISTANCE(R9, c->tRCD), ACT, bank);
    case 10: /* CL + 2 after any READ */
        if (DAMAGED(JUDGE_R10_BY_ITS_BANK))
            return early(d, c->CL + 2, READ, x.bank);
        return early_in_any_bank(d, DISTANCE(R10, c->CL + 2), READ);
    case 11: /* bank open */
        return !is_open(d, bank);
    case 12: /* tRAS after its ACT; of every open bank */
        return is_open(d, bank) && early(d, DISTANCE(R12, c->tRAS), ACT, bank);
    case 13: /* tWR after a WRT to it; of every open bank */
        return is_open(d, bank) && early(d, DISTANCE(R13, c->tWR), WRT, bank);
    case 14: /* all banks closed */
        return is_open(d, bank);
    case 15: /* tRP after any PRE or DEAC */
        return (early_in_any_bank(d, DISTANCE(R15, c->tRP), PRE) && !DAMAGED(JUDGE_R15_WITHOUT_PRE)) ||
               (early(d, DISTANCE(R15, c->tRP), DEAC, 0) && !DAMAGED(JUDGE_R15_WITHOUT_DEAC));
    default: /* R16: tRC after every bank's last ACT */
        return early(d, DISTANCE(R16, c->tRC), ACT, bank);
    }
}

/* ---- The search ---- */

/* Damaged builds only: a bank is named where another, or 0, is asked for. */
static unsigned named(const struct device *d, struct command x, unsigned rule, unsigned bank)
{
    bool own = (4 <= rule && rule <= 9) || x.kind == PRE;

    if ((DAMAGED(JUDGE_R1_NAMES_BANK) && rule == 1) || (DAMAGED(JUDGE_R2_NAMES_BANK) && rule == 2) ||
        (DAMAGED(JUDGE_R3_NAMES_BANK) && rule == 3) || (DAMAGED(JUDGE_R10_NAMES_BANK) && rule == 10) ||
        (DAMAGED(JUDGE_R12_NAMES_COMMANDS_BANK) && rule == 12) ||
        (DAMAGED(JUDGE_R13_NAMES_COMMANDS_BANK) && rule == 13) ||
        (DAMAGED(JUDGE_R14_NAMES_COMMANDS_BANK) && rule == 14) ||
        (DAMAGED(JUDGE_R16_NAMES_COMMANDS_BANK) && rule == 16))
        return x.bank;
    if (DAMAGED(JUDGE_R7_NAMES_BANK_FOUND) && rule == 7)
        for (bank = 0; bank == x.bank || !early(d, d->c.tRRD, ACT, bank);)
            bank++;
    if (DAMAGED(JUDGE_R15_NAMES_BANK) && rule == 15 && !early(d, d->c.tRP, DEAC, 0))
        while (!early(d, d->c.tRP, PRE, bank))
            bank++;
    return SLIP(JUDGE_COMMANDS_BANK_IS_0, bank, own ? 0 : bank);
}

/* Damaged builds only. */
static bool breaks_by_bank(const struct device *d, struct command x, struct verdict *v)
{
    for (v->bank = 0; v->bank < MOST_BANKS; v->bank++)
        for (v->rule = 1; v->rule <= RULES; v->rule++)
            if (has_rule(x, v->rule) && looked_at(x, v->rule, v->bank) && broken(d, x, v->rule, v->bank))
                return true;
    v->bank = v->rule = 0;
    return false;
}

/* Rules by rising number, banks in a rule likewise; the search stops at the first. */
static bool breaks_a_rule(const struct device *d, struct command x, struct verdict *v)
{
    unsigned m, n;

    if (x.kind == NOP)
        return false; /* it has no rules */
    if (DAMAGED(JUDGE_BANKS_BEFORE_RULES))
        return breaks_by_bank(d, x, v);
    for (m = 1; m <= RULES; m++) {
        unsigned rule = SLIP(JUDGE_RULES_FALLING, m, RULES + 1 - m);

        for (n = 0; n < MOST_BANKS && has_rule(x, rule); n++) {
            unsigned bank = SLIP(JUDGE_BANKS_FALLING, n, MOST_BANKS - 1 - n);

            if (looked_at(x, rule, bank) && broken(d, x, rule, bank)) {
                v->rule = rule;
                v->bank = DAMAGE == SOUND ? bank : named(d, x, rule, bank);
                return true;
            }
        }
    }
    return false;
}

static void send(struct device *d, struct command x)
{
    d->last[x.kind][x.bank] = d->slot;
}

/* Damaged builds only: `slot` stands in the tape's record of this number. */
static uint64_t miscounted(uint64_t slot, uint64_t record)
{
    if (DAMAGED(JUDGE_SLOT_FROM_0))
        return slot - 1;
    if (DAMAGED(JUDGE_SLOT_OF_32_BITS))
        return (uint32_t)slot;
    return SLIP(JUDGE_RUN_COUNTS_ONE_SLOT, slot, record);
}

/* For an accepted configuration and a tape that the reader takes. */
static struct verdict first_illegal_slot(const struct configuration *c, const unsigned char *tape, size_t length)
{
    struct verdict v = {ACCEPTED, 0, 0, 0};
    struct device d = {*c, 0, {{0}}};
    struct tape_reader t;
    struct record r;
    uint64_t records = 0;

    tape_read_bytes(&t, tape, length);
    while (tape_next(&t, &r)) {
        records++;
        d.slot += SLIP(JUDGE_RUN_AGES_BY_ONE, r.slots, 1); /* a run's last slot: NOP is always legal */
        if (!breaks_a_rule(&d, r.command, &v)) {
            send(&d, r.command);
            continue;
        }
        if (DAMAGED(JUDGE_RULE_OF_SLOT_AFTER)) {
            v.rule = v.bank = 0;
            d.slot++;
            breaks_a_rule(&d, r.command, &v);
        }
        v.slot = miscounted(t.slots, records);
        if (!DAMAGED(JUDGE_LAST_ILLEGAL_SLOT))
            break;
    }
    return v;
}

/* 11 to 13, or ACCEPTED. */
static enum number first_refusal(const unsigned char *tape, size_t length)
{
    struct tape_reader t;
    struct record r;

    tape_read_bytes(&t, tape, length);
    while (tape_next(&t, &r))
        ;
    return t.number;
}

/* In this order: the words, the length, the reader. */
static enum number refusal(struct words w, struct configuration *c, const unsigned char *tape, size_t length)
{
    enum number of_words = configure(w, c);
    bool too_long = length > LONGEST_TAPE - SLIP(JUDGE_19_AT_LIMIT, 0, 1) + SLIP(JUDGE_19_ONE_LATE, 0, 1);

    if (DAMAGED(JUDGE_REFUSAL_BEFORE_WORDS) && first_refusal(tape, length) != ACCEPTED)
        return first_refusal(tape, length);
    if (DAMAGED(JUDGE_19_BEFORE_WORDS) && too_long)
        return TAPE_TOO_LONG;
    if (of_words != ACCEPTED)
        return of_words;
    if (DAMAGED(JUDGE_19_AFTER_REFUSAL) && first_refusal(tape, length) != ACCEPTED)
        return first_refusal(tape, length);
    if (too_long)
        return TAPE_TOO_LONG;
    return first_refusal(tape, length);
}

struct verdict judge(struct words w, const unsigned char *tape, size_t length)
{
    struct verdict v = {ACCEPTED, 0, 0, 0};
    struct configuration c;
    enum number number = refusal(w, &c, tape, length);
    bool by_reader = number >= KIND_ABOVE_7 && number <= RUN_MISSPELLED;
    bool read_on = DAMAGED(JUDGE_REFUSAL_BEHIND_IGNORED) || DAMAGED(JUDGE_REFUSED_NAMES_SLOT);

    if (number == ACCEPTED || (by_reader && read_on))
        v = first_illegal_slot(&c, tape, length);
    if (v.slot == 0 || !DAMAGED(JUDGE_REFUSAL_BEHIND_IGNORED))
        v.number = number;
    return v;
}

void print_verdict(struct verdict v)
{
    printf("judge %d %" PRIu64 " %u %u\n", v.number, v.slot, v.rule, v.bank);
}
