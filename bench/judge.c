/* A judge for tapes, the best C that was found for it (document 02, (v)), and a benchmark of the proved one against it, which bench/run builds with the proved one's archive.
   `plain_judge` answers as `girmutsab_judge` does for every input. With -DNO_MAIN -Dplain_judge=girmutsab_judge this file can stand in for the archive.

   usage: judge CFG ROW REF TIM TAPE ROUNDS

   Two walks go over a tape. The careful one keeps the slot of the last command of each kind and names what is wrong. Before it goes the fast one, which only says
   of a stretch whether all is well: it keeps the slots still to wait before each kind of command in a row of bytes, and takes what a command asks for and
   changes from a table, so that no branch depends on its kind. The careful walk alone has 0.9 of the speed on a busy tape and 0.65 on a light one. A
   row of ages, from which the rule could be told without a second walk, was no faster than the careful walk with most compilers. */
#define _POSIX_C_SOURCE 200809L
#include "../include/girmutsab.h"
#include <stdbool.h>
#include <string.h>

uint64_t plain_judge(uint32_t cfg, uint32_t row, uint32_t ref, uint32_t tim, const uint8_t *tape, size_t length);

enum { NOP, ACT, READ, WRT, PRE, DEAC, REFR, MRS, KINDS };

enum { BANKS = 4, FULL_RUN = 65535, AFTER_MRS = 2 };

/* The bytes of each kind's record. */
static const uint8_t SIZE[KINDS] = { 3, 4, 4, 6, 2, 1, 1, 3 };

typedef struct {
    uint32_t banks, rows, columns, word;
    uint8_t rfc, rp, rcd, wr, ras, rc, rrd, turn;
} Rules;

/* --- The words. */

static uint32_t bits(uint32_t word, unsigned low, unsigned count) { return word >> low & ((1u << count) - 1); }

static uint8_t distance(uint32_t tim, unsigned low, unsigned count) { return (uint8_t)(bits(tim, low, count) + 1); }

static uint32_t larger(uint32_t a, uint32_t b) { return a > b ? a : b; }

static unsigned rules_of(Rules *r, uint32_t cfg, uint32_t row, uint32_t ref, uint32_t tim) {
    if ((cfg & ~0x4E77u) | (row & ~7u) | (ref & ~0x1FFFu) | (tim & 0x0088008Fu)) return GIRMUTSAB_UNNAMED_BIT;
    uint32_t cl = bits(cfg, 9, 3), ibank = bits(cfg, 4, 3), page = bits(cfg, 0, 3);
    if (!bits(cfg, 14, 1) || cl < 2 || cl > 3 || ibank > 2 || page > 3 || row > 4) return GIRMUTSAB_NOT_OFFERED;
    *r = (Rules){ .banks = 1u << ibank, .rows = 512u << row, .columns = 256u << page, .word = 16 * cl, .rfc = distance(tim, 27, 5), .rp = distance(tim, 24, 3),
                  .rcd = distance(tim, 20, 3), .wr = distance(tim, 16, 3), .ras = distance(tim, 12, 4), .rc = distance(tim, 8, 4), .rrd = distance(tim, 4, 3),
                  .turn = (uint8_t)(cl + 2) };
    uint32_t m = larger(r->ras, r->wr);
    uint32_t access = m + r->rp + r->rc + r->rrd + r->rcd + cl + 2, refresh = larger(m + r->rp, r->rc) + r->rfc;
    return ref < access + 6 * refresh ? GIRMUTSAB_SHORT_INTERVAL : 0;
}

/* --- The careful walk. */

/* In here slots count from EARLY + 1. Slot 0 is that of a command not sent: every distance from it is kept. */
enum { EARLY = 64 };

typedef struct {
    uint64_t act[BANKS], pre[BANKS], wrt[BANKS]; /* the last one's slot, of each bank; a DEAC is a PRE of each */
    uint64_t any_act, any_pre, read;
    uint64_t free;     /* the first slot that R2 leaves free */
    uint32_t act_bank; /* the bank of any_act */
    uint32_t open;     /* a bit for each bank */
    bool moded;
} Past;

/* A place on the tape behind a command, and as much of the past as no later command outdates. */
typedef struct { size_t at; uint64_t slot; uint32_t state; } Mark;
/* The bits of a mark's state: banks that are open, and whether MRS has been sent. */
enum { OPEN = 15, MODED = 16 };

static uint64_t illegal(uint64_t slot, uint32_t rule, uint32_t bank) { return (slot - EARLY) << 24 | bank << 16 | rule << 8; }

static uint32_t pair(const uint8_t *bytes) { return bytes[0] | (uint32_t)bytes[1] << 8; }

/* Each of these gives 0 where the command is legal in this slot, and then it is past. */

static uint64_t act(const Rules *r, Past *p, uint64_t slot, uint32_t bank, uint32_t row) {
    if (bank >= r->banks || row >= r->rows) return illegal(slot, 1, 0);
    if (slot < p->free) return illegal(slot, 2, 0);
    if (!p->moded) return illegal(slot, 3, 0);
    if (p->open >> bank & 1) return illegal(slot, 4, bank);
    if (slot < p->pre[bank] + r->rp) return illegal(slot, 5, bank);
    if (slot < p->act[bank] + r->rc) return illegal(slot, 6, bank);
    /* The last ACT is enough: it kept its own distance from those of other banks. */
    if (p->act_bank != bank && slot < p->any_act + r->rrd) return illegal(slot, 7, bank);
    p->act[bank] = p->any_act = slot;
    p->act_bank = bank;
    p->open |= 1u << bank;
    return 0;
}

static uint64_t access(const Rules *r, Past *p, uint64_t slot, uint32_t kind, uint32_t bank, uint32_t column) {
    if (bank >= r->banks || column >= r->columns) return illegal(slot, 1, 0);
    if (slot < p->free) return illegal(slot, 2, 0);
    if (!(p->open >> bank & 1)) return illegal(slot, 8, bank);
    if (slot < p->act[bank] + r->rcd) return illegal(slot, 9, bank);
    if (kind == READ) {
        p->read = slot;
        return 0;
    }
    if (slot < p->read + r->turn) return illegal(slot, 10, 0);
    p->wrt[bank] = slot;
    return 0;
}

static uint64_t pre(const Rules *r, Past *p, uint64_t slot, uint32_t bank) {
    if (bank >= r->banks) return illegal(slot, 1, 0);
    if (slot < p->free) return illegal(slot, 2, 0);
    if (!(p->open >> bank & 1)) return illegal(slot, 11, bank);
    if (slot < p->act[bank] + r->ras) return illegal(slot, 12, bank);
    if (slot < p->wrt[bank] + r->wr) return illegal(slot, 13, bank);
    p->pre[bank] = p->any_pre = slot;
    p->open &= ~(1u << bank);
    return 0;
}

static uint64_t deac(const Rules *r, Past *p, uint64_t slot) {
    if (slot < p->free) return illegal(slot, 2, 0);
    for (uint32_t b = 0; b < BANKS; b++)
        if (p->open >> b & 1 && slot < p->act[b] + r->ras) return illegal(slot, 12, b);
    for (uint32_t b = 0; b < BANKS; b++)
        if (p->open >> b & 1 && slot < p->wrt[b] + r->wr) return illegal(slot, 13, b);
    for (uint32_t b = 0; b < BANKS; b++) p->pre[b] = slot;
    p->any_pre = slot;
    p->open = 0;
    return 0;
}

/* What REFR and MRS share. */
static uint64_t at_rest(const Rules *r, const Past *p, uint64_t slot) {
    if (slot < p->free) return illegal(slot, 2, 0);
    for (uint32_t b = 0; b < BANKS; b++)
        if (p->open >> b & 1) return illegal(slot, 14, b);
    return slot < p->any_pre + r->rp ? illegal(slot, 15, 0) : 0;
}

static uint64_t refr(const Rules *r, Past *p, uint64_t slot) {
    uint64_t answer = at_rest(r, p, slot);
    if (answer) return answer;
    for (uint32_t b = 0; b < BANKS; b++)
        if (slot < p->act[b] + r->rc) return illegal(slot, 16, b);
    p->free = slot + r->rfc;
    return 0;
}

static uint64_t mrs(const Rules *r, Past *p, uint64_t slot, uint32_t word) {
    if (word != r->word) return illegal(slot, 1, 0);
    uint64_t answer = at_rest(r, p, slot);
    if (answer) return answer;
    p->free = slot + AFTER_MRS;
    p->moded = true;
    return 0;
}

static uint64_t command(const Rules *r, Past *p, uint64_t slot, uint32_t kind, const uint8_t *body) {
    if (kind == ACT) return act(r, p, slot, body[0], pair(body + 1));
    if (kind == READ || kind == WRT) return access(r, p, slot, kind, body[0], pair(body + 1));
    if (kind == PRE) return pre(r, p, slot, body[0]);
    if (kind == DEAC) return deac(r, p, slot);
    if (kind == REFR) return refr(r, p, slot);
    return mrs(r, p, slot, pair(body));
}

/* Judges the tape from a mark on. What happened in the slots before it counts as long past. */
static uint64_t careful(const Rules *r, const uint8_t *tape, size_t length, Mark from) {
    Past past = { .open = from.state & OPEN, .moded = from.state & MODED };
    uint64_t slot = from.slot + EARLY, answer = 0;
    uint32_t run = 0; /* the count of the run just before */
    for (size_t at = from.at; at < length;) {
        uint32_t kind = tape[at];
        if (kind >= KINDS) return GIRMUTSAB_UNKNOWN_KIND;
        if (length - at < SIZE[kind]) return GIRMUTSAB_CUT;
        const uint8_t *body = tape + at + 1;
        at += SIZE[kind];
        if (kind == NOP) {
            uint32_t count = pair(body);
            if (count == 0 || (run != 0 && run != FULL_RUN)) return GIRMUTSAB_WRONG_RUN;
            run = count;
            slot += count;
        } else {
            run = 0;
            slot++;
            if (!answer) answer = command(r, &past, slot, kind, body);
        }
    }
    return answer;
}

/* --- The fast walk. */

/* The places of the row. A WRT has two, what it shares with READ and what it waits for after one; a DEAC waits for every bank's PRE, since a closed bank's is over. */
enum { TO_ACT = 0, TO_ACCESS = 4, TO_PRE = 8, TO_DEAC = 12, TO_REFR, TO_MRS, TO_WRT, PLACES };

/* A command to a bank: the least slots before each other one after it; where its own slots to wait stand; what the state must be, where looked at, and becomes. */
typedef struct {
    uint8_t wait[PLACES];
    uint8_t place, other;
    uint8_t looked, wanted, kept, set;
    uint8_t spare[10]; /* so that an order takes 32 bytes */
} Order;

typedef struct {
    Order order[KINDS][BANKS];
    uint32_t limit[KINDS]; /* of a row or column */
    uint32_t banks, word;
} Table;

static void fill_act(Order *o, const Rules *r, uint32_t bank) {
    memset(o->wait + TO_ACT, r->rrd, BANKS);
    o->wait[TO_ACT + bank] = o->wait[TO_REFR] = r->rc;
    o->wait[TO_ACCESS + bank] = r->rcd;
    o->wait[TO_PRE + bank] = o->wait[TO_DEAC] = r->ras;
    o->place = o->other = (uint8_t)(TO_ACT + bank);
    o->set = (uint8_t)(1u << bank);
    o->looked = MODED | o->set;
    o->wanted = MODED;
}

static void fill_access(Order *o, const Rules *r, uint32_t kind, uint32_t bank) {
    if (kind == READ) o->wait[TO_WRT] = r->turn;
    else o->wait[TO_PRE + bank] = o->wait[TO_DEAC] = r->wr;
    o->place = (uint8_t)(TO_ACCESS + bank);
    o->other = kind == WRT ? TO_WRT : o->place;
    o->looked = o->wanted = (uint8_t)(1u << bank);
}

static void fill_pre(Order *o, const Rules *r, uint32_t bank) {
    o->wait[TO_ACT + bank] = o->wait[TO_REFR] = o->wait[TO_MRS] = r->rp;
    o->place = o->other = (uint8_t)(TO_PRE + bank);
    o->looked = o->wanted = (uint8_t)(1u << bank);
    o->kept = (uint8_t)~o->looked;
}

static void fill_deac(Order *o, const Rules *r) {
    memset(o->wait + TO_ACT, r->rp, BANKS);
    o->wait[TO_REFR] = o->wait[TO_MRS] = r->rp;
    o->place = o->other = TO_DEAC;
    o->kept = MODED;
}

static void fill_at_rest(Order *o, uint8_t wait, uint8_t place, uint8_t set) {
    memset(o->wait, wait, PLACES);
    o->place = o->other = place;
    o->looked = OPEN;
    o->set = set;
}

static void fill(Table *t, const Rules *r) {
    memset(t, 0, sizeof *t);
    for (uint32_t kind = ACT; kind < KINDS; kind++)
        for (uint32_t bank = 0; bank < BANKS; bank++) {
            Order *o = &t->order[kind][bank];
            o->kept = OPEN | MODED;
            if (kind == ACT) fill_act(o, r, bank);
            else if (kind == READ || kind == WRT) fill_access(o, r, kind, bank);
            else if (kind == PRE) fill_pre(o, r, bank);
            else if (kind == DEAC) fill_deac(o, r);
            else if (kind == REFR) fill_at_rest(o, r->rfc, TO_REFR, 0);
            else fill_at_rest(o, AFTER_MRS, TO_MRS, MODED);
        }
    t->limit[ACT] = r->rows;
    t->limit[READ] = t->limit[WRT] = r->columns;
    t->limit[PRE] = 65536;
    t->limit[DEAC] = t->limit[REFR] = t->limit[MRS] = 1;
    t->banks = r->banks;
    t->word = r->word;
}

/* The bytes of a run's record and the longest command's; and more slots than the longest distance. */
enum { PAIR = 9, LONG = 64 };

/* Walks on behind the mark until its place is `end` or beyond, and says whether all is well so far; where not, mark and row are of no more use. PAIR bytes can
   be read from `end` on. */
static bool fast(const Table *t, uint8_t row[PLACES], Mark *mark, const uint8_t *tape, size_t end) {
    uint8_t wait[PLACES];
    memcpy(wait, row, PLACES);
    size_t at = mark->at;
    uint64_t slot = mark->slot;
    uint32_t state = mark->state;
    while (at < end) {
        uint32_t kind = tape[at], count = 0;
        if (kind == NOP) {
            count = pair(tape + at + 1);
            at += 3;
            kind = tape[at];
            if (count == 0 || kind == NOP) return false;
        }
        uint32_t bank = tape[at + 1], low = pair(tape + at + 2);
        if (kind > PRE) {
            if (kind >= KINDS) return false;
            low = kind == MRS ? pair(tape + at + 1) ^ t->word : 0;
            bank = 0;
        }
        if (bank >= t->banks || low >= t->limit[kind]) return false;
        at += SIZE[kind];
        slot += count + 1;
        uint8_t passed = (uint8_t)(count < LONG ? count + 1 : LONG);
        for (int i = 0; i < PLACES; i++) wait[i] = (uint8_t)((wait[i] > passed ? wait[i] : passed) - passed);
        const Order *o = &t->order[kind][bank];
        if ((state ^ o->wanted) & o->looked || wait[o->place] | wait[o->other]) return false;
        for (int i = 0; i < PLACES; i++) wait[i] = wait[i] > o->wait[i] ? wait[i] : o->wait[i];
        state = (state & o->kept) | o->set;
    }
    memcpy(row, wait, PLACES);
    *mark = (Mark){ at, slot, state };
    return true;
}

/* --- Both. */

/* A stretch is so long that its slots are more than the longest distance: no past before the mark before the last counts. */
enum { STRETCH = 2048 };

static uint64_t judged(const Rules *r, const uint8_t *tape, size_t length) {
    Mark before = { 0, 0, 0 }, mark = before;
    if (length >= 2 * STRETCH) {
        Table table;
        uint8_t row[PLACES] = { 0 };
        fill(&table, r);
        Mark next = mark;
        while (length - mark.at >= STRETCH + PAIR && fast(&table, row, &next, tape, mark.at + STRETCH)) {
            before = mark;
            mark = next;
        }
    }
    return careful(r, tape, length, before);
}

uint64_t plain_judge(uint32_t cfg, uint32_t row, uint32_t ref, uint32_t tim, const uint8_t *tape, size_t length) {
    Rules rules;
    unsigned number = rules_of(&rules, cfg, row, ref, tim);
    if (number) return number;
    if (length > GIRMUTSAB_TAPE_LIMIT) return GIRMUTSAB_TOO_LONG;
    return judged(&rules, tape, length);
}

#ifndef NO_MAIN
#include <fcntl.h>
#include <stdio.h>
#include <stdlib.h>
#include <sys/mman.h>
#include <sys/stat.h>
#include <time.h>

typedef uint64_t Judge(uint32_t cfg, uint32_t row, uint32_t ref, uint32_t tim, const uint8_t *tape, size_t length);

static void stop(const char *why) {
    fprintf(stderr, "judge: %s\n", why);
    exit(2);
}

static uint32_t word(const char *text) { return (uint32_t)strtoul(text, NULL, strncmp(text, "0x", 2) == 0 ? 16 : 10); }

static const uint8_t *mapped(const char *name, size_t *length) {
    struct stat about;
    int file = open(name, O_RDONLY);
    if (file < 0 || fstat(file, &about) != 0 || about.st_size <= 0) stop("the tape cannot be read, or is empty");
    *length = (size_t)about.st_size;
    void *tape = mmap(NULL, *length, PROT_READ, MAP_PRIVATE, file, 0);
    if (tape == MAP_FAILED) stop("the tape cannot be mapped");
    return tape;
}

/* Processor time so far, in seconds. */
static double now(void) {
    struct timespec time;
    clock_gettime(CLOCK_PROCESS_CPUTIME_ID, &time);
    return (double)time.tv_sec + (double)time.tv_nsec / 1e9;
}

int main(int count, char **given) {
    if (count != 7) stop("usage: judge CFG ROW REF TIM TAPE ROUNDS");
    Judge *const judges[2] = { girmutsab_judge, plain_judge };
    double best[2] = { 1e9, 1e9 };
    size_t length;
    const uint8_t *tape = mapped(given[5], &length);
    uint64_t answers[2] = { 0, 0 };
    for (long rounds = strtol(given[6], NULL, 10); rounds > 0; rounds--) {
        for (int i = 0; i < 2; i++) {
            double before = now();
            answers[i] = judges[i](word(given[1]), word(given[2]), word(given[3]), word(given[4]), tape, length);
            double time = now() - before;
            best[i] = time < best[i] ? time : best[i];
        }
        if (answers[0] != answers[1]) stop("the answers differ");
    }
    double megabytes = (double)length / 1e6;
    printf("answer %llu: proved %.0f MB/s, best C %.0f MB/s, ratio of the times %.2f\n", (unsigned long long)answers[0], megabytes / best[0], megabytes / best[1],
           best[0] / best[1]);
    return 0;
}
#endif
