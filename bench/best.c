/* The best C that was found for the work of bench/baseline.c: the same answers, commands and reports, and so the same digest. bench/run measures
   the proved machine against both. It makes no test for number 9. With -DMANY it runs 64 slots in each call, into arrays of words (docs/PACKING.md), and tests
   the record once a call, as the proved call does. What makes it faster than the plain one:
   - the ages lie in one row of bytes, made older at the top of each slot by one loop without branches (a few vector instructions);
   - a slot branches on the action first, and tests only what can fail there: a slot that waits only counts;
   - the queue is searched only when a choice is made, and its requests are flat, 16 bytes each;
   - everything is changed in place. */
#include <stdbool.h>
#include <stddef.h>
#include <stdint.h>
#include <stdio.h>

#ifndef SLOTS
#define SLOTS 10000000u
#endif

/* One slot in so many asks. */
#define LOAD 8

/* Is the backlog read after each slot? With MANY: after each call. */
#define READING 0

/* CAP is above the longest span that is tested, tRFC's 32. */
enum { CAP = 33, PLACES = 8, BANKS = 4 };

/* E4's configuration: 8 column, 2 bank and 13 row bits, CL 3. */
enum { COLUMNS = 8, BANK_BITS = 2, ROWS = 13, CL = 3, RFC = 9, RP = 3, RCD = 3, WR = 2, RAS = 6, RC = 9, RRD = 2, RR = 136 };

typedef enum { NOP, ACT, READ, WRT, PRE, DEAC, REFR, MRS } Kind;
#ifdef MANY
/* Words (docs/PACKING.md), stored where the command is known. */
typedef uint64_t Command;
typedef uint64_t Report;
#define COMMAND(kind, bank, place, halfword) ((uint64_t)(kind) | (uint64_t)(bank) << 8 | (uint64_t)(place) << 16 | (uint64_t)(halfword) << 32)
#define REPORT(kind, number, halfword) ((uint64_t)(kind) | (uint64_t)(halfword) << 16 | (uint64_t)(number) << 32)
#else
typedef struct { Kind kind; uint8_t bank; uint16_t place; uint16_t halfword; } Command;
typedef struct { uint8_t kind; uint32_t number; uint16_t halfword; } Report; /* 0 nothing, 1 read, 2 write */
#define COMMAND(kind, bank, place, halfword) ((Command){ kind, bank, place, halfword })
#define REPORT(kind, number, halfword) ((Report){ kind, number, halfword })
#endif

/* The row of ages: how many slots ago ACT, PRE (or DEAC) and WRT went to each bank, and REFR, PRE or DEAC, and READ to any. None is needed for
   MRS, since a NOP always follows it; the last byte is spare. */
enum { ACT_AGE = 0, PRE_AGE = BANKS, WRT_AGE = 2 * BANKS, REFR_AGE = 3 * BANKS, CLOSE_AGE, READ_AGE, AGES = 16 };

typedef struct { uint32_t number, block; uint16_t row, column, halfword; uint8_t bank; bool write; } Request;
typedef enum { PAUSE, CLOSE, REFRESHES, MODE, SETTLE, DONE } Stage;
typedef enum { IDLE, ACCESS, DATA, TURN, CLOSING, REFRESHING, RECOVER } Action;

typedef struct {
    uint8_t age[AGES];
    uint16_t row[BANKS];
    bool open[BANKS];
    uint8_t columns, bank_bits, rows, cl, rfc, rp, rcd, wr, ras, rc, rrd;
    uint16_t rr, interval;
    uint8_t backlog, left;
    bool run;
    Stage stage;
    uint32_t stage_left;
    Action action;
    uint32_t at, count, accepted;
    Request place[PLACES];
} Machine;

/* Goes first in every slot, so in the rest of the slot a span of n slots is over if the age is above n; what is sent in this slot gets age 1. */
static void older(Machine *m)
{
    for (int i = 0; i < AGES; i++) {
        uint8_t next = (uint8_t)(m->age[i] + 1);
        m->age[i] = next < CAP ? next : CAP;
    }
}

static bool all_closed(const Machine *m) { return !(m->open[0] | m->open[1] | m->open[2] | m->open[3]); }

/* ACT to a closed bank. */
static bool may_open(const Machine *m, int bank)
{
    bool ok = (m->age[PRE_AGE + bank] > m->rp) & (m->age[ACT_AGE + bank] > m->rc);
    for (int b = 0; b < BANKS; b++) ok &= (b == bank) | (m->age[ACT_AGE + b] > m->rrd);
    return ok;
}

/* PRE to an open bank. */
static bool may_close(const Machine *m, int bank) { return (m->age[ACT_AGE + bank] > m->ras) & (m->age[WRT_AGE + bank] > m->wr); }

/* DEAC. */
static bool may_close_all(const Machine *m)
{
    bool ok = true;
    for (int b = 0; b < BANKS; b++) ok &= !m->open[b] | may_close(m, b);
    return ok;
}

/* REFR or MRS after DEAC, where no ACT has been sent. */
static bool may_start(const Machine *m) { return (m->age[CLOSE_AGE] > m->rp) & (m->age[REFR_AGE] > m->rfc); }

/* REFR after DEAC. */
static bool may_refresh(const Machine *m)
{
    bool ok = may_start(m);
    for (int b = 0; b < BANKS; b++) ok &= m->age[ACT_AGE + b] > m->rc;
    return ok;
}

static void close_all(Machine *m, Command *out)
{
    for (int b = 0; b < BANKS; b++) { m->open[b] = false; m->age[PRE_AGE + b] = 1; }
    m->age[CLOSE_AGE] = 1;
    *out = COMMAND(DEAC, 0, 0, 0);
}

static void refresh(Machine *m, Command *out)
{
    m->age[REFR_AGE] = 1;
    *out = COMMAND(REFR, 0, 0, 0);
}

static bool blocked(const Machine *m, uint32_t at)
{
    for (uint32_t i = 0; i < at; i++)
        if (m->place[i].block == m->place[at].block) return true;
    return false;
}

static int oldest(const Machine *m, bool write)
{
    for (uint32_t i = 0; i < m->count; i++)
        if (m->place[i].write == write && !blocked(m, i)) return (int)i;
    return -1;
}

static void remove_at(Machine *m, uint32_t at)
{
    m->count--;
    for (uint32_t i = at; i < m->count; i++) m->place[i] = m->place[i + 1];
}

static Action choose(Machine *m)
{
    if (m->backlog >= 12) m->run = true;
    else if (m->backlog <= 7) m->run = false;
    if (m->run) return CLOSING;
    int at = oldest(m, false);
    if (at >= 0) { m->at = (uint32_t)at; return ACCESS; }
    if (m->backlog >= 8) return CLOSING;
    at = oldest(m, true);
    if (at >= 0) { m->at = (uint32_t)at; return ACCESS; }
    return m->backlog >= 4 || (m->backlog >= 1 && all_closed(m)) ? CLOSING : IDLE;
}

static void access_slot(Machine *m, Command *out, Report *report)
{
    const Request *r = &m->place[m->at];
    int bank = r->bank;
    if (!m->open[bank]) {
        if (!may_open(m, bank)) return;
        m->open[bank] = true;
        m->row[bank] = r->row;
        m->age[ACT_AGE + bank] = 1;
        *out = COMMAND(ACT, r->bank, r->row, 0);
    } else if (m->row[bank] != r->row) {
        if (!may_close(m, bank)) return;
        m->open[bank] = false;
        m->age[PRE_AGE + bank] = 1;
        m->age[CLOSE_AGE] = 1;
        *out = COMMAND(PRE, r->bank, 0, 0);
    } else if (m->age[ACT_AGE + bank] <= m->rcd) {
        return;
    } else if (!r->write) {
        m->age[READ_AGE] = 1;
        *out = COMMAND(READ, r->bank, r->column, 0);
        m->action = DATA;
        m->left = m->cl;
    } else if (m->age[READ_AGE] > m->cl + 2) {
        m->age[WRT_AGE + bank] = 1;
        *out = COMMAND(WRT, r->bank, r->column, r->halfword);
        *report = REPORT(2, r->number, 0);
        remove_at(m, m->at);
        m->action = IDLE;
    }
}

static void service_slot(Machine *m, uint16_t bus, Command *out, Report *report)
{
    if (--m->interval == 0) {
        m->interval = m->rr;
        m->backlog += m->backlog < 15;
    }
    if (m->action == IDLE) m->action = choose(m);
    switch (m->action) {
    case ACCESS: access_slot(m, out, report); break;
    case DATA:
        if (--m->left > 0) break;
        *report = REPORT(1, m->place[m->at].number, bus);
        remove_at(m, m->at);
        m->action = TURN;
        break;
    case TURN: m->action = IDLE; break;
    case CLOSING:
        if (!may_close_all(m)) break;
        close_all(m, out);
        m->action = REFRESHING;
        break;
    case REFRESHING:
        if (!may_refresh(m)) break;
        refresh(m, out);
        m->backlog--;
        m->left = (uint8_t)(m->rfc - 1);
        m->action = m->left > 0 ? RECOVER : IDLE;
        break;
    case RECOVER: if (--m->left == 0) m->action = IDLE; break;
    default: break;
    }
}

static void start_slot(Machine *m, Command *out)
{
    switch (m->stage) {
    case PAUSE: if (--m->stage_left == 0) m->stage = CLOSE; break;
    case CLOSE: close_all(m, out); m->stage = REFRESHES; m->stage_left = 8; break;
    case REFRESHES:
        if (!may_start(m)) break;
        refresh(m, out);
        if (--m->stage_left == 0) m->stage = MODE;
        break;
    case MODE:
        if (!may_start(m)) break;
        *out = COMMAND(MRS, 0, (uint16_t)(16 * m->cl), 0);
        m->stage = SETTLE;
        break;
    default: m->stage = DONE; break;
    }
}

static int slot(Machine *m, uint16_t bus, Command *out, Report *report)
{
    *report = REPORT(0, 0, 0);
    *out = COMMAND(NOP, 0, 0, 0);
    older(m);
    if (m->stage == DONE) service_slot(m, bus, out, report);
    else start_slot(m, out);
    return 0;
}

static int request(Machine *m, bool write, uint32_t address, uint16_t halfword, uint32_t *number)
{
    *number = 0;
    if (address % 2 != 0) return 4;
    if (address >= 1u << (1 + m->columns + m->bank_bits + m->rows)) return 5;
    if (m->count >= PLACES) return 6;
    if (m->accepted == UINT32_MAX) return 7;
    uint32_t word = address / 2, page = word >> m->columns;
    *number = ++m->accepted;
    m->place[m->count++] = (Request){ *number, address / 2048, (uint16_t)(page >> m->bank_bits), (uint16_t)(word & ((1u << m->columns) - 1)), halfword,
                                      (uint8_t)(page & ((1u << m->bank_bits) - 1)), write };
    return 0;
}

static int backlog(const Machine *m, uint32_t *owed)
{
    *owed = m->backlog;
    return 0;
}

static void configure(Machine *m)
{
    *m = (Machine){ .columns = COLUMNS, .bank_bits = BANK_BITS, .rows = ROWS, .cl = CL, .rfc = RFC, .rp = RP, .rcd = RCD, .wr = WR, .ras = RAS,
                    .rc = RC, .rrd = RRD, .rr = RR, .interval = RR, .stage = PAUSE, .stage_left = 8 * RR };
    for (int i = 0; i < AGES; i++) m->age[i] = CAP;
}

/* The stream and the digest: the same words in crates/bench/src/main.rt. */
static uint32_t shuffle(uint32_t x) { x ^= x << 13; x ^= x >> 17; return x ^ (x << 5); }
static uint32_t mix(uint32_t h, uint32_t v) { return shuffle(h ^ v); }

#ifdef MANY
enum { LENGTH = 64 };

static bool outside(unsigned low, unsigned high, unsigned n) { return n < low || high < n; }

/* The test for 9: the configuration, the counters, the stage or the action with its place and its count, and the queue's count. */
static bool sound(const Machine *m)
{
    if (outside(8, 11, m->columns) || m->bank_bits > 2 || outside(9, 13, m->rows)) return false;
    if (outside(2, 3, m->cl) || outside(1, 32, m->rfc) || outside(1, 8, m->rp) || outside(1, 8, m->rcd)) return false;
    if (outside(1, 8, m->wr) || outside(1, 16, m->ras) || outside(1, 16, m->rc) || outside(1, 8, m->rrd)) return false;
    unsigned most = m->ras > m->wr ? m->ras : m->wr;
    unsigned access = most + m->rp + m->rc + m->rrd + m->rcd + m->cl + 2u, closed = most + m->rp;
    unsigned refresh = (closed > m->rc ? closed : m->rc) + m->rfc;
    if (m->rr < access + 6 * refresh || m->rr > 8191 || outside(1, m->rr, m->interval) || m->backlog > 15 || m->count > PLACES) return false;
    switch (m->stage) {
    case PAUSE: return !outside(1, 8u * m->rr, m->stage_left);
    case REFRESHES: return !outside(1, 8, m->stage_left) && all_closed(m);
    case MODE: return all_closed(m);
    default: break;
    }
    switch (m->action) {
    case ACCESS: return m->at < m->count;
    case DATA: return m->at < m->count && !outside(1, m->cl, m->left);
    case REFRESHING: return all_closed(m);
    case RECOVER: return !outside(1, m->rfc - 1u, m->left);
    default: return true;
    }
}

static int slots(Machine *m, const uint16_t *bus, size_t buses, uint64_t *commands, size_t places, uint64_t *reports, size_t rooms, size_t *count)
{
    *count = 0;
    if (!sound(m)) return 9;
    size_t n = buses < places ? buses : places;
    if (rooms < n) n = rooms;
    for (size_t i = 0; i < n; i++) slot(m, bus[i], &commands[i], &reports[i]);
    *count = n;
    return 0;
}

static uint32_t mix_all(uint32_t h, const uint64_t *words, size_t count)
{
    for (size_t i = 0; i < count; i++) h = mix(h, (uint32_t)words[i] ^ (uint32_t)(words[i] >> 32));
    return h;
}

/* Requests for as many slots as the call runs, then the call. */
int main(void)
{
    static Machine m;
    configure(&m);
    uint32_t x = 2463534242u, h = 1, owed = 0;
    for (uint32_t n = 0; n < SLOTS / LENGTH; n++) {
        uint16_t bus[LENGTH];
        uint64_t commands[LENGTH] = { 0 }, reports[LENGTH] = { 0 };
        for (int i = 0; i < LENGTH / LOAD; i++) {
            x = shuffle(x);
            uint32_t number, address = x / 256 % 64 * 2048 + x / 16384 % 1024 * 2;
            int answer = request(&m, x / LOAD % 2 == 1, address, (uint16_t)(x / 65536), &number);
            h = mix(mix(h, (uint32_t)answer), number);
        }
        for (int i = 0; i < LENGTH; i++) {
            x = shuffle(x);
            bus[i] = (uint16_t)(x / 65536);
        }
        size_t count;
        int answer = slots(&m, bus, LENGTH, commands, LENGTH, reports, LENGTH, &count);
        h = mix(mix(h, (uint32_t)answer), (uint32_t)count);
        h = mix_all(mix_all(h, commands, LENGTH), reports, LENGTH);
        if (READING) {
            int said = backlog(&m, &owed);
            h = mix(mix(h, (uint32_t)said), owed);
        }
    }
    printf("slots %u accepted %u digest %u\n", SLOTS, m.accepted, h);
    return 0;
}
#else
int main(void)
{
    static Machine m;
    configure(&m);
    uint32_t x = 2463534242u, h = 1, owed = 0;
    for (uint32_t n = 0; n < SLOTS; n++) {
        x = shuffle(x);
        if (x % LOAD == 0) {
            uint32_t number, address = x / 256 % 64 * 2048 + x / 16384 % 1024 * 2;
            int answer = request(&m, x / LOAD % 2 == 1, address, (uint16_t)(x / 65536), &number);
            h = mix(mix(h, (uint32_t)answer), number);
        }
        Command k;
        Report r;
        int answer = slot(&m, (uint16_t)(x / 65536), &k, &r);
        h = mix(h, (uint32_t)answer);
        h = mix(h, (uint32_t)k.kind * 16777216u + k.bank * 65536u + k.place);
        h = mix(h, k.halfword);
        h = mix(h, (uint32_t)r.kind * 65536u + r.halfword);
        h = mix(h, r.number);
        if (READING) {
            int said = backlog(&m, &owed);
            h = mix(mix(h, (uint32_t)said), owed);
        }
    }
    printf("slots %u accepted %u digest %u\n", SLOTS, m.accepted, h);
    return 0;
}
#endif
