/* The same machine in plain C, changed in place, with ages and no history: what the proved one is measured against (bench/run).
   It runs SLOTS slots of the machine of document 01's E4 with a fixed pseudo-random stream of requests and prints a digest of all
   answers, commands and reports. With -DTEST9 every call first tests the record, as the proved calls do for number 9. */
#include <stdbool.h>
#include <stdint.h>
#include <stdio.h>

#ifndef SLOTS
#define SLOTS 10000000u
#endif

/* One slot in so many asks. */
#define LOAD 8

/* Is the backlog read after each slot? */
#define READING 0

enum { CAP = 32, PLACES = 8, BANKS = 4 };

/* E4's configuration: 8 column, 2 bank and 13 row bits, CL 3. */
enum { COLUMNS = 8, BANK_BITS = 2, ROWS = 13, CL = 3, RFC = 9, RP = 3, RCD = 3, WR = 2, RAS = 6, RC = 9, RRD = 2, RR = 136 };

typedef enum { NOP, ACT, READ, WRT, PRE, DEAC, REFR, MRS } Kind;
typedef struct { Kind kind; uint8_t bank; uint16_t place; uint16_t halfword; } Command;
typedef struct { uint8_t kind; uint32_t number; uint16_t halfword; } Report; /* 0 nothing, 1 read, 2 write */

typedef struct { uint32_t number; bool write; uint32_t address; uint8_t bank; uint16_t row, column, halfword; } Request;
typedef struct { bool open; uint16_t row; uint8_t act, pre, wrt; } Bank;
typedef enum { PAUSE, CLOSE, REFRESHES, MODE, SETTLE, DONE } Stage;
typedef enum { IDLE, ACCESS, DATA, TURN, CLOSING, REFRESHING, RECOVER } Action;

typedef struct {
    uint8_t columns, bank_bits, rows, cl, rfc, rp, rcd, wr, ras, rc, rrd;
    uint16_t rr;
    uint8_t access, refresh;
    Bank bank[BANKS];
    bool moded;
    uint8_t refr, mrs, close, read;
    Stage stage;
    uint32_t stage_left;
    uint16_t interval;
    uint8_t backlog;
    bool run;
    Request place[PLACES];
    uint32_t count;
    Action action;
    uint32_t at;
    uint8_t left;
    uint32_t accepted;
} Machine;

static void older(uint8_t *age) { if (*age < CAP) ++*age; }

static void age_all(Machine *m)
{
    for (int b = 0; b < BANKS; b++) {
        older(&m->bank[b].act);
        older(&m->bank[b].pre);
        older(&m->bank[b].wrt);
    }
    older(&m->refr);
    older(&m->mrs);
    older(&m->close);
    older(&m->read);
}

static bool settled(const Machine *m) { return m->refr >= m->rfc && m->mrs >= 2; }

static bool all_closed(const Machine *m)
{
    for (int b = 0; b < BANKS; b++)
        if (m->bank[b].open) return false;
    return true;
}

static bool legal(const Machine *m, const Command *k)
{
    if (k->kind == NOP) return true;
    if (k->kind == ACT || k->kind == READ || k->kind == WRT || k->kind == PRE) {
        if (k->bank >= 1u << m->bank_bits) return false;
        if (k->kind == ACT && k->place >= 1u << m->rows) return false;
        if ((k->kind == READ || k->kind == WRT) && k->place >= 1u << m->columns) return false;
    }
    if (k->kind == MRS && k->place != 16 * m->cl) return false;
    if (!settled(m)) return false;
    const Bank *b = &m->bank[k->bank & 3];
    switch (k->kind) {
    case ACT:
        if (!m->moded || b->open || b->pre < m->rp || b->act < m->rc) return false;
        for (int o = 0; o < BANKS; o++)
            if (o != k->bank && m->bank[o].act < m->rrd) return false;
        return true;
    case READ: return b->open && b->act >= m->rcd;
    case WRT: return b->open && b->act >= m->rcd && m->read >= m->cl + 2;
    case PRE: return b->open && b->act >= m->ras && b->wrt >= m->wr;
    case DEAC:
        for (int o = 0; o < BANKS; o++)
            if (m->bank[o].open && (m->bank[o].act < m->ras || m->bank[o].wrt < m->wr)) return false;
        return true;
    case REFR:
        for (int o = 0; o < BANKS; o++)
            if (m->bank[o].act < m->rc) return false;
        return all_closed(m) && m->close >= m->rp;
    default: return all_closed(m) && m->close >= m->rp;
    }
}

static void sent(Machine *m, const Command *k)
{
    age_all(m);
    Bank *b = &m->bank[k->bank & 3];
    switch (k->kind) {
    case ACT: b->open = true; b->row = k->place; b->act = 1; break;
    case READ: m->read = 1; break;
    case WRT: b->wrt = 1; break;
    case PRE: b->open = false; b->pre = 1; m->close = 1; break;
    case DEAC:
        for (int o = 0; o < BANKS; o++) { m->bank[o].open = false; m->bank[o].pre = 1; }
        m->close = 1;
        break;
    case REFR: m->refr = 1; break;
    case MRS: m->moded = true; m->mrs = 1; break;
    default: break;
    }
}

/* Sends the command if it is legal; otherwise the slot is a NOP. */
static bool try_send(Machine *m, Command k, Command *out)
{
    bool ok = legal(m, &k);
    if (!ok) k = (Command){ NOP, 0, 0, 0 };
    sent(m, &k);
    *out = k;
    return ok;
}

static bool blocked(const Machine *m, uint32_t at)
{
    for (uint32_t i = 0; i < at; i++)
        if (m->place[i].address / 2048 == m->place[at].address / 2048) return true;
    return false;
}

static int oldest(const Machine *m, bool write)
{
    for (uint32_t i = 0; i < m->count; i++)
        if (m->place[i].write == write && !blocked(m, i)) return (int)i;
    return -1;
}

static void remove_at(Machine *m, uint32_t at)
{
    for (uint32_t i = at; i + 1 < m->count; i++) m->place[i] = m->place[i + 1];
    m->count--;
    m->place[m->count] = (Request){ 0 };
}

static void begin(Machine *m, Action a) { m->action = a; }

static void choose(Machine *m)
{
    if (m->backlog >= 12) m->run = true;
    else if (m->backlog <= 7) m->run = false;
    if (m->run) { begin(m, CLOSING); return; }
    int at = oldest(m, false);
    if (at >= 0) { m->at = (uint32_t)at; begin(m, ACCESS); return; }
    if (m->backlog >= 8) { begin(m, CLOSING); return; }
    at = oldest(m, true);
    if (at >= 0) { m->at = (uint32_t)at; begin(m, ACCESS); return; }
    if (m->backlog >= 4 || (m->backlog >= 1 && all_closed(m))) begin(m, CLOSING);
}

static void access_slot(Machine *m, Command *out, Report *report)
{
    const Request r = m->place[m->at];
    const Bank *b = &m->bank[r.bank];
    if (!b->open) { try_send(m, (Command){ ACT, r.bank, r.row, 0 }, out); return; }
    if (b->row != r.row) { try_send(m, (Command){ PRE, r.bank, 0, 0 }, out); return; }
    if (!r.write) {
        if (try_send(m, (Command){ READ, r.bank, r.column, 0 }, out)) { m->action = DATA; m->left = m->cl; }
    } else if (try_send(m, (Command){ WRT, r.bank, r.column, r.halfword }, out)) {
        *report = (Report){ 2, r.number, 0 };
        remove_at(m, m->at);
        m->action = IDLE;
    }
}

static void nop(Machine *m, Command *out) { try_send(m, (Command){ NOP, 0, 0, 0 }, out); }

static void recover(Machine *m, uint8_t left)
{
    m->left = left;
    m->action = left == 0 ? IDLE : RECOVER;
}

static void service_slot(Machine *m, uint16_t bus, Command *out, Report *report)
{
    if (m->interval <= 1) {
        m->interval = m->rr;
        if (m->backlog < 15) m->backlog++;
    } else m->interval--;
    if (m->action == IDLE) choose(m);
    switch (m->action) {
    case ACCESS: access_slot(m, out, report); break;
    case DATA:
        nop(m, out);
        if (m->left <= 1) {
            *report = (Report){ 1, m->place[m->at].number, bus };
            remove_at(m, m->at);
            m->action = TURN;
        } else m->left--;
        break;
    case TURN: nop(m, out); m->action = IDLE; break;
    case CLOSING: if (try_send(m, (Command){ DEAC, 0, 0, 0 }, out)) m->action = REFRESHING; break;
    case REFRESHING:
        if (try_send(m, (Command){ REFR, 0, 0, 0 }, out)) {
            if (m->backlog > 0) m->backlog--;
            recover(m, (uint8_t)(m->rfc - 1));
        }
        break;
    case RECOVER: nop(m, out); recover(m, (uint8_t)(m->left - 1)); break;
    default: nop(m, out); break;
    }
}

static void start_slot(Machine *m, Command *out)
{
    switch (m->stage) {
    case PAUSE: nop(m, out); if (m->stage_left <= 1) m->stage = CLOSE; else m->stage_left--; break;
    case CLOSE: if (try_send(m, (Command){ DEAC, 0, 0, 0 }, out)) { m->stage = REFRESHES; m->stage_left = 8; } break;
    case REFRESHES:
        if (try_send(m, (Command){ REFR, 0, 0, 0 }, out)) { if (m->stage_left <= 1) m->stage = MODE; else m->stage_left--; }
        break;
    case MODE: if (try_send(m, (Command){ MRS, 0, (uint16_t)(16 * m->cl), 0 }, out)) m->stage = SETTLE; break;
    default: nop(m, out); m->stage = DONE; break;
    }
}

#ifdef TEST9
static bool outside(unsigned low, unsigned high, unsigned n) { return n < low || high < n; }

static bool accepted(const Machine *m)
{
    if (outside(8, 11, m->columns) || m->bank_bits > 2 || outside(9, 13, m->rows)) return false;
    if (outside(2, 3, m->cl) || outside(1, 32, m->rfc) || outside(1, 8, m->rp) || outside(1, 8, m->rcd)) return false;
    if (outside(1, 8, m->wr) || outside(1, 16, m->ras) || outside(1, 16, m->rc) || outside(1, 8, m->rrd)) return false;
    unsigned most = m->ras > m->wr ? m->ras : m->wr;
    unsigned access = most + m->rp + m->rc + m->rrd + m->rcd + m->cl + 2u, closed = most + m->rp;
    unsigned refresh = (closed > m->rc ? closed : m->rc) + m->rfc;
    return m->access == access && m->refresh == refresh && m->rr >= access + 6 * refresh && m->rr <= 8191;
}

static bool sound(const Machine *m)
{
    if (!accepted(m)) return false;
    if (m->interval < 1 || m->interval > m->rr || m->backlog > 15 || m->count > PLACES) return false;
    if ((m->action == ACCESS || m->action == DATA) && m->at >= m->count) return false;
    if (m->stage == DONE ? !m->moded : m->action != IDLE) return false;
    if (m->stage == PAUSE && (m->stage_left < 1 || m->stage_left > 8u * m->rr)) return false;
    if (m->stage == REFRESHES && (m->stage_left < 1 || m->stage_left > 8)) return false;
    for (uint32_t i = 0; i < m->count; i++) {
        const Request *r = &m->place[i];
        if (r->bank >= 1u << m->bank_bits || r->row >= 1u << m->rows || r->column >= 1u << m->columns) return false;
    }
    return true;
}
#endif

static int slot(Machine *m, uint16_t bus, Command *out, Report *report)
{
    *report = (Report){ 0, 0, 0 };
    *out = (Command){ NOP, 0, 0, 0 };
#ifdef TEST9
    if (!sound(m)) return 9;
#endif
    if (m->stage == DONE) service_slot(m, bus, out, report);
    else start_slot(m, out);
    return 0;
}

static int request(Machine *m, bool write, uint32_t address, uint16_t halfword, uint32_t *number)
{
    *number = 0;
#ifdef TEST9
    if (!sound(m)) return 9;
#endif
    if (address % 2 != 0) return 4;
    if (address >= 1u << (1 + m->columns + m->bank_bits + m->rows)) return 5;
    if (m->count >= PLACES) return 6;
    if (m->accepted == UINT32_MAX) return 7;
    uint32_t word = address / 2, page = word >> m->columns;
    *number = ++m->accepted;
    m->place[m->count++] = (Request){ *number, write, address, (uint8_t)(page & ((1u << m->bank_bits) - 1)), (uint16_t)(page >> m->bank_bits),
                                      (uint16_t)(word & ((1u << m->columns) - 1)), halfword };
    return 0;
}

static int backlog(const Machine *m, uint32_t *owed)
{
    *owed = 0;
#ifdef TEST9
    if (!sound(m)) return 9;
#endif
    *owed = m->backlog;
    return 0;
}

static void configure(Machine *m)
{
    *m = (Machine){ .columns = COLUMNS, .bank_bits = BANK_BITS, .rows = ROWS, .cl = CL, .rfc = RFC, .rp = RP, .rcd = RCD, .wr = WR, .ras = RAS,
                    .rc = RC, .rrd = RRD,   .rr = RR, .access = 28, .refresh = 18, .refr = CAP, .mrs = CAP, .close = CAP, .read = CAP, .stage = PAUSE, .stage_left = 8 * RR,
                    .interval = RR };
    for (int b = 0; b < BANKS; b++) m->bank[b] = (Bank){ false, 0, CAP, CAP, CAP };
}

/* The stream and the digest: the same words in crates/bench/src/main.rt. */
static uint32_t shuffle(uint32_t x) { x ^= x << 13; x ^= x >> 17; return x ^ (x << 5); }
static uint32_t mix(uint32_t h, uint32_t v) { return shuffle(h ^ v) ; }

int main(void)
{
    static Machine m;
    configure(&m);
    uint32_t x = 2463534242u, h = 1, owed = 0;
    for (uint32_t n = 0; n < SLOTS; n++) {
        x = shuffle(x);
        if (x % LOAD == 0) {
            uint32_t number, address = x / 256 % 64 * 2048 + x / 16384 % 1024 * 2;
            int answer = request(&m, x / LOAD % 2 == 1, address, (uint16_t)(x / 65536), &number);
            h = mix(mix(h, (uint32_t)answer), number);
        }
        Command k;
        Report r;
        int answer = slot(&m, (uint16_t)(x / 65536), &k, &r);
        h = mix(h, (uint32_t)answer);
        h = mix(h, (uint32_t)k.kind * 16777216u + k.bank * 65536u + k.place);
        h = mix(h, k.halfword);
        h = mix(h, (uint32_t)r.kind * 65536u + r.halfword);
        h = mix(h, r.number);
        if (READING) {
            int said = backlog(&m, &owed);
            h = mix(mix(h, (uint32_t)said), owed);
        }
    }
    printf("slots %u accepted %u digest %u\n", SLOTS, m.accepted, h);
    return 0;
}
