#include "machine.h"

#include <string.h>

#include "damage.h"

/* The request count at which 7 is given. The self-test builds once with a small one. */
#ifndef LAST_NUMBER
#define LAST_NUMBER UINT32_C(4294967295)
#endif

void machine_blank(struct machine *m)
{
    memset(m, 0, sizeof *m);
    m->blank = true;
}

/* Damaged builds only: one of the machine's distances is one slot shorter, but not 0, or longer. */
static unsigned bent(unsigned distance, bool shorter, bool longer)
{
    if (shorter && distance > 1)
        return distance - 1;
    return longer ? distance + 1 : distance;
}

static void bend_distances(struct configuration *c)
{
    c->tRFC = bent(c->tRFC, DAMAGED(SHORT_TRFC), DAMAGED(LONG_TRFC));
    c->tRP = bent(c->tRP, DAMAGED(SHORT_TRP), DAMAGED(LONG_TRP));
    c->tRCD = bent(c->tRCD, DAMAGED(SHORT_TRCD), DAMAGED(LONG_TRCD));
    c->tWR = bent(c->tWR, DAMAGED(SHORT_TWR), DAMAGED(LONG_TWR));
    c->tRAS = bent(c->tRAS, DAMAGED(SHORT_TRAS), DAMAGED(LONG_TRAS));
    c->tRC = bent(c->tRC, DAMAGED(SHORT_TRC), DAMAGED(LONG_TRC));
    c->tRRD = bent(c->tRRD, DAMAGED(SHORT_TRRD), DAMAGED(LONG_TRRD));
}

enum number machine_configure(struct machine *m, struct words w)
{
    struct configuration c;
    enum number number = configure(w, &c);

    machine_blank(m);
    if (number != ACCEPTED)
        return number;
    bend_distances(&c);
    m->blank = false;
    m->c = c;
    history_begin(&m->past);
    m->interval = c.RR;
    return ACCEPTED;
}

/* ---- Requests ---- */

/* In document 01's order, 8, 4, 5, 6, 7. */
static enum number test_request(const struct machine *m, uint32_t address)
{
    bool full = m->queued >= SLIP(QUEUE_OF_NINE, QUEUE_ROOM, QUEUE_ROOM + 1);
    enum number address_number;

    if (m->blank)
        return BLANK;
    if (DAMAGED(FULL_BEFORE_ADDRESS) && full)
        return QUEUE_FULL;
    address_number = test_address(m->c.geometry, address);
    if (address_number != ACCEPTED)
        return address_number;
    if (DAMAGED(USED_UP_BEFORE_FULL) && m->accepted == LAST_NUMBER)
        return NUMBERS_USED_UP;
    if (full)
        return QUEUE_FULL;
    if (m->accepted == LAST_NUMBER)
        return NUMBERS_USED_UP;
    return ACCEPTED;
}

struct request_answer machine_request(struct machine *m, enum request_kind kind, uint32_t address,
                                      uint16_t halfword)
{
    struct request_answer a = {test_request(m, address), 0};

    if (a.answer == ACCEPTED) {
        struct request r = {m->accepted + 1, kind, address, kind == WRITE_REQUEST ? halfword : 0};

        m->accepted++;
        m->queue[m->queued] = r;
        m->queued++;
        a.number = r.number;
    } else if (DAMAGED(REFUSED_TAKES_NUMBER)) {
        m->accepted++;
    }
    return a;
}

static void leave_queue(struct machine *m, unsigned place)
{
    m->queued--;
    memmove(&m->queue[place], &m->queue[place + 1], (m->queued - place) * sizeof m->queue[0]);
}

/* ---- Start ---- */

/* After the wait: DEAC, eight REFR, MRS, NOP. */
enum {
    DEAC_STEP = 0,
    MRS_STEP = SLIP(SEVEN_START_REFRESHES, 9, 8),
    NOP_STEP,
    START_STEPS = SLIP(SHORT_AFTER_MRS, NOP_STEP + 1, NOP_STEP)
};

static const struct command nop = {NOP, 0, 0, 0, 0};

static struct command start_command(const struct machine *m)
{
    struct command next = nop;

    if (m->start_step == DEAC_STEP) {
        next.kind = DEAC;
    } else if (m->start_step < MRS_STEP) {
        next.kind = REFR;
    } else if (m->start_step == MRS_STEP && !DAMAGED(FORGET_R3)) {
        next.kind = MRS;
        next.word = (uint16_t)(SLIP(FORGET_R1, 16, 1) * m->c.CL);
    }
    return next;
}

static struct command start_slot(struct machine *m)
{
    struct command next;

    if (m->slot <= 8 * m->c.RR - SLIP(START_ONE_SHORT, 0, 1))
        return nop;
    next = start_command(m);
    if (!legal(&m->c, &m->past, m->slot, next))
        return nop;
    history_send(&m->past, m->slot, next);
    m->start_step++;
    return next;
}

/* ---- A service slot: the counters ---- */

/* A Must run starts at a choice with backlog 12 or more and ends at one with 7 or less. */
static void follow_must_run(struct machine *m)
{
    if (m->backlog >= SLIP(MUST_FROM_11, 12, 11))
        m->must_run = true;
    else if (m->backlog <= SLIP(MUST_STOPS_AT_11, 7, 11))
        m->must_run = false;
}

static void count_interval(struct machine *m)
{
    m->interval--;
    if (m->interval == 0) {
        m->interval = m->c.RR + SLIP(INTERVAL_ONE_LONG, 0, 1);
        if (m->backlog < 15)
            m->backlog++;
    }
    if (DAMAGED(MUST_OUTSIDE_CHOICE))
        follow_must_run(m);
}

/* ---- A service slot: the choice ---- */

static uint32_t block(struct request r)
{
    return r.address / (DAMAGED(BLOCK_OF_1024) ? 1024 : DAMAGED(BLOCK_OF_4096) ? 4096 : 2048);
}

static bool blocked(const struct machine *m, unsigned place)
{
    unsigned older;

    if (DAMAGED(READS_ALWAYS_FIRST) && m->queue[place].kind == READ_REQUEST)
        return false;
    for (older = 0; older < place; older++)
        if (block(m->queue[older]) == block(m->queue[place]))
            return true;
    return false;
}

static bool oldest_unblocked(const struct machine *m, enum request_kind kind, unsigned *place)
{
    bool newest = (DAMAGED(NEWEST_READ) && kind == READ_REQUEST) ||
                  (DAMAGED(NEWEST_WRITE) && kind == WRITE_REQUEST);
    bool found = false;
    unsigned p;

    for (p = 0; p < m->queued && (!found || newest); p++) {
        if (m->queue[p].kind == kind && !blocked(m, p)) {
            *place = p;
            found = true;
        }
    }
    return found;
}

/* Damaged builds only: two ways to pass rule 3 over. */
static bool need_slip(const struct machine *m)
{
    unsigned p;

    if (DAMAGED(NEED_AFTER_WRITES))
        return oldest_unblocked(m, WRITE_REQUEST, &p);
    for (p = 0; p < m->queued && DAMAGED(BLOCKED_READ_HIDES_NEED); p++)
        if (m->queue[p].kind == READ_REQUEST)
            return true;
    return false;
}

static bool backlog_within(const struct machine *m, unsigned least, unsigned most)
{
    return least <= m->backlog && m->backlog <= most;
}

static struct action choose(struct machine *m)
{
    struct action nothing = {NO_ACTION, 0, false, 0, 0};
    struct action refresh = {REFRESH, 0, false, 0, 0};
    struct action access = {ACCESS, 0, false, 0, 0};

    if (DAMAGED(READS_BEFORE_MUST) && oldest_unblocked(m, READ_REQUEST, &access.place))
        return access;
    /* Rule 1 */
    follow_must_run(m);
    if (m->must_run)
        return refresh;
    /* Rule 2 */
    if (oldest_unblocked(m, READ_REQUEST, &access.place))
        return access;
    /* Rule 3 */
    if (backlog_within(m, SLIP(NEED_FROM_9, 8, 9), 11) && !need_slip(m))
        return refresh;
    /* Rule 4 */
    if (DAMAGED(RELEASE_BEFORE_WRITES) && backlog_within(m, 4, 7))
        return refresh;
    if (oldest_unblocked(m, WRITE_REQUEST, &access.place))
        return access;
    /* Rule 5 */
    if (backlog_within(m, SLIP(RELEASE_FROM_5, 4, 5), 7))
        return refresh;
    if (backlog_within(m, 1, 3) && (all_banks_closed(&m->past) || DAMAGED(MAY_WITH_OPEN_BANK)))
        return SLIP(MAY_FORGOTTEN, refresh, nothing);
    /* Rule 6 */
    return nothing;
}

/* ---- A service slot: the action ---- */

static bool under_way(const struct machine *m)
{
    return m->action.kind != NO_ACTION &&
           (m->action.last_slot == 0 || m->slot <= m->action.last_slot);
}

/* PRE only if its bank holds another row, ACT only if the row is not open, then READ or WRT. */
static struct command next_of_access(const struct machine *m)
{
    struct request r = m->queue[m->action.place];
    struct cell cell = cell_of(m->c.geometry, r.address);
    bool open = m->past.open[cell.bank];
    bool other_row = open && m->past.row[cell.bank] != cell.row;
    struct command pre = {PRE, cell.bank, 0, 0, 0};
    struct command act = {ACT, cell.bank, cell.row, 0, 0};
    struct command read = {READ, cell.bank, 0, cell.column, 0};
    struct command wrt = {WRT, cell.bank, 0, cell.column, r.halfword};

    if (DAMAGED(FORGET_R11) && !open)
        return pre;
    if (other_row && !DAMAGED(ROW_NOT_COMPARED))
        return SLIP(FORGET_R4, pre, act);
    if (!open && !DAMAGED(FORGET_R8))
        return act;
    return r.kind == READ_REQUEST ? read : wrt;
}

/* DEAC, then REFR. */
static struct command next_of_refresh(const struct machine *m)
{
    struct command deac = {DEAC, 0, 0, 0, 0};
    struct command refr = {REFR, 0, 0, 0, 0};
    bool needless = DAMAGED(FORGET_R14) ||
                    (DAMAGED(DEAC_ONLY_IF_OPEN) && all_banks_closed(&m->past));

    return m->action.deac_sent || needless ? refr : deac;
}

static struct command next_command(const struct machine *m)
{
    if (m->action.kind == NO_ACTION || m->action.last_slot != 0)
        return nop;
    return m->action.kind == ACCESS ? next_of_access(m) : next_of_refresh(m);
}

static void send(struct machine *m, struct command sent)
{
    unsigned CL = SLIP(CL_ALWAYS_2, m->c.CL, 2);
    bool early = DAMAGED(FORGET_R10) || DAMAGED(READ_FREE_EARLY);

    history_send(&m->past, m->slot, sent);
    switch (sent.kind) {
    case WRT:
        m->action.last_slot = m->slot;
        break;
    case READ:
        m->action.data_slot = m->slot + CL - SLIP(READ_REPORTED_EARLY, 0, 1);
        m->action.last_slot = m->slot + CL + (early ? 0 : 1);
        break;
    case DEAC:
        m->action.deac_sent = true;
        m->backlog -= SLIP(BACKLOG_FALLS_AT_DEAC, 0, 1);
        break;
    case REFR:
        m->backlog -= SLIP(BACKLOG_FALLS_AT_DEAC, 1, 0);
        m->action.last_slot = m->slot + m->c.tRFC - 1;
        break;
    default:
        break;
    }
}

/* A write is reported in its WRT slot, a read in its data slot; there it leaves the queue. */
static struct report report(struct machine *m, struct command sent, uint16_t bus)
{
    struct report nothing = {REPORT_NOTHING, 0, 0};
    struct report written = {REPORT_WRITE, 0, 0};
    struct report read = {REPORT_READ, 0, bus};
    struct report r;

    if (sent.kind == WRT)
        r = SLIP(WRITE_REPORTED_AS_READ, written, read);
    else if (m->action.kind == ACCESS && m->slot == m->action.data_slot)
        r = read;
    else
        return nothing;
    r.number = m->queue[m->action.place].number;
    if (DAMAGED(WRITE_REPORTED_AGAIN) && sent.kind == WRT)
        return r;
    if (DAMAGED(READ_LEAVES_LATE) && sent.kind != WRT)
        return r;
    leave_queue(m, m->action.place);
    return r;
}

static struct slot_answer service_slot(struct machine *m, uint16_t bus)
{
    struct slot_answer a = {ACCEPTED, nop, {REPORT_NOTHING, 0, 0}};
    struct command next;

    if (!DAMAGED(COUNT_AFTER_CHOICE))
        count_interval(m);
    if (!under_way(m))
        m->action = choose(m);
    if (DAMAGED(COUNT_AFTER_CHOICE))
        count_interval(m);
    next = next_command(m);
    if (legal(&m->c, &m->past, m->slot, next)) {
        send(m, next);
        a.command = next;
    }
    a.report = report(m, a.command, bus);
    if (DAMAGED(READ_LEAVES_LATE) && m->action.data_slot != 0 && m->slot == m->action.last_slot)
        leave_queue(m, m->action.place);
    if (DAMAGED(LATER_WRITES_ONLY_REPORTED) && a.command.kind == WRT && a.report.number > 1)
        a.command = nop;
    return a;
}

/* ---- The slot ---- */

struct slot_answer machine_slot(struct machine *m, uint16_t bus)
{
    struct slot_answer a = {ACCEPTED, nop, {REPORT_NOTHING, 0, 0}};

    if (m->blank) {
        a.answer = BLANK;
        return a;
    }
    m->slot++;
    if (m->start_step == START_STEPS && !DAMAGED(NOP_FOR_EVER))
        return service_slot(m, bus);
    a.command = start_slot(m);
    if (DAMAGED(INTERVAL_RUNS_IN_START))
        count_interval(m);
    return a;
}

/* ---- Document 02, (i): many slots ---- */

static unsigned smaller(unsigned x, unsigned y)
{
    return x < y ? x : y;
}

static unsigned larger(unsigned x, unsigned y)
{
    return x < y ? y : x;
}

/* As many slots as the shortest row has room for. */
static unsigned slots_to_run(const struct rows *r)
{
    unsigned count = smaller(r->halfwords, smaller(r->commands, r->reports));

    if (DAMAGED(LONGEST_ROW_COUNTS))
        return larger(r->halfwords, larger(r->commands, r->reports));
    if (DAMAGED(HALFWORDS_IGNORED))
        return smaller(r->commands, r->reports);
    if (DAMAGED(COMMAND_PLACES_IGNORED))
        return smaller(r->halfwords, r->reports);
    if (DAMAGED(REPORT_PLACES_IGNORED))
        return smaller(r->halfwords, r->commands);
    if (DAMAGED(ONE_SLOT_AT_LEAST))
        return larger(count, 1);
    return count;
}

/* Damaged builds only: the reports of a row move on by one place. */
static void delay_reports(struct rows *r, unsigned count)
{
    struct report nothing = {REPORT_NOTHING, 0, 0};

    memmove(&r->report[1], &r->report[0], (count - 1) * sizeof r->report[0]);
    r->report[0] = nothing;
}

struct slots_answer machine_slots(struct machine *m, struct rows *r)
{
    struct slots_answer a = {m->blank ? BLANK : ACCEPTED, 0};
    unsigned n;

    if (a.answer != ACCEPTED && !DAMAGED(REFUSED_RUNS_SLOTS))
        return a;
    a.count = slots_to_run(r);
    for (n = 0; n < a.count; n++) {
        bool before = DAMAGED(BUS_OF_SLOT_BEFORE) && n > 0;
        struct slot_answer one = {ACCEPTED, nop, {REPORT_NOTHING, 0, 0}};

        if (DAMAGED(FIRST_SLOT_TWICE) && n == 0)
            machine_slot(m, r->bus[n]);
        if (!DAMAGED(LAST_SLOT_LEFT_OUT) || n + 1 < a.count)
            one = machine_slot(m, r->bus[before ? n - 1 : n]);
        r->command[n] = one.command;
        r->report[n] = one.report;
    }
    if (DAMAGED(REPORTS_ONE_LATE) && a.count > 0)
        delay_reports(r, a.count);
    if (DAMAGED(PLACE_BEYOND_WRITTEN) && a.count < ROW_ROOM)
        r->command[a.count] = nop;
    a.count = SLIP(COUNT_OF_HALFWORDS, a.count, r->halfwords);
    return a;
}

/* ---- The reading call ---- */

struct backlog_answer machine_backlog(const struct machine *m)
{
    struct backlog_answer a = {m->blank ? BLANK : ACCEPTED, SLIP(INVENTED_BACKLOG, m->backlog, 0)};

    return a;
}
