#include "generate.h"

#include <inttypes.h>
#include <stdbool.h>
#include <stdio.h>
#include <string.h>

#include "configs.h"
#include "machine.h"
#include "random.h"
#include "script.h"
#include "sdram.h"
#include "traffic.h"
#include "words.h"

/*
 * The author plays the script on a machine and an SDRAM of its own while writing it: that gives the
 * halfwords that the bus has to carry, and lets the traffic aim at the queue and the backlog.
 */
struct author {
    uint64_t random; /* state of the random numbers */
    uint64_t calls_left; /* lines that are still to be answered */
    uint64_t geometry; /* number of the next accepted configuration's geometry */
    bool line_written;
    struct machine machine;
    struct sdram sdram; /* begun exactly while the machine is not blank */
    struct rows rows;   /* its halfwords are those that wait */
};

/* ---- Random numbers ---- */

static uint64_t draw64(struct author *a)
{
    return random_next(&a->random);
}

/* One of 0 to below - 1. */
static uint32_t draw(struct author *a, uint32_t below)
{
    return random_below(&a->random, below);
}

static bool once_in(struct author *a, uint32_t times)
{
    return random_once_in(&a->random, times);
}

static uint16_t draw_halfword(struct author *a)
{
    return (uint16_t)draw(a, 65536);
}

/* ---- Lines ---- */

/* Line feeds stand between the lines, so that generate() decides about the last one. */
static void begin_line(struct author *a)
{
    if (a->line_written)
        putchar('\n');
    a->line_written = true;
}

static void put_times(const char *text, unsigned times)
{
    while (times-- > 0)
        fputs(text, stdout);
}

static void write_passed_over_line(struct author *a)
{
    begin_line(a);
    switch (draw(a, 4)) {
    case 0:
        fputs("# slot 0", stdout);
        break;
    case 1:
        put_times("# longer than 255 bytes ", 11);
        break;
    case 2:
        fputs("#\tany\r byte \x80", stdout);
        break;
    default:
        break; /* an empty line */
    }
}

/* The line of a call that is already counted. */
static void begin_counted_call(struct author *a)
{
    if (once_in(a, 500))
        write_passed_over_line(a);
    begin_line(a);
}

/* False when the script is full. */
static bool begin_call(struct author *a)
{
    if (a->calls_left == 0)
        return false;
    a->calls_left--;
    begin_counted_call(a);
    return true;
}

static void put_number(struct author *a, uint32_t number)
{
    static const char *const forms[] = {
        " %" PRIu32,   " %" PRIu32,   " %" PRIu32,     " %" PRIu32,
        " 0x%" PRIX32, " 0x%" PRIx32, " 000%" PRIu32, " 0x0%" PRIX32,
    };

    printf(forms[draw(a, 8)], number);
}

/* ---- Calls ---- */

static void write_config(struct author *a, struct words w)
{
    struct configuration c;

    if (!begin_call(a))
        return;
    fputs("config", stdout);
    put_number(a, w.cfg);
    put_number(a, w.row);
    put_number(a, w.ref);
    put_number(a, w.tim);
    if (!a->machine.blank)
        sdram_end(&a->sdram);
    if (machine_configure(&a->machine, w) == ACCEPTED) {
        configure(w, &c);
        sdram_begin(&a->sdram, &c);
    }
}

static void write_request(struct author *a, enum request_kind kind, uint32_t address)
{
    uint16_t halfword = draw_halfword(a);

    if (!begin_call(a))
        return;
    fputs(kind == READ_REQUEST ? "read" : "write", stdout);
    put_number(a, address);
    if (kind == WRITE_REQUEST)
        put_number(a, halfword);
    machine_request(&a->machine, kind, address, halfword);
}

static void write_read_or_write(struct author *a, uint32_t address)
{
    write_request(a, once_in(a, 2) ? READ_REQUEST : WRITE_REQUEST, address);
}

/* Does the SDRAM have a halfword on the bus in the coming slot? */
static bool bus_driven(const struct author *a, uint16_t *data)
{
    return !a->machine.blank && sdram_bus(&a->sdram, data);
}

/* A slot of the machine or of a copy of it. The SDRAM takes its command. */
static void run_slot(struct author *a, struct machine *m, uint16_t bus)
{
    struct slot_answer answer = machine_slot(m, bus);

    if (!m->blank)
        sdram_slot(&a->sdram, answer.command);
}

static void write_slot(struct author *a)
{
    uint16_t bus = draw_halfword(a);
    uint16_t data;

    if (!begin_call(a))
        return;
    if (bus_driven(a, &data))
        bus = data;
    fputs("slot", stdout);
    put_number(a, bus);
    run_slot(a, &a->machine, bus);
}

static void write_backlog(struct author *a)
{
    if (begin_call(a))
        fputs("backlog", stdout);
}

static void write_error_line(struct author *a)
{
    static const char *const lines[] = {
        "slot",         "slot 0 0",      "slot 65536",    "slot 0x10000", "slot 0x",      "slot 0X1",
        "slot x1",      "slot 0xg",      "slot -1",       "slot +1",      "slot 1.",      "slot 1a",
        "slot  1",      " slot 1",       "slot 1 ",       "slot\t1",      "slot 1\r",     "Slot 1",
        "slots 1",      "slo 1",         " ",             "\t",           "\r",           "backlog 0",
        "backlog ",     "read",          "read 0 0",      "write 0",      "write 0 65536", "write 0 0 0",
        "read 4294967296", "read 0x100000000", "config 0x4400 0 27",     "config 0x4400 0 27 0 0",
        "config 0x4400 0 4294967296 0",  "cell 0x4400 0", "cell 0x4400 0 4294967296",
        "address 0x4400 0 0 0",          "address 0x4400 0 256 0 0",      "address 0x4400 0 0 65536 0",
        "address 0x4400 0 0 0 65536",    "reset",         "slot 99999999999999999999999",
        "slot 0# no comment",            "0",             " # no comment either",
        "bus",          "bus ",          "bus  1",        "bus 1 ",       "bus 1  2",     "bus 65536",
        "bus 1 0x10000", "bus 65536 1",  "bus 1 2 3 x 5", "bus 0x 1",     "bus 1 -1",     "Bus 1",
        "bus\t1",       "bus 1\r",       "bus1 1",        "buses 1",      "slots",        "slots ",
        "slots 1 1 1",  "slots 4097 1",  "slots 1 4097",  "slots 4097 4097", "slots 0x1001 0",
        "slots 0 4294967296",            "slots 1 x",     "slots  1 1",   "slots 1 1 ",   "slots 1 -1",
    };
    enum { LINES = sizeof lines / sizeof lines[0] };
    uint32_t n = draw(a, LINES + 5);

    if (!begin_call(a))
        return;
    if (n < LINES) {
        fputs(lines[n], stdout);
    } else if (n == LINES) {
        fputs("slot ", stdout); /* 256 bytes */
        put_times("0", 251);
    } else if (n == LINES + 1) {
        fputs("bus 0", stdout); /* 256 bytes, the first 255 a call */
        put_times(" 0", 124);
        fputs(" 00", stdout);
    } else if (n == LINES + 2) {
        fputs("bus", stdout);
        put_times(" 1", 127); /* one too many for 255 bytes */
    } else if (n == LINES + 3) {
        put_times("slot 0 ", 2000);
    } else {
        fputs("slot 0", stdout);
        putchar('\0');
    }
}

/* The longest line that is a call: 255 bytes. */
static void write_longest_line(struct author *a)
{
    if (!begin_call(a))
        return;
    fputs("read ", stdout);
    put_times("0", 249);
    putchar('1');
    machine_request(&a->machine, READ_REQUEST, 1, 0);
}

/* ---- Halfwords that wait ---- */

enum { BUS_LINE = 28 }; /* halfwords; put_number takes 9 bytes at most: 3 + 28 x 9 = 255 */

/* A `bus` line of so many halfwords that wait already. */
static void write_bus_line(struct author *a, const uint16_t *halfword, unsigned halfwords)
{
    if (!begin_call(a))
        return;
    fputs("bus", stdout);
    while (halfwords-- > 0)
        put_number(a, *halfword++);
}

/* Halfwords of no meaning. They wait for the next row; a line that would pass 4,096 adds none. */
static void write_stray_halfwords(struct author *a, unsigned halfwords)
{
    uint16_t halfword[BUS_LINE];
    unsigned n;

    if (a->calls_left == 0)
        return;
    for (n = 0; n < halfwords; n++)
        halfword[n] = draw_halfword(a);
    if (halfwords <= ROW_ROOM - a->rows.halfwords) {
        memcpy(a->rows.bus + a->rows.halfwords, halfword, halfwords * sizeof halfword[0]);
        a->rows.halfwords += halfwords;
    }
    write_bus_line(a, halfword, halfwords);
}

/* As many as may wait, and then lines that would pass that. */
static void write_halfwords_to_the_limit(struct author *a)
{
    unsigned room;

    while (a->rows.halfwords + BUS_LINE <= ROW_ROOM && a->calls_left > 0)
        write_stray_halfwords(a, BUS_LINE);
    if (a->calls_left == 0)
        return;
    room = ROW_ROOM - a->rows.halfwords; /* below BUS_LINE */
    write_stray_halfwords(a, room + 1);
    if (room > 0)
        write_stray_halfwords(a, room);
    write_stray_halfwords(a, 1);
}

/* The `bus` line with most halfwords: 126 in 255 bytes. */
static void write_longest_bus_line(struct author *a)
{
    unsigned halfwords = (LONGEST_LINE - 3) / 2;
    bool room = halfwords <= ROW_ROOM - a->rows.halfwords;

    if (!begin_call(a))
        return;
    fputs("bus", stdout);
    while (halfwords-- > 0) {
        uint16_t digit = (uint16_t)draw(a, 10);

        printf(" %u", (unsigned)digit);
        if (room)
            a->rows.bus[a->rows.halfwords++] = digit;
    }
}

/* ---- The standalone map ---- */

static void write_cell(struct author *a, struct words w, uint32_t address)
{
    if (!begin_call(a))
        return;
    fputs("cell", stdout);
    put_number(a, w.cfg);
    put_number(a, w.row);
    put_number(a, address);
}

static void write_address(struct author *a, struct words w, struct cell cell)
{
    if (!begin_call(a))
        return;
    fputs("address", stdout);
    put_number(a, w.cfg);
    put_number(a, w.row);
    put_number(a, cell.bank);
    put_number(a, cell.row);
    put_number(a, cell.column);
}

static uint32_t draw_refused_address(struct author *a, struct geometry g)
{
    switch (draw(a, 5)) {
    case 0:
        return draw(a, capacity(g)) | 1;
    case 1:
        return capacity(g);
    case 2:
        return capacity(g) + 1;
    case 3:
        return capacity(g) + 2 * draw(a, capacity(g));
    default:
        return UINT32_C(0xFFFFFFFF) - draw(a, 2);
    }
}

/* One number of the cell moved to or beyond the edge of the geometry. */
static struct cell draw_outside_cell(struct author *a, struct geometry g)
{
    struct cell cell = draw_cell(&a->random, g);

    switch (draw(a, 3)) {
    case 0:
        cell.bank = 1u << g.bank_bits;
        cell.bank += once_in(a, 2) ? 0 : draw(a, 256 - cell.bank);
        break;
    case 1:
        cell.row = 1u << g.row_bits;
        cell.row += once_in(a, 2) ? 0 : draw(a, 65536 - cell.row);
        break;
    default:
        cell.column = 1u << g.column_bits;
        cell.column += once_in(a, 2) ? 0 : draw(a, 65536 - cell.column);
        break;
    }
    return cell;
}

static void write_map_call(struct author *a)
{
    struct words w = draw_words(&a->random, a->calls_left > 1000000);
    struct configuration c;
    struct geometry g;

    configure(w, &c);
    g = c.geometry;
    if (once_in(a, 4))
        spoil_words(&a->random, &w);
    switch (draw(a, 4)) {
    case 0:
        write_cell(a, w, 2 * draw(a, capacity(g) / 2));
        break;
    case 1:
        write_cell(a, w, draw_refused_address(a, g));
        break;
    case 2:
        write_address(a, w, draw_cell(&a->random, g));
        break;
    default:
        write_address(a, w, draw_outside_cell(a, g));
        break;
    }
}

/* ---- Traffic ---- */

static void write_pool_request(struct author *a, const struct traffic *t)
{
    enum request_kind kind = draw_kind(&a->random, t);

    write_request(a, kind, t->pool[draw(a, POOL)]);
}

/* Calls of other kinds, refused ones and lines that are no calls. */
static void write_aside(struct author *a)
{
    if (once_in(a, 25))
        write_backlog(a);
    if (once_in(a, 200) && !a->machine.blank)
        write_read_or_write(a, draw_refused_address(a, a->machine.c.geometry));
    if (once_in(a, 400))
        write_error_line(a);
    if (once_in(a, 400))
        write_map_call(a);
    if (once_in(a, 5000))
        write_longest_line(a);
}

/* ---- Rows: calls for many slots ---- */

/*
 * Runs up to `slots` slots ahead, on a copy of the machine, to find what the bus has to carry. The
 * halfwords that wait stand first in the row, so it ends before a slot for which the SDRAM has another.
 */
static unsigned run_ahead(struct author *a, unsigned slots)
{
    struct machine ahead = a->machine;
    unsigned n;

    for (n = 0; n < slots; n++) {
        uint16_t data;
        bool driven = bus_driven(a, &data);

        if (n >= a->rows.halfwords)
            a->rows.bus[n] = driven ? data : draw_halfword(a);
        else if (driven && data != a->rows.bus[n])
            break;
        run_slot(a, &ahead, a->rows.bus[n]);
    }
    return n;
}

static unsigned longer_row(unsigned length, unsigned more)
{
    return length + more < ROW_ROOM ? length + more : ROW_ROOM;
}

static unsigned draw_places(struct author *a, unsigned length, bool longer)
{
    uint32_t most = once_in(a, 8) ? ROW_ROOM : 20;

    return longer ? longer_row(length, 1 + draw(a, most)) : length;
}

/* One of the three rows is `length` long and the others longer, or all are equal. */
static void draw_row_lengths(struct author *a, unsigned length)
{
    enum { HALFWORDS, COMMANDS, REPORTS, ALL };
    struct rows *r = &a->rows;
    unsigned shortest = draw(a, ALL + 1);
    unsigned halfwords = length;

    if (shortest == HALFWORDS && r->halfwords > length)
        shortest = COMMANDS; /* halfwords that wait cannot be taken back */
    if (shortest == COMMANDS || shortest == REPORTS)
        halfwords = longer_row(length, 1 + draw(a, BUS_LINE));
    if (r->halfwords < halfwords)
        r->halfwords = halfwords;
    r->commands = draw_places(a, length, shortest == HALFWORDS || shortest == REPORTS);
    r->reports = draw_places(a, length, shortest == HALFWORDS || shortest == COMMANDS);
}

/* The `bus` lines of a row: its halfwords from place `from` on. */
static void write_row_halfwords(struct author *a, unsigned from)
{
    while (from < a->rows.halfwords) {
        unsigned halfwords = once_in(a, 4) ? 1 + draw(a, BUS_LINE) : BUS_LINE;

        if (halfwords > a->rows.halfwords - from)
            halfwords = a->rows.halfwords - from;
        write_bus_line(a, a->rows.bus + from, halfwords);
        from += halfwords;
    }
}

/* Calls that change nothing, between the `bus` lines and the `slots` line. */
static void write_asides_in_row(struct author *a)
{
    unsigned times = once_in(a, 4) ? draw(a, 60) : 0;

    while (times-- > 0)
        write_aside(a);
}

/* The slots of a row for which the script has room, with a line for each halfword. */
static unsigned room_for_row(const struct author *a)
{
    uint64_t room = a->calls_left < 2 * BUS_LINE ? 0 : (a->calls_left - 2 * BUS_LINE) / 2;

    return room < ROW_ROOM ? (unsigned)room : ROW_ROOM;
}

/*
 * A call for `slots` slots; fewer where the script or the halfwords that wait demand it. Gives the slots
 * that it runs. The machine goes by the call itself: a damaged one may differ from single slots.
 */
static unsigned write_row(struct author *a, unsigned slots)
{
    struct rows *r = &a->rows;
    unsigned waiting = r->halfwords;
    unsigned room = room_for_row(a);
    unsigned length, count, n;

    if (room == 0)
        return 0;
    length = run_ahead(a, slots < room ? slots : room);
    count = a->machine.blank ? 0 : length;
    a->calls_left -= 1 + count;
    draw_row_lengths(a, length);
    for (n = waiting < length ? length : waiting; n < r->halfwords; n++)
        r->bus[n] = draw_halfword(a);
    write_row_halfwords(a, waiting);
    write_asides_in_row(a);
    begin_counted_call(a);
    fputs("slots", stdout);
    put_number(a, r->commands);
    put_number(a, r->reports);
    machine_slots(&a->machine, r);
    r->halfwords = 0;
    return count;
}

/* Traffic that must not run dry has rows no longer than its queue lasts: a read takes 4 slots at least. */
static unsigned draw_row_length(struct author *a, enum pace pace)
{
    uint32_t RR = a->machine.c.RR;

    if (pace == KEEP_FULL || pace == PAUSE_AT_EXPIRY)
        return draw(a, 4 * a->machine.queued + 1);
    switch (draw(a, 16)) {
    case 0:
        return 0;
    case 1:
        return 1;
    case 2: /* across expiries */
        return 1 + draw(a, 2 * RR);
    default:
        return 1 + draw(a, 24);
    }
}

/* The next slot, seldom a row. Gives the slots run. */
static unsigned write_slot_or_row(struct author *a, enum pace pace)
{
    const struct machine *m = &a->machine;
    bool must_run_ahead = m->backlog >= 11 && m->interval == 1;

    if (once_in(a, 600))
        write_stray_halfwords(a, 1 + draw(a, BUS_LINE));
    if (must_run_ahead && once_in(a, 2))
        return write_row(a, 1 + draw(a, m->c.RR));
    if (once_in(a, 64))
        return write_row(a, draw_row_length(a, pace));
    write_slot(a);
    return 1;
}

static void write_traffic(struct author *a)
{
    struct traffic t = draw_traffic(&a->random, &a->machine.c);
    uint32_t slot;

    if (once_in(a, 4))
        write_request(a, WRITE_REQUEST, t.pool[0]); /* the one write among endless reads */
    for (slot = 0; slot < t.slots && a->calls_left > 0;) {
        unsigned requests;

        if (a->machine.backlog >= t.until_backlog)
            return;
        follow_interval(&a->random, &t, &a->machine);
        requests = draw_requests(&a->random, &t, &a->machine);
        while (requests-- > 0)
            write_pool_request(a, &t);
        write_aside(a);
        slot += write_slot_or_row(a, t.pace);
    }
}

/* ---- The script ---- */

/* The slots of the start, sometimes with requests, sometimes cut short by the next configuration. */
static bool write_start(struct author *a)
{
    const struct configuration *c = &a->machine.c;
    uint32_t slots = 8 * c->RR + c->tRP + 8 * c->tRFC + 3;
    bool cut = once_in(a, 20);
    bool requests = once_in(a, 2);
    uint32_t slot = 0;

    if (cut)
        slots = draw(a, slots);
    if (once_in(a, 6))
        slot = write_row(a, draw(a, 2 * slots + 1)); /* past the end of the start in every other */
    while (slot < slots && a->calls_left > 0) {
        if (requests && once_in(a, 40))
            write_read_or_write(a, 2 * draw(a, capacity(c->geometry) / 2));
        write_aside(a);
        slot += write_slot_or_row(a, IDLE);
    }
    return !cut;
}

static void write_blank_calls(struct author *a)
{
    unsigned calls = 1 + draw(a, 10);

    while (calls-- > 0) {
        switch (draw(a, 5)) {
        case 0:
            write_read_or_write(a, (uint32_t)draw64(a));
            break;
        case 1:
            write_slot(a);
            break;
        case 2:
            write_stray_halfwords(a, 1 + draw(a, BUS_LINE));
            break;
        case 3:
            write_row(a, draw(a, 40));
            break;
        default:
            write_backlog(a);
            break;
        }
        write_aside(a);
    }
    if (once_in(a, 60))
        write_longest_bus_line(a);
    if (once_in(a, 60))
        write_halfwords_to_the_limit(a);
}

static void write_refused_configuration(struct author *a)
{
    struct words w = draw_words(&a->random, a->calls_left > 1000000);

    spoil_words(&a->random, &w);
    if (once_in(a, 2))
        spoil_words(&a->random, &w);
    write_config(a, w);
    if (a->machine.blank)
        write_blank_calls(a);
}

static void write_accepted_configuration(struct author *a)
{
    unsigned phases = 5 + draw(a, 9);
    struct words w = draw_words(&a->random, a->calls_left > 1000000);

    set_geometry(&w, (uint32_t)(a->geometry++ % GEOMETRIES));
    write_config(a, w);
    if (a->machine.blank || !write_start(a))
        return;
    while (phases-- > 0 && a->calls_left > 0) {
        write_traffic(a);
        if (once_in(a, 80))
            write_row(a, ROW_ROOM);
    }
}

void generate(uint64_t seed, uint64_t calls)
{
    static struct author a; /* zero at first */

    a.random = seed;
    a.calls_left = calls;
    a.geometry = 8 * seed; /* short scripts of neighbouring seeds come by different ones */
    machine_blank(&a.machine);
    write_blank_calls(&a);
    while (a.calls_left > 0) {
        while (!once_in(&a, 10))
            write_refused_configuration(&a);
        write_accepted_configuration(&a);
    }
    if (!a.machine.blank)
        sdram_end(&a.sdram);
    if (a.line_written && seed % 2 == 0)
        putchar('\n'); /* odd seeds: the last line has no line feed */
}
