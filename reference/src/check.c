#include "check.h"

#include <inttypes.h>
#include <stdarg.h>
#include <stdio.h>
#include <stdlib.h>
#include <string.h>

enum { CLAIM_FAILED = 1, SCRIPT_ERROR = 2 };

/* Ends the program. The slot named is the last one run. */
static void end_with(const struct check *k, int status, const char *format, ...)
{
    va_list values;

    fflush(stdout);
    fprintf(stderr, "%s: line %" PRIu64 ", slot %" PRIu64 ": ",
            status == CLAIM_FAILED ? "claim failed" : "script error", k->line, k->sdram.slot);
    va_start(values, format);
    vfprintf(stderr, format, values);
    va_end(values);
    fputc('\n', stderr);
    exit(status);
}

/* ---- Address and cell a second time, by division: words.c goes by shifts ---- */

static struct cell cell_at(const struct check *k, uint32_t address)
{
    uint32_t columns = 1u << k->c.geometry.column_bits;
    uint32_t banks = 1u << k->c.geometry.bank_bits;
    struct cell cell;

    cell.column = address / 2 % columns;
    cell.bank = address / 2 / columns % banks;
    cell.row = address / 2 / columns / banks;
    return cell;
}

static uint32_t address_at(const struct check *k, struct cell cell)
{
    uint32_t columns = 1u << k->c.geometry.column_bits;
    uint32_t banks = 1u << k->c.geometry.bank_bits;

    return 2 * (cell.column + columns * (cell.bank + banks * cell.row));
}

static uint32_t device_bytes(const struct check *k)
{
    return (2u << k->c.geometry.column_bits << k->c.geometry.bank_bits) << k->c.geometry.row_bits;
}

/* ---- The flat memory ---- */

static uint16_t flat_halfword(const struct check *k, uint32_t address)
{
    return memory_get(&k->flat, address / 2, first_contents(cell_at(k, address)));
}

/*
 * "At every address" is kept as a count: each change of either memory concerns one address, which is
 * taken out of the count before the change and put back in after it.
 */
static bool differs(const struct check *k, uint32_t address)
{
    return flat_halfword(k, address) != sdram_halfword(&k->sdram, cell_at(k, address));
}

static void flat_write(struct check *k, uint32_t address, uint16_t halfword)
{
    k->differences -= differs(k, address);
    memory_put(&k->flat, address / 2, halfword);
    k->differences += differs(k, address);
}

/* ---- The list of calls ---- */

void check_begin(struct check *k)
{
    memset(k, 0, sizeof *k);
}

void check_end(struct check *k)
{
    if (k->watching) {
        sdram_end(&k->sdram);
        memory_end(&k->flat);
    }
}

void check_configuration(struct check *k, const struct configuration *c)
{
    uint64_t line = k->line;

    check_end(k);
    check_begin(k);
    k->line = line;
    if (c != NULL) {
        k->watching = true;
        k->c = *c;
        sdram_begin(&k->sdram, c);
        memory_begin(&k->flat);
    }
}

/* A request is queued from its acceptance to its report. */
static enum number expected_answer(const struct check *k, uint32_t address)
{
    if (address % 2 == 1)
        return ODD_ADDRESS;
    if (address >= device_bytes(k))
        return BEYOND_CAPACITY;
    if (k->awaiting == QUEUE_ROOM)
        return QUEUE_FULL;
    if (k->count == UINT32_MAX)
        return NUMBERS_USED_UP;
    return ACCEPTED;
}

void check_request(struct check *k, struct request asked, struct request_answer a)
{
    enum number expected;
    struct awaited *new;

    if (!k->watching)
        return;
    expected = expected_answer(k, asked.address);
    if (a.answer != expected)
        end_with(k, CLAIM_FAILED, "a request is answered %d, not %d", a.answer, expected);
    if (a.answer != ACCEPTED) {
        if (a.number != 0)
            end_with(k, CLAIM_FAILED, "a refused request has a number");
        return;
    }
    k->count++;
    if (a.number != k->count)
        end_with(k, CLAIM_FAILED, "request %" PRIu32 " is given number %" PRIu32, k->count, a.number);
    new = &k->awaited[k->awaiting++];
    new->number = a.number;
    new->kind = asked.kind;
    new->halfword = flat_halfword(k, asked.address);
    if (asked.kind == WRITE_REQUEST)
        flat_write(k, asked.address, asked.halfword);
}

void check_bus(const struct check *k, uint16_t bus)
{
    uint16_t halfword;

    if (k->watching && sdram_bus(&k->sdram, &halfword) && bus != halfword)
        end_with(k, SCRIPT_ERROR, "in the next slot the SDRAM has %u on the bus, the script %u",
                 (unsigned)halfword, (unsigned)bus);
}

static void send_to_sdram(struct check *k, struct command x)
{
    struct cell cell;
    bool changes = x.kind == WRT && sdram_open_cell(&k->sdram, x, &cell);
    unsigned rule;

    if (changes)
        k->differences -= differs(k, address_at(k, cell));
    rule = sdram_slot(&k->sdram, x);
    if (rule != 0)
        end_with(k, CLAIM_FAILED, "the SDRAM rejects the command by R%u", rule);
    if (changes)
        k->differences += differs(k, address_at(k, cell));
}

static void check_backlog_range(const struct check *k)
{
    if (k->service_refreshes > k->expiries)
        end_with(k, CLAIM_FAILED, "the backlog is below 0");
    if (k->expiries - k->service_refreshes > 13)
        end_with(k, CLAIM_FAILED, "the backlog is above 13");
}

/* The start ends with MRS and one NOP, so MRS shows where the first service slot is. */
static void count_backlog(struct check *k, struct command x)
{
    uint64_t slot = k->sdram.slot;

    if (x.kind == MRS && k->first_service_slot == 0)
        k->first_service_slot = slot + 2;
    if (k->first_service_slot == 0 || slot < k->first_service_slot)
        return;
    if ((slot - k->first_service_slot + 1) % k->c.RR == 0)
        k->expiries++;
    check_backlog_range(k);
    if (x.kind == REFR)
        k->service_refreshes++;
    check_backlog_range(k);
}

static unsigned find_awaited(const struct check *k, uint32_t number)
{
    unsigned place;

    for (place = 0; place < k->awaiting; place++)
        if (k->awaited[place].number == number)
            return place;
    end_with(k, CLAIM_FAILED, "request %" PRIu32 " is reported but %s", number,
             number != 0 && number <= k->count ? "was reported before" : "was never accepted");
    return 0;
}

static void check_report(struct check *k, struct report r)
{
    enum report_kind kind;
    struct awaited reported;
    unsigned place;

    if (r.kind == REPORT_NOTHING)
        return;
    place = find_awaited(k, r.number);
    reported = k->awaited[place];
    kind = reported.kind == READ_REQUEST ? REPORT_READ : REPORT_WRITE;
    if (r.kind != kind)
        end_with(k, CLAIM_FAILED, "request %" PRIu32 " is reported with the other kind", r.number);
    if (r.kind == REPORT_READ && r.halfword != reported.halfword)
        end_with(k, CLAIM_FAILED, "read %" PRIu32 " is reported with %u, the flat memory gives %u",
                 r.number, (unsigned)r.halfword, (unsigned)reported.halfword);
    k->awaiting--;
    memmove(&k->awaited[place], &k->awaited[place + 1],
            (k->awaiting - place) * sizeof k->awaited[0]);
}

void check_slot(struct check *k, const struct slot_answer *a)
{
    if (!k->watching)
        return;
    send_to_sdram(k, a->command);
    if (a->answer != ACCEPTED)
        end_with(k, CLAIM_FAILED, "the slot is answered %d", a->answer);
    count_backlog(k, a->command);
    check_report(k, a->report);
    if (k->awaiting == 0 && k->differences != 0)
        end_with(k, CLAIM_FAILED, "all requests are reported and the memories differ at %" PRIu64
                 " addresses", k->differences);
}

void check_backlog(const struct check *k, struct backlog_answer a)
{
    uint64_t backlog = k->expiries - k->service_refreshes;

    if (!k->watching)
        return;
    if (a.answer != ACCEPTED)
        end_with(k, CLAIM_FAILED, "the reading call is answered %d", a.answer);
    if (a.backlog != backlog)
        end_with(k, CLAIM_FAILED, "the reading call gives %u, the backlog is %" PRIu64, a.backlog,
                 backlog);
}

/* ---- Many slots ---- */

/* No slot gives these. */
static const struct command marked_command = {NOP, 255, 65535, 65535, 65535};
static const struct report marked_report = {REPORT_NOTHING, UINT32_MAX, 65535};

static bool same_command(struct command x, struct command y)
{
    return x.kind == y.kind && x.bank == y.bank && x.row == y.row && x.column == y.column &&
           x.word == y.word;
}

static bool same_report(struct report x, struct report y)
{
    return x.kind == y.kind && x.number == y.number && x.halfword == y.halfword;
}

void check_mark_rows(struct rows *r)
{
    unsigned n;

    for (n = 0; n < ROW_ROOM; n++) {
        r->command[n] = marked_command;
        r->report[n] = marked_report;
    }
}

static void check_count(const struct check *k, const struct rows *r, struct slots_answer a)
{
    enum number answer = k->watching ? ACCEPTED : BLANK;
    unsigned count = r->halfwords;

    if (count > r->commands)
        count = r->commands;
    if (count > r->reports)
        count = r->reports;
    if (!k->watching)
        count = 0;
    if (a.answer != answer)
        end_with(k, CLAIM_FAILED, "a call for many slots is answered %d, not %d", a.answer, answer);
    if (a.count != count)
        end_with(k, CLAIM_FAILED, "a call for many slots runs %u, not %u", a.count, count);
}

static void check_places_beyond(const struct check *k, const struct rows *r, unsigned count)
{
    unsigned n;

    for (n = count; n < ROW_ROOM; n++)
        if (!same_command(r->command[n], marked_command) || !same_report(r->report[n], marked_report))
            end_with(k, CLAIM_FAILED, "place %u is written, beyond the count %u", n + 1, count);
}

static void check_single_slots(const struct check *k, const struct machine *before,
                               const struct rows *r, unsigned count)
{
    struct machine single = *before;
    unsigned n;

    for (n = 0; n < count; n++) {
        struct slot_answer one = machine_slot(&single, r->bus[n]);

        if (!same_command(r->command[n], one.command))
            end_with(k, CLAIM_FAILED, "the command in place %u is not the single slot's", n + 1);
        if (!same_report(r->report[n], one.report))
            end_with(k, CLAIM_FAILED, "the report in place %u is not the single slot's", n + 1);
    }
}

void check_slots(const struct check *k, const struct machine *before, const struct rows *r,
                 struct slots_answer a)
{
    check_count(k, r, a);
    check_places_beyond(k, r, a.count);
    check_single_slots(k, before, r, a.count);
}
