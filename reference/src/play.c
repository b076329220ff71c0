#include "play.h"

#include <inttypes.h>
#include <stdarg.h>

#include "check.h"
#include "damage.h"
#include "machine.h"
#include "script.h"
#include "tape.h"
#include "words.h"

struct player {
    enum purpose purpose;
    struct script script;
    struct machine machine;
    struct rows rows; /* its halfwords are those that wait */
    struct check check;
    struct tape_writer tape;
    bool configured; /* a configuration was accepted, whatever came after it */
    bool ended;      /* nothing more is played */
};

/* ---- REPLAY.md, "Output" ---- */

static void print_report(struct report r)
{
    switch (r.kind) {
    case REPORT_NOTHING:
        putchar('-');
        break;
    case REPORT_READ:
        printf("read %" PRIu32 " %u", r.number, (unsigned)r.halfword);
        break;
    case REPORT_WRITE:
        printf("write %" PRIu32, r.number);
        break;
    }
}

/* A line, unless a tape is wanted. */
static void say(const struct player *p, const char *format, ...)
{
    va_list values;

    if (p->purpose == TAPE)
        return;
    va_start(values, format);
    vprintf(format, values);
    va_end(values);
}

static void print_slot(const struct slot_answer *a)
{
    printf("slot %d ", a->answer);
    print_command(a->command);
    putchar(' ');
    print_report(a->report);
    putchar('\n');
}

/* ---- TAPES.md, `record` ---- */

/* A refused slot is none. */
static void record_slot(struct player *p, const struct slot_answer *a)
{
    struct record r = {a->command, 1};

    if (a->answer == ACCEPTED || DAMAGED(REFUSED_SLOT_RECORDED))
        tape_put(&p->tape, r);
}

/* Is this configuration played? The tape of one accepted configuration ends before the next. */
static bool config_is_played(struct player *p, bool accepted)
{
    if (p->purpose != TAPE)
        return true;
    if (accepted && p->configured && !DAMAGED(SECOND_CONFIG_GOES_ON)) {
        fprintf(stderr, "reference: line %" PRIu64 " is a second accepted config, and the tape ends before it: "
                        "give what follows a script of its own\n", p->script.line);
        p->ended = true;
    }
    p->configured = p->configured || accepted || DAMAGED(REFUSED_CONFIG_COUNTS);
    return !p->ended && (accepted || !DAMAGED(REFUSED_CONFIG_PASSED_OVER));
}

static void end_tape(struct player *p)
{
    tape_write_end(&p->tape);
    if (!p->configured)
        fputs("reference: no config is accepted, and the tape is empty\n", stderr);
}

/* ---- The calls ---- */

static void play_config(struct player *p, const uint32_t *argument)
{
    struct words w = {argument[0], argument[1], argument[2], argument[3]};
    struct configuration c; /* the SDRAM's own copy: a damaged machine may have changed its */
    bool accepted = configure(w, &c) == ACCEPTED;

    enum number answer;

    if (!config_is_played(p, accepted))
        return;
    answer = machine_configure(&p->machine, w);
    say(p, "config %d\n", answer);
    check_configuration(&p->check, p->purpose == CHECKED_LINES && accepted ? &c : NULL);
}

static void play_request(struct player *p, enum request_kind kind, const uint32_t *argument)
{
    struct request asked = {0, kind, argument[0], (uint16_t)argument[1]};
    struct request_answer a = machine_request(&p->machine, kind, asked.address, asked.halfword);

    say(p, "%s %d %" PRIu32 "\n", kind == READ_REQUEST ? "read" : "write", a.answer, a.number);
    check_request(&p->check, asked, a);
}

/* What becomes of a slot that was run. */
static void give_slot(struct player *p, const struct slot_answer *a)
{
    if (p->purpose == TAPE)
        record_slot(p, a);
    else
        print_slot(a);
    check_slot(&p->check, a);
}

static void play_slot(struct player *p, uint16_t bus)
{
    struct slot_answer a;

    check_bus(&p->check, bus);
    a = machine_slot(&p->machine, bus);
    give_slot(p, &a);
}

static void play_error(struct player *p)
{
    say(p, "error %" PRIu64 "\n", p->script.line);
    if (DAMAGED(ERROR_LINE_ENDS_TAPE) && p->purpose == TAPE)
        p->ended = true;
}

static void play_bus(struct player *p, const struct call *call)
{
    unsigned n;

    if (call->arguments > ROW_ROOM - p->rows.halfwords) {
        play_error(p);
        return;
    }
    for (n = 0; n < call->arguments; n++)
        p->rows.bus[p->rows.halfwords++] = (uint16_t)call->argument[n];
    say(p, "bus %u\n", p->rows.halfwords);
}

static void play_slots(struct player *p, const uint32_t *argument)
{
    struct machine before = p->machine;
    struct slots_answer a;
    unsigned n;

    p->rows.commands = argument[0];
    p->rows.reports = argument[1];
    check_mark_rows(&p->rows);
    a = machine_slots(&p->machine, &p->rows);
    say(p, "slots %d %u\n", a.answer, a.count);
    if (p->purpose == CHECKED_LINES)
        check_slots(&p->check, &before, &p->rows, a);
    for (n = 0; n < a.count; n++) {
        struct slot_answer one = {a.answer, p->rows.command[n], p->rows.report[n]};

        check_bus(&p->check, p->rows.bus[n]);
        if (!(DAMAGED(SLOTS_OF_ROWS_LEFT_OUT) && p->purpose == TAPE))
            give_slot(p, &one);
    }
    if (DAMAGED(RUN_ENDS_WITH_ROW))
        tape_write_end(&p->tape);
    p->rows.halfwords = 0;
}

static void play_backlog(struct player *p)
{
    struct backlog_answer a = machine_backlog(&p->machine);

    say(p, "backlog %d %u\n", a.answer, a.backlog);
    check_backlog(&p->check, a);
}

static void play_cell(const struct player *p, const uint32_t *argument)
{
    struct cell cell;
    enum number answer = map_to_cell(argument[0], argument[1], argument[2], &cell);

    say(p, "cell %d %u %u %u\n", answer, cell.bank, cell.row, cell.column);
}

static void play_address(const struct player *p, const uint32_t *argument)
{
    struct cell cell = {argument[2], argument[3], argument[4]};
    uint32_t address;
    enum number answer = map_to_address(argument[0], argument[1], cell, &address);

    say(p, "address %d %" PRIu32 "\n", answer, address);
}

static void play_call(struct player *p, const struct call *call)
{
    switch (call->kind) {
    case CALL_CONFIG:
        play_config(p, call->argument);
        break;
    case CALL_READ:
        play_request(p, READ_REQUEST, call->argument);
        break;
    case CALL_WRITE:
        play_request(p, WRITE_REQUEST, call->argument);
        break;
    case CALL_SLOT:
        play_slot(p, (uint16_t)call->argument[0]);
        break;
    case CALL_BUS:
        play_bus(p, call);
        break;
    case CALL_SLOTS:
        play_slots(p, call->argument);
        break;
    case CALL_BACKLOG:
        play_backlog(p);
        break;
    case CALL_CELL:
        play_cell(p, call->argument);
        break;
    case CALL_ADDRESS:
        play_address(p, call->argument);
        break;
    case NO_CALL:
        play_error(p);
        break;
    }
}

void play(FILE *file, enum purpose purpose)
{
    static struct player p; /* too large for every stack; zero at first */
    struct call call;

    p.purpose = purpose;
    script_begin(&p.script, file);
    machine_blank(&p.machine);
    check_begin(&p.check);
    tape_write_begin(&p.tape, stdout);
    while (!p.ended && script_next(&p.script, &call)) {
        p.check.line = p.script.line;
        play_call(&p, &call);
    }
    check_end(&p.check);
    if (purpose == TAPE)
        end_tape(&p);
}
