#include "cases.h"

#include <stdbool.h>
#include <stdio.h>
#include <string.h>

#include "casefile.h"
#include "command.h"
#include "configs.h"
#include "legality.h"
#include "machine.h"
#include "random.h"
#include "scrap.h"
#include "tape.h"
#include "traffic.h"
#include "words.h"

enum { MOST_COMMANDS = 2000 };

struct timed {
    uint64_t slot;
    struct command command;
};

struct maker {
    uint64_t random; /* state of the random numbers */

    /* The device that the tape is made for, and the tape: these commands, by rising slot, and NOP in all others. */
    struct words words;
    struct configuration c;
    struct timed list[MOST_COMMANDS];
    unsigned commands;
    uint64_t slots;

    struct history past;    /* of a tape of legal commands: what was sent */
    struct machine machine; /* of a tape of our own */
    struct tape_case made;
};

static uint32_t draw(struct maker *m, uint32_t below)
{
    return random_below(&m->random, below);
}

static bool once_in(struct maker *m, uint32_t times)
{
    return random_once_in(&m->random, times);
}

/* ---- Devices ---- */

static void set_device(struct maker *m, struct words w)
{
    m->words = w;
    configure(w, &m->c);
}

/* RR raised to the least that is accepted. */
static struct words with_enough_rr(struct words w)
{
    struct configuration c;

    configure(w, &c);
    if (w.ref < least_rr(&c))
        w.ref = least_rr(&c);
    return w;
}

/*
 * Distances that differ, and end in neighbouring slots: corners have neither. With a long cycle tRC is 13 to 16 and
 * tRP at most 2.
 */
static struct words with_unlike_distances(struct maker *m, struct words w, bool long_cycle)
{
    w.tim = (uint32_t)random_next(&m->random) & 0xFF77FF70;
    if (long_cycle)
        w.tim = (w.tim & 0x19333330) | 0x00000C00;
    else if (once_in(m, 2))
        w.tim &= 0x1B333330; /* none above 4 */
    return with_enough_rr(w);
}

/* ---- The list of commands ---- */

static void begin_list(struct maker *m)
{
    m->commands = 0;
    m->slots = 0;
}

/* Behind the last one. */
static void add(struct maker *m, uint64_t slot, struct command x)
{
    struct timed *new = &m->list[m->commands];

    if (m->commands == MOST_COMMANDS)
        return;
    new->slot = slot;
    new->command = x;
    m->commands++;
    m->slots = slot;
}

/* The commands from `from` on, below `to`, and the NOPs before each of them; `slot` is the last slot before. */
static void spell(struct maker *m, struct tape_writer *w, unsigned from, unsigned to, uint64_t slot)
{
    unsigned n;

    for (n = from; n < to; n++) {
        struct record nops = {{NOP, 0, 0, 0, 0}, (unsigned)(m->list[n].slot - slot - 1)};
        struct record r = {m->list[n].command, 1};

        if (nops.slots > 0)
            tape_put(w, nops);
        tape_put(w, r);
        slot = m->list[n].slot;
    }
}

static void spell_all(struct maker *m)
{
    uint64_t last = m->commands == 0 ? 0 : m->list[m->commands - 1].slot;
    struct record nops = {{NOP, 0, 0, 0, 0}, (unsigned)(m->slots - last)};
    struct tape_writer w;

    m->made.tape.length = 0;
    tape_write_bytes(&w, &m->made.tape);
    spell(m, &w, 0, m->commands, 0);
    if (nops.slots > 0)
        tape_put(&w, nops);
    tape_write_end(&w);
}

/* ---- Tapes of our own machine ---- */

struct extent {
    unsigned commands; /* the tape ends with the last of so many, */
    uint64_t slots;    /* or after so many slots */
};

/* The start has 10 commands. Most tapes show some more, some end within it, some are longer. */
static struct extent draw_extent(struct maker *m, uint64_t start)
{
    struct extent e = {11 + draw(m, 30), start + 30 * m->c.RR};

    switch (draw(m, 16)) {
    case 0:
        e.slots = 1 + draw(m, (uint32_t)start);
        break;
    case 1:
        e.slots = start + draw(m, 5 * m->c.RR);
        break;
    case 2:
        e.commands += draw(m, 200);
        break;
    default:
        break;
    }
    return e;
}

static struct traffic draw_climb(struct maker *m)
{
    struct traffic t = draw_traffic(&m->random, &m->c);

    t.pace = KEEP_FULL;
    t.reads = 100;
    t.until_backlog = NEVER;
    t.slots = 14 * m->c.RR;
    return t;
}

static void hand_in(struct maker *m, const struct traffic *t)
{
    unsigned requests = draw_requests(&m->random, t, &m->machine);

    while (requests-- > 0) {
        enum request_kind kind = draw_kind(&m->random, t);
        uint32_t address = t->pool[draw(m, POOL)];

        machine_request(&m->machine, kind, address, (uint16_t)draw(m, 65536));
    }
}

/* With a climb the first traffic runs through a Must run. */
static void run_machine(struct maker *m, bool climb)
{
    const struct configuration *c = &m->c;
    uint64_t start = 8 * c->RR + c->tRP + 8 * c->tRFC + 2;
    struct extent e = draw_extent(m, start);
    struct traffic t = climb ? draw_climb(m) : draw_traffic(&m->random, c);
    uint64_t left = t.slots;

    if (climb) {
        e.commands = MOST_COMMANDS;
        e.slots = start + 14 * c->RR;
    }
    machine_configure(&m->machine, m->words);
    begin_list(m);
    while (m->commands < e.commands && m->machine.slot < e.slots) {
        struct slot_answer a;

        if (m->machine.slot >= start) {
            if (left == 0 || m->machine.backlog >= t.until_backlog) {
                t = draw_traffic(&m->random, c);
                left = t.slots;
            }
            left--;
            follow_interval(&m->random, &t, &m->machine);
            hand_in(m, &t);
        }
        a = machine_slot(&m->machine, 0); /* no command depends on the bus */
        if (a.command.kind != NOP)
            add(m, m->machine.slot, a.command);
        m->slots = m->machine.slot;
    }
}

/* A climb takes 12 intervals: it is for short ones. */
static void make_own(struct maker *m)
{
    bool climb = once_in(m, 80);
    struct words w = draw_words(&m->random, false);

    if (climb) {
        w.tim &= 0x11111110;
        w.ref = 0;
        w = with_enough_rr(w);
    }
    set_device(m, w);
    run_machine(m, climb);
}

/* ---- Random commands ---- */

/* Seldom a number that lies outside: the first such one, or any up to `most`. */
static unsigned draw_number(struct maker *m, unsigned bits, unsigned most)
{
    unsigned outside = 1u << bits;

    if (!once_in(m, 24))
        return draw(m, outside);
    return once_in(m, 2) ? outside : outside + draw(m, most + 1 - outside);
}

/* Seldom the other CL's, or any. */
static uint16_t draw_mrs_word(struct maker *m)
{
    if (!once_in(m, 8))
        return (uint16_t)(16 * m->c.CL);
    return (uint16_t)(once_in(m, 2) ? 16 * (5 - m->c.CL) : draw(m, 65536));
}

static struct command draw_command(struct maker *m, enum command_kind kind)
{
    struct geometry g = m->c.geometry;
    struct command x = {kind, 0, 0, 0, 0};

    if (kind == ACT || kind == READ || kind == WRT || kind == PRE)
        x.bank = draw_number(m, g.bank_bits, 255);
    if (kind == ACT)
        x.row = draw_number(m, g.row_bits, 65535);
    if (kind == READ || kind == WRT)
        x.column = draw_number(m, g.column_bits, 65535);
    if (kind == WRT)
        x.word = (uint16_t)draw(m, 65536);
    if (kind == MRS)
        x.word = draw_mrs_word(m);
    return x;
}

static enum command_kind draw_any_kind(struct maker *m)
{
    return (enum command_kind)(ACT + draw(m, MRS));
}

/* ---- Bent tapes ---- */

/* The command in this slot, or the number of commands where there is none. */
static unsigned find(const struct maker *m, uint64_t slot)
{
    unsigned n = 0;

    while (n < m->commands && m->list[n].slot != slot)
        n++;
    return n;
}

static void take_out(struct maker *m, unsigned n)
{
    m->commands--;
    memmove(&m->list[n], &m->list[n + 1], (m->commands - n) * sizeof m->list[0]);
}

/* Into a slot that has none. */
static void put_in(struct maker *m, uint64_t slot, struct command x)
{
    struct timed new = {slot, x};
    unsigned n = m->commands;

    if (m->commands == MOST_COMMANDS)
        return;
    while (n > 0 && m->list[n - 1].slot > slot)
        n--;
    memmove(&m->list[n + 1], &m->list[n], (m->commands - n) * sizeof m->list[0]);
    m->list[n] = new;
    m->commands++;
    if (m->slots < slot)
        m->slots = slot;
}

static unsigned draw_shift(struct maker *m)
{
    return once_in(m, 4) ? 1 + draw(m, 20) : 1 + draw(m, 2);
}

/* To an earlier or a later slot. With a command that is there it changes places. */
static void move_command(struct maker *m, unsigned n)
{
    struct timed moved = m->list[n];
    unsigned shift = draw_shift(m);
    bool later = once_in(m, 2) || moved.slot <= shift;
    uint64_t slot = later ? moved.slot + shift : moved.slot - shift;
    unsigned other = find(m, slot);

    if (other < m->commands) {
        m->list[n].command = m->list[other].command;
        m->list[other].command = moved.command;
    } else {
        take_out(m, n);
        put_in(m, slot, moved.command);
    }
}

static void double_command(struct maker *m, unsigned n)
{
    uint64_t slot = m->list[n].slot + draw_shift(m);

    if (find(m, slot) == m->commands)
        put_in(m, slot, m->list[n].command);
    else
        m->list[find(m, slot)].command = m->list[n].command;
}

/* The NOPs before the command become more, or fewer. */
static void stretch(struct maker *m, unsigned n)
{
    uint64_t before = n == 0 ? 0 : m->list[n - 1].slot;
    uint64_t nops = m->list[n].slot - before - 1;
    uint64_t shift = draw_shift(m);

    if (nops == 0 || once_in(m, 3)) {
        m->slots += shift;
        for (; n < m->commands; n++)
            m->list[n].slot += shift;
    } else {
        shift = shift < nops ? shift : nops;
        m->slots -= shift;
        for (; n < m->commands; n++)
            m->list[n].slot -= shift;
    }
}

/* One of those after the start, as a rule. */
static unsigned draw_place(struct maker *m)
{
    enum { OF_START = 10 };

    if (m->commands > OF_START && !once_in(m, 5))
        return OF_START + draw(m, m->commands - OF_START);
    return draw(m, m->commands);
}

static void bend(struct maker *m)
{
    unsigned n;

    if (m->commands == 0)
        return;
    n = draw_place(m);
    switch (draw(m, 6)) {
    case 0:
    case 1:
        move_command(m, n);
        break;
    case 2:
        take_out(m, n);
        break;
    case 3:
        double_command(m, n);
        break;
    case 4:
        m->list[n].command = draw_command(m, once_in(m, 2) ? m->list[n].command.kind : draw_any_kind(m));
        break;
    default:
        stretch(m, n);
        break;
    }
}

static void make_bent(struct maker *m)
{
    unsigned times = once_in(m, 4) ? 2 + draw(m, 3) : 1;

    make_own(m);
    while (times-- > 0)
        bend(m);
}

/* One field of TIM is one more or one less. */
static uint32_t draw_next_tim(struct maker *m, uint32_t tim)
{
    static const unsigned lowest_bit[] = {27, 24, 20, 16, 12, 8, 4};
    static const uint32_t most[] = {31, 7, 7, 7, 15, 15, 7};
    unsigned n = draw(m, 7);
    uint32_t field = tim >> lowest_bit[n] & most[n];
    uint32_t next = field == 0 || (field < most[n] && !once_in(m, 4)) ? field + 1 : field - 1;

    return (tim & ~(most[n] << lowest_bit[n])) | next << lowest_bit[n];
}

/* A tape of our own, judged with words that are not its own. */
static void make_other_words(struct maker *m)
{
    struct words w;

    make_own(m);
    w = m->words;
    switch (draw(m, 8)) {
    case 0:
        w.cfg ^= 0x0200; /* CL 2 for 3, 3 for 2 */
        break;
    case 1:
        set_geometry(&w, draw(m, GEOMETRIES));
        break;
    case 2:
        w.tim = draw_tim(&m->random);
        break;
    default:
        w.tim = draw_next_tim(m, w.tim);
        break;
    }
    set_device(m, with_enough_rr(w));
}

/* ---- Tapes of commands that are legal, but for one or a few ---- */

enum flavour { MIXED, MANY_OPEN, REFRESHES, CYCLES, SPOT, FLAVOURS = SPOT };
enum { KINDS = 12 };

/* SPOT is for the illegal command itself: of every kind alike. */
static const enum command_kind while_closed[SPOT + 1][KINDS] = {
    [MIXED] = {ACT, ACT, ACT, ACT, ACT, ACT, ACT, REFR, REFR, MRS, MRS, DEAC},
    [MANY_OPEN] = {ACT, ACT, ACT, ACT, ACT, ACT, ACT, ACT, ACT, MRS, MRS, REFR},
    [REFRESHES] = {ACT, ACT, ACT, ACT, ACT, ACT, REFR, REFR, REFR, MRS, MRS, MRS},
    [CYCLES] = {ACT, ACT, ACT, ACT, ACT, ACT, ACT, ACT, ACT, ACT, REFR, MRS},
    [SPOT] = {ACT, ACT, ACT, ACT, REFR, REFR, REFR, REFR, REFR, MRS, MRS, DEAC},
};
static const enum command_kind while_open[SPOT + 1][KINDS] = {
    [MIXED] = {ACT, ACT, ACT, READ, READ, READ, WRT, WRT, WRT, PRE, PRE, DEAC},
    [MANY_OPEN] = {ACT, ACT, ACT, ACT, ACT, ACT, READ, READ, WRT, WRT, PRE, DEAC},
    [REFRESHES] = {ACT, ACT, READ, WRT, WRT, PRE, PRE, PRE, PRE, DEAC, DEAC, DEAC},
    [CYCLES] = {ACT, ACT, ACT, WRT, PRE, PRE, PRE, PRE, DEAC, DEAC, DEAC, DEAC},
    [SPOT] = {ACT, ACT, ACT, ACT, READ, READ, WRT, WRT, PRE, PRE, DEAC, DEAC},
};

/* A command that suits the banks, if it can find its bank open or closed as it needs it. */
static struct command draw_suitable(struct maker *m, enum flavour flavour)
{
    bool closed = all_banks_closed(&m->past);
    struct command x = draw_command(m, (closed ? while_closed : while_open)[flavour][draw(m, KINDS)]);
    unsigned tries;

    for (tries = 0; tries < 4 && x.bank < MOST_BANKS && m->past.open[x.bank] != (x.kind != ACT); tries++)
        if (x.kind <= PRE)
            x.bank = draw_number(m, m->c.geometry.bank_bits, 255);
    return x;
}

/* The first slot after the tape's last in which the command is legal. False where no waiting helps. */
static bool first_legal_slot(const struct maker *m, struct command x, uint64_t *slot)
{
    uint64_t last = m->slots + LONGEST_DISTANCE;

    for (*slot = m->slots + 1; *slot <= last; ++*slot)
        if (legal(&m->c, &m->past, *slot, x))
            return true;
    return false;
}

/* Slots that a command waits longer than it has to; in some tapes now and then for full runs. */
static uint64_t draw_pause(struct maker *m, bool full_runs)
{
    if (full_runs && once_in(m, 4))
        return (uint64_t)LONGEST_RUN * (1 + draw(m, 3)) + draw(m, 40) - 5;
    switch (draw(m, 16)) {
    case 0:
    case 1:
        return 1;
    case 2:
        return 1 + draw(m, 4);
    case 3:
        return draw(m, 60);
    default:
        return 0;
    }
}

static void add_legal(struct maker *m, enum flavour flavour, bool full_runs)
{
    struct command x = {DEAC, 0, 0, 0, 0};
    uint64_t slot;
    unsigned tries = 0;

    do {
        x = draw_suitable(m, flavour);
    } while (!first_legal_slot(m, x, &slot) && ++tries < 40);
    if (tries == 40)
        return;
    slot += draw_pause(m, full_runs);
    history_send(&m->past, slot, x);
    add(m, slot, x);
}

/* One that looks at every bank. */
static struct command draw_sweeping(struct maker *m)
{
    struct command x = {all_banks_closed(&m->past) ? REFR : DEAC, 0, 0, 0, 0};

    return x;
}

/* Of the bank that was the last to be opened, of those that are closed again. */
static struct command draw_reopening(struct maker *m)
{
    struct command x = draw_command(m, ACT);
    unsigned n = m->commands;

    while (n > 0 && (m->list[n - 1].command.kind != ACT || m->list[n - 1].command.bank >= MOST_BANKS ||
                     m->past.open[m->list[n - 1].command.bank]))
        n--;
    if (n > 0)
        x.bank = m->list[n - 1].command.bank;
    return x;
}

static struct command draw_impatient(struct maker *m)
{
    switch (draw(m, 8)) {
    case 0:
    case 1:
        return draw_sweeping(m);
    case 2:
    case 3:
        return draw_reopening(m);
    default:
        return draw_suitable(m, SPOT);
    }
}

/* A slot before the first legal one: the last of them, the first, or any. */
static uint64_t draw_early_slot(struct maker *m, uint64_t first_legal)
{
    uint32_t slots = (uint32_t)(first_legal - m->slots - 1);

    switch (draw(m, 4)) {
    case 0:
        return m->slots + 1;
    case 1:
        return m->slots + 1 + draw(m, slots);
    default:
        return first_legal - 1;
    }
}

/* A command that could wait and does not. */
static bool add_early(struct maker *m)
{
    unsigned tries;

    for (tries = 0; tries < 20; tries++) {
        struct command x = draw_impatient(m);
        uint64_t slot;

        if (first_legal_slot(m, x, &slot) && slot > m->slots + 1) {
            add(m, draw_early_slot(m, slot), x);
            return true;
        }
    }
    return false;
}

/* A command for which no waiting helps. */
static void add_hopeless(struct maker *m, bool full_runs)
{
    struct command x;
    uint64_t slot;

    do {
        x = draw_command(m, draw_any_kind(m));
    } while (first_legal_slot(m, x, &slot));
    add(m, m->slots + 1 + draw_pause(m, full_runs), x);
}

/* What is illegal counts as not sent. */
static void add_illegal(struct maker *m, bool full_runs)
{
    if (once_in(m, 4) || !add_early(m))
        add_hopeless(m, full_runs);
}

static void make_mostly_legal(struct maker *m, bool full_runs, unsigned illegal)
{
    enum flavour flavour = draw(m, FLAVOURS);
    bool long_cycle = flavour == CYCLES || once_in(m, 4);
    struct words w = draw_words(&m->random, true);
    unsigned commands = once_in(m, 4) ? draw(m, 4) : draw(m, 40);

    if (once_in(m, 2))
        w.cfg = (w.cfg & ~UINT32_C(0x70)) | 0x20; /* 4 banks */
    set_device(m, once_in(m, 4) ? w : with_unlike_distances(m, w, long_cycle));
    history_begin(&m->past);
    begin_list(m);
    if (once_in(m, 4))
        m->slots = draw(m, 300); /* the first command is not in slot 1 */
    while (commands-- > 0)
        add_legal(m, flavour, full_runs);
    while (illegal-- > 0) {
        add_illegal(m, full_runs);
        commands = once_in(m, 2) ? 0 : draw(m, 6);
        while (commands-- > 0)
            add_legal(m, flavour, full_runs);
    }
    if (once_in(m, 4))
        m->slots += draw(m, 40);
}

static unsigned draw_illegal(struct maker *m)
{
    return once_in(m, 5) ? 0 : once_in(m, 4) ? 2 + draw(m, 2) : 1;
}

/* ---- Refused tapes ---- */

static void make_any(struct maker *m)
{
    switch (draw(m, 3)) {
    case 0:
        make_own(m);
        break;
    case 1:
        make_bent(m);
        break;
    default:
        make_mostly_legal(m, false, draw_illegal(m));
        break;
    }
}

/* A record that the reader refuses with each number; the cut ones only at a tape's end. */
static void put_bad_record(struct maker *m, bool at_end)
{
    static const unsigned char records[][6] = {
        {NOP, 0, 0, NOP, 1, 0}, {NOP, 7, 0, NOP, 7, 0}, {NOP, 254, 255, NOP, 1, 0}, {NOP, 255, 255, NOP, 0, 0},
        {WRT, 0, 0, 0, 0, 0},   {ACT, 0, 0, 0, 0, 0},   {MRS, 32, 0, 0, 0, 0},      {NOP, 1, 0, 0, 0, 0},
    };
    static const unsigned length[] = {6, 6, 6, 6, 5, 3, 2, 2};
    unsigned char kind = (unsigned char)(8 + (once_in(m, 2) ? 0 : draw(m, 248)));
    unsigned n = draw(m, at_end ? 8 : 4);

    if (once_in(m, 3))
        bytes_put(&m->made.tape, &kind, 1);
    else
        bytes_put(&m->made.tape, records[n], length[n]);
}

/* Spells the list with a bad record before, between or behind its commands. */
static void spell_with_bad_record(struct maker *m)
{
    bool at_end = once_in(m, 3);
    unsigned n = at_end ? m->commands : draw(m, m->commands + 1);
    struct tape_writer w;

    m->made.tape.length = 0;
    tape_write_bytes(&w, &m->made.tape);
    spell(m, &w, 0, n, 0);
    tape_write_end(&w);
    put_bad_record(m, at_end);
    if (!at_end)
        spell(m, &w, n, m->commands, n == 0 ? 0 : m->list[n - 1].slot);
    tape_write_end(&w);
}

/* No commands; seldom no slots either. */
static void make_only_nops(struct maker *m)
{
    static const unsigned slots[] = {0, 1, 65534, 65535, 65536, 131070, 131071, 196605};

    set_device(m, draw_words(&m->random, true));
    begin_list(m);
    m->slots = once_in(m, 3) ? 1 + draw(m, 1000) : slots[draw(m, 8)];
}

/* ---- The file ---- */

static void draw_case(struct maker *m)
{
    uint32_t way = draw(m, 100);
    unsigned times = 1 + once_in(m, 4);

    if (way < 20)
        make_own(m);
    else if (way < 42)
        make_bent(m);
    else if (way < 50)
        make_other_words(m);
    else if (way < 80)
        make_mostly_legal(m, false, draw_illegal(m));
    else if (way < 83)
        make_mostly_legal(m, true, draw_illegal(m));
    else if (way < 84)
        make_only_nops(m);
    else
        make_any(m);
    spell_all(m);
    if (way >= 84 && way < 89)
        spell_with_bad_record(m);
    else if (way >= 89 && way < 94)
        while (times-- > 0)
            spoil_bytes(&m->random, &m->made.tape);
    m->made.words = m->words;
    if (way >= 94)
        while (times-- > 0)
            spoil_words(&m->random, &m->made.words);
    if (way >= 98)
        spell_with_bad_record(m);
}

static struct maker *begin(uint64_t seed)
{
    static struct maker m; /* zero at first */

    m.random = seed;
    return &m;
}

void random_cases(uint64_t seed, uint64_t count)
{
    struct maker *m = begin(seed);

    while (count-- > 0) {
        draw_case(m);
        case_put(&m->made, stdout);
    }
    bytes_end(&m->made.tape);
}

void own_cases(uint64_t seed, uint64_t count)
{
    struct maker *m = begin(seed);

    while (count-- > 0) {
        make_own(m);
        spell_all(m);
        m->made.words = m->words;
        case_put(&m->made, stdout);
    }
    bytes_end(&m->made.tape);
}
