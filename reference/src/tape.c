#include "tape.h"

#include "damage.h"

/* ---- Records and their bytes ---- */

enum { LONGEST_BODY = 5 };

static const unsigned body_length[] = {
    [NOP] = 2,
    [ACT] = 3,
    [READ] = 3,
    [WRT] = SLIP(WRT_WITHOUT_HALFWORD, 5, 3),
    [PRE] = SLIP(PRE_WITHOUT_BANK, 1, 0),
    [DEAC] = 0,
    [REFR] = 0,
    [MRS] = SLIP(MRS_WITH_BANK, 2, 3),
};

static void store_number(unsigned char *at, unsigned number)
{
    at[SLIP(HIGH_BYTE_FIRST, 0, 1)] = (unsigned char)(number % 256);
    at[SLIP(HIGH_BYTE_FIRST, 1, 0)] = (unsigned char)(number / 256);
}

static uint16_t load_number(const unsigned char *at)
{
    return (uint16_t)(at[SLIP(HIGH_BYTE_READ_FIRST, 0, 1)] + 256 * at[SLIP(HIGH_BYTE_READ_FIRST, 1, 0)]);
}

static void store_body(struct record r, unsigned char *body)
{
    struct command x = r.command;

    switch (x.kind) {
    case NOP:
        store_number(body, r.slots);
        break;
    case ACT:
        body[0] = (unsigned char)x.bank;
        store_number(body + 1, x.row);
        break;
    case READ:
        body[0] = (unsigned char)x.bank;
        store_number(body + 1, x.column);
        break;
    case WRT:
        body[0] = (unsigned char)x.bank;
        store_number(body + SLIP(HALFWORD_BEFORE_COLUMN, 1, 3), x.column);
        store_number(body + SLIP(HALFWORD_BEFORE_COLUMN, 3, 1), x.word);
        break;
    case PRE:
        body[0] = (unsigned char)x.bank;
        break;
    case DEAC:
    case REFR:
        break;
    case MRS:
        store_number(body + SLIP(MRS_WITH_BANK, 0, 1), x.word);
        break;
    }
}

static struct record load_body(enum command_kind kind, const unsigned char *body)
{
    struct record r = {{kind, 0, 0, 0, 0}, 1};

    switch (kind) {
    case NOP:
        r.slots = load_number(body);
        break;
    case ACT:
        r.command.bank = SLIP(BANK_OF_TWO_BITS, body[0], body[0] % 4);
        r.command.row = SLIP(ROW_OF_13_BITS, load_number(body + 1), load_number(body + 1) % 8192);
        break;
    case READ:
        r.command.bank = body[0];
        r.command.column = load_number(body + 1);
        break;
    case WRT:
        r.command.bank = body[0];
        r.command.column = load_number(body + 1);
        r.command.word = load_number(body + 3);
        break;
    case PRE:
        r.command.bank = body[0];
        break;
    case DEAC:
    case REFR:
        break;
    case MRS:
        r.command.word = load_number(body + SLIP(MRS_WITH_BANK, 0, 1));
        break;
    }
    return r;
}

/* ---- Out ---- */

void tape_write_begin(struct tape_writer *w, FILE *file)
{
    w->file = file;
    w->bytes = NULL;
    w->run = 0;
}

void tape_write_bytes(struct tape_writer *w, struct bytes *bytes)
{
    tape_write_begin(w, NULL);
    w->bytes = bytes;
}

static void put_record(struct tape_writer *w, struct record r)
{
    unsigned char record[1 + LONGEST_BODY] = {0};
    size_t length = 1 + body_length[r.command.kind];

    record[0] = (unsigned char)r.command.kind;
    store_body(r, record + 1);
    if (w->file != NULL)
        fwrite(record, 1, length, w->file);
    else
        bytes_put(w->bytes, record, length);
}

static void put_run(struct tape_writer *w)
{
    struct record run = {{NOP, 0, 0, 0, 0}, w->run};

    if (w->run > 0)
        put_record(w, run);
    w->run = 0;
}

static void put_nops(struct tape_writer *w, unsigned slots)
{
    unsigned longest = LONGEST_RUN + SLIP(RUN_OF_65536, 0, 1) - SLIP(RUN_OF_65534, 0, 1);

    while (slots > longest - w->run) { /* a run that is full waits for the next NOP */
        slots -= longest - w->run;
        w->run = longest;
        put_run(w);
    }
    w->run += slots;
}

void tape_put(struct tape_writer *w, struct record r)
{
    if (r.command.kind == NOP) {
        put_nops(w, r.slots);
        return;
    }
    put_run(w);
    put_record(w, r);
}

void tape_write_end(struct tape_writer *w)
{
    if (!DAMAGED(LAST_RUN_LOST))
        put_run(w);
}

/* ---- In ---- */

void tape_read_file(struct tape_reader *t, FILE *file)
{
    tape_read_bytes(t, NULL, 0);
    t->file = file;
}

void tape_read_bytes(struct tape_reader *t, const unsigned char *bytes, size_t length)
{
    t->file = NULL;
    t->bytes = bytes;
    t->length = length;
    t->taken = 0;
    t->place = 0;
    t->slots = 0;
    t->run = 0;
    t->number = ACCEPTED;
}

static int next_byte(struct tape_reader *t)
{
    int byte;

    if (t->file != NULL)
        byte = getc(t->file);
    else
        byte = t->taken < t->length ? t->bytes[t->taken] : EOF;
    if (byte != EOF)
        t->taken++;
    return byte;
}

/* False where the tape ends before `length` bytes. */
static bool take_body(struct tape_reader *t, unsigned char *body, unsigned length)
{
    while (length-- > 0) {
        int byte = next_byte(t);

        if (byte == EOF)
            return DAMAGED(CUT_BODY_LET_THROUGH);
        *body++ = (unsigned char)byte;
    }
    return true;
}

static bool run_may_follow(const struct tape_reader *t)
{
    if (DAMAGED(RUN_AFTER_SHORTER_LET_THROUGH))
        return true;
    if (DAMAGED(RUN_AFTER_FULL_REFUSED))
        return t->run == 0;
    return t->run == 0 || t->run >= LONGEST_RUN - SLIP(RUN_AFTER_65534_LET_THROUGH, 0, 1);
}

/* The record that begins with the byte `kind`, already taken: ACCEPTED, or the lowest number that refuses it. */
static enum number take_record(struct tape_reader *t, int kind, struct record *r)
{
    unsigned char body[LONGEST_BODY] = {0};

    if (DAMAGED(CUT_BEFORE_KIND) && kind > MRS && !take_body(t, body, 1))
        return BODY_CUT;
    if (kind > SLIP(KIND_8_LET_THROUGH, MRS, MRS + 1))
        return KIND_ABOVE_7;
    kind = SLIP(KIND_8_LET_THROUGH, kind, kind % 8);
    if (DAMAGED(RUN_BEFORE_CUT) && kind == NOP && !run_may_follow(t))
        return RUN_MISSPELLED;
    if (!take_body(t, body, body_length[kind]))
        return BODY_CUT;
    *r = load_body((enum command_kind)kind, body);
    if (kind == NOP && r->slots == 0 && !DAMAGED(COUNT_0_LET_THROUGH))
        return RUN_MISSPELLED;
    return kind == NOP && !run_may_follow(t) ? RUN_MISSPELLED : ACCEPTED;
}

bool tape_next(struct tape_reader *t, struct record *r)
{
    int kind = next_byte(t);

    if (kind == EOF)
        return false;
    t->place = t->taken - SLIP(PLACE_AFTER_KIND, 1, 0);
    t->number = take_record(t, kind, r);
    if (t->number != ACCEPTED) {
        t->number = SLIP(CUT_BODY_IS_END, t->number, t->number == BODY_CUT ? ACCEPTED : t->number);
        return false;
    }
    t->slots += SLIP(RUN_COUNTS_ONE_SLOT, r->slots, 1);
    t->run = kind == NOP ? r->slots : SLIP(RUN_KEPT_OVER_COMMANDS, 0, t->run);
    return true;
}
