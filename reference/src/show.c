#include "show.h"

#include <inttypes.h>
#include <stdint.h>

#include "damage.h"
#include "tape.h"

static uint64_t counted(uint64_t slots)
{
    return SLIP(SLOTS_OF_32_BITS, slots, (uint32_t)slots);
}

/* The record read last. Its slot is its first, counted from 1. */
static void print_record(const struct tape_reader *t, const struct record *r)
{
    uint64_t first = t->slots - SLIP(SLOT_OF_RUNS_END, r->slots, 1) + SLIP(SLOT_FROM_0, 1, 0);

    printf("%" PRIu64 " ", counted(first));
    print_command(r->command);
    if (r->command.kind == NOP)
        printf(" %u", r->slots);
    putchar('\n');
}

/* For a reader that has come to its end. */
static void print_end(const struct tape_reader *t)
{
    if (t->number == ACCEPTED)
        printf("end %" PRIu64 "\n", counted(t->slots));
    else
        printf("refused %d %" PRIu64 "\n", t->number, t->place);
}

bool show_tape(FILE *file)
{
    struct tape_reader t;
    struct record r;

    tape_read_file(&t, file);
    while (tape_next(&t, &r))
        print_record(&t, &r);
    print_end(&t);
    return t.number == ACCEPTED;
}

bool copy_tape(FILE *file)
{
    struct tape_reader t;
    struct tape_writer w;
    struct record r;

    tape_read_file(&t, file);
    tape_write_begin(&w, stdout);
    while (tape_next(&t, &r))
        tape_put(&w, r);
    tape_write_end(&w);
    return t.number == ACCEPTED;
}

static void print_end_of_bytes(const unsigned char *bytes, size_t length)
{
    struct tape_reader t;
    struct record r;

    tape_read_bytes(&t, bytes, length);
    while (tape_next(&t, &r))
        ;
    print_end(&t);
}

static void print_changes(unsigned char *bytes, size_t length, size_t place)
{
    unsigned char kept = bytes[place];
    unsigned value;

    for (value = 0; value < 256; value++) {
        bytes[place] = (unsigned char)value;
        printf("change %zu %u ", place, value);
        print_end_of_bytes(bytes, length);
    }
    bytes[place] = kept;
}

bool damage_tape(FILE *file)
{
    static unsigned char bytes[LONGEST_DAMAGED_TAPE + 1];
    size_t length = fread(bytes, 1, sizeof bytes, file);
    size_t n;

    if (length > LONGEST_DAMAGED_TAPE) {
        fprintf(stderr, "reference: the tape has more than %d bytes: damage takes a shorter one\n",
                LONGEST_DAMAGED_TAPE);
        return false;
    }
    for (n = 0; n <= length; n++) {
        printf("cut %zu ", n);
        print_end_of_bytes(bytes, n);
    }
    for (n = 0; n < length; n++)
        print_changes(bytes, length, n);
    return true;
}
