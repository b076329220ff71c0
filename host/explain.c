#include "explain.h"
#include "../include/girmutsab.h"
#include "rules.h"
#include "waiting.h"
#include <stdio.h>

static void explain_accepted(const Tape *tape) {
    uint64_t counts[KINDS] = { 0 };
    Scan scan = scan_of(tape->bytes, tape->length);
    Record record;
    while (next_record(&scan, &record)) counts[record.kind] += record.kind == NOP ? record.number : 1;
    printf("# Every slot is legal:");
    for (unsigned kind = 0; kind < KINDS; kind++) printf(" %llu %s,", (unsigned long long)counts[kind], kind_name(kind));
    printf(" together %llu.\n", (unsigned long long)(scan.slot - 1));
}

static void explain_too_long(const Tape *tape) {
    if (tape->whole) printf("# The tape has %llu bytes; no more than %u are judged, and none was read.\n", (unsigned long long)tape->length, GIRMUTSAB_TAPE_LIMIT);
    else printf("# The tape has more than %u bytes; no more are judged.\n", GIRMUTSAB_TAPE_LIMIT);
}

static void explain_waiting(const Illegal *illegal, const Waiting *waiting) {
    switch (waiting->found) {
    case LEGAL_FROM: printf("# It would have been legal from slot %llu on.\n", (unsigned long long)waiting->slot); break;
    case NEVER_LEGAL:
        printf("# Waiting does not make it legal");
        if (waiting->rule != illegal->rule) printf(", since R%u is broken too", waiting->rule);
        print_need(waiting->rule, waiting->bank);
        break;
    case TOO_LONG_TO_TRY:
        printf("# From which slot on it would have been legal was not tried: with NOPs before it the tape would have more than %u bytes.\n", GIRMUTSAB_TAPE_LIMIT);
        break;
    case NO_MEMORY_TO_TRY: printf("# From which slot on it would have been legal was not tried: there is no memory for a copy of the tape.\n"); break;
    }
}

static void explain_illegal(Words words, const Tape *tape, uint64_t answer) {
    Illegal illegal = { .device = device_of(words), .rule = girmutsab_rule(answer), .bank = girmutsab_bank(answer) };
    const Record *command = &illegal.command;
    if (!find_command(tape->bytes, tape->length, girmutsab_slot(answer), &illegal.command, &illegal.past)) return;
    printf("# ");
    print_command(command);
    printf(", at byte %llu of the tape (counted from 0), is illegal.\n", (unsigned long long)command->place);
    print_rule(illegal.rule);
    print_cause(&illegal);
    Waiting waiting = waiting_for(words, tape->bytes, command, illegal.past.run);
    explain_waiting(&illegal, &waiting);
}

/* What is wrong with the record that the scan has stopped at. */
static void explain_refused_record(const Scan *scan) {
    unsigned long long place = (unsigned long long)scan->place;
    size_t left = scan->length - scan->place;
    unsigned kind = scan->tape[scan->place];
    if (kind >= KINDS) printf("# The record at byte %llu of the tape (counted from 0) has kind %u; there are kinds 0 to 7.\n", place, kind);
    else if (left < kind_bytes(kind))
        printf("# The record at byte %llu of the tape (counted from 0), kind %u (%s), takes %u bytes, and the tape ends after %u.\n", place, kind, kind_name(kind),
               (unsigned)kind_bytes(kind), (unsigned)left);
    else if (scan->run != 0 && scan->run != FULL_RUN)
        printf("# The run at byte %llu of the tape (counted from 0) follows one that counts %u; only a run that counts 65535 may be followed by another.\n", place, scan->run);
    else printf("# The run at byte %llu of the tape (counted from 0) counts no NOPs; a run counts 1 to 65535.\n", place);
}

/* How the records before the refused one are judged. */
static void explain_part(Words words, const Scan *scan) {
    uint64_t answer = girmutsab_judge(words.cfg, words.row, words.ref, words.tim, scan->tape, scan->place);
    Record command;
    Past past;
    if (answer == 0) printf("# Every slot before it is legal, %llu in all.\n", (unsigned long long)(scan->slot - 1));
    else if (find_command(scan->tape, scan->place, girmutsab_slot(answer), &command, &past)) {
        printf("# Before it, ");
        print_command(&command);
        printf(" breaks R%u.\n", girmutsab_rule(answer));
    }
}

static void explain_refused(Words words, const Tape *tape) {
    Scan scan = scan_of(tape->bytes, tape->length);
    Record record;
    while (next_record(&scan, &record)) {}
    if (scan.place >= scan.length) return;
    explain_refused_record(&scan);
    explain_part(words, &scan);
}

void explain(Words words, const Tape *tape, uint64_t answer) {
    unsigned number = girmutsab_number(answer);
    if (answer == 0) explain_accepted(tape);
    else if (number == GIRMUTSAB_JUDGED) explain_illegal(words, tape, answer);
    else if (number <= GIRMUTSAB_SHORT_INTERVAL) explain_words(number, words);
    else if (number == GIRMUTSAB_TOO_LONG) explain_too_long(tape);
    else explain_refused(words, tape);
}
