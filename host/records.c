#include "records.h"
#include <stdio.h>

static const struct { const char *name; size_t bytes; } KIND[KINDS] = {
    [NOP] = { "NOP", RUN_BYTES }, [ACT] = { "ACT", 4 },  [READ] = { "READ", 4 }, [WRT] = { "WRT", 6 },
    [PRE] = { "PRE", 2 },         [DEAC] = { "DEAC", 1 }, [REFR] = { "REFR", 1 }, [MRS] = { "MRS", 3 },
};

const char *kind_name(unsigned kind) { return KIND[kind].name; }

size_t kind_bytes(unsigned kind) { return KIND[kind].bytes; }

Scan scan_of(const uint8_t *tape, size_t length) { return (Scan){ .tape = tape, .length = length, .slot = 1 }; }

static unsigned pair(const uint8_t *bytes) { return bytes[0] | (unsigned)bytes[1] << 8; }

static Record record_at(const Scan *scan) {
    const uint8_t *body = scan->tape + scan->place + 1;
    Record record = { .place = scan->place, .slot = scan->slot, .kind = scan->tape[scan->place] };
    if (record.kind == NOP || record.kind == MRS) record.number = pair(body);
    if (record.kind >= ACT && record.kind <= PRE) record.bank = body[0];
    if (record.kind >= ACT && record.kind <= WRT) record.number = pair(body + 1);
    if (record.kind == WRT) record.halfword = pair(body + 3);
    return record;
}

bool next_record(Scan *scan, Record *record) {
    if (scan->place >= scan->length) return false;
    unsigned kind = scan->tape[scan->place];
    if (kind >= KINDS || scan->length - scan->place < kind_bytes(kind)) return false;
    *record = record_at(scan);
    unsigned count = kind == NOP ? record->number : 0;
    if (kind == NOP && (count == 0 || (scan->run != 0 && scan->run != FULL_RUN))) return false;
    scan->place += kind_bytes(kind);
    scan->slot += kind == NOP ? count : 1;
    scan->run = count;
    return true;
}

void print_command(const Record *record) {
    printf("%s", kind_name(record->kind));
    if (record->kind >= ACT && record->kind <= PRE) printf(" %u", record->bank);
    if ((record->kind >= ACT && record->kind <= WRT) || record->kind == MRS) printf(" %u", record->number);
    if (record->kind == WRT) printf(" %u", record->halfword);
    printf(" in slot %llu", (unsigned long long)record->slot);
}
