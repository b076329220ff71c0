#include "past.h"

static void shut(Past *past, unsigned bank, const Record *record) {
    past->pre[bank] = *record;
    if (past->open[bank]) past->shut[bank] = *record;
    past->open[bank] = false;
}

static void remember_of_bank(Past *past, const Record *record) {
    if (record->kind == ACT) {
        past->act[record->bank] = *record;
        past->open[record->bank] = true;
    }
    if (record->kind == WRT) past->wrt[record->bank] = *record;
    if (record->kind == PRE) shut(past, record->bank, record);
}

static void remember(Past *past, const Record *record) {
    if (record->kind == READ) past->read = *record;
    if (record->kind == REFR) past->refr = *record;
    if (record->kind == MRS) past->mrs = *record;
    if (record->kind == PRE || record->kind == DEAC) past->any_pre = *record;
    if (record->kind == DEAC)
        for (unsigned bank = 0; bank < BANKS; bank++) shut(past, bank, record);
    else if (record->bank < BANKS) remember_of_bank(past, record);
}

bool find_command(const uint8_t *tape, size_t length, uint64_t slot, Record *command, Past *past) {
    Scan scan = scan_of(tape, length);
    *past = (Past){ .run = 0 };
    while (scan.slot <= slot) {
        past->run = scan.run;
        if (!next_record(&scan, command)) return false;
        if (command->slot == slot && command->kind != NOP) return true;
        remember(past, command);
    }
    return false;
}
