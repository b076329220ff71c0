/* Includes the header as C99 and as C++ (tests/host builds it as both) and calls the judge. Status 0: all answers as they should be; 1: one is not, and which. */
#include "../include/girmutsab.h"
#include <stdio.h>
#include <stdlib.h>

static int wrong = 0;

static void expect(const char *what, uint64_t answer, unsigned number, uint64_t slot, unsigned rule, unsigned bank) {
    if (girmutsab_number(answer) == number && girmutsab_slot(answer) == slot && girmutsab_rule(answer) == rule && girmutsab_bank(answer) == bank) return;
    fprintf(stderr, "host-header: %s is answered with %u %llu %u %u\n", what, girmutsab_number(answer), (unsigned long long)girmutsab_slot(answer),
            girmutsab_rule(answer), girmutsab_bank(answer));
    wrong = 1;
}

int main(void) {
    static const uint8_t pre[] = { 0, 1, 0, 4, 3 }; /* 1 NOP, 2 PRE 3: bank 3 is closed, R11 */
    uint8_t *long_tape = (uint8_t *)calloc(GIRMUTSAB_TAPE_LIMIT + 1, 1);
    if (long_tape == NULL) return 1;
    expect("a word made up", UINT64_C(0x123456789A0B0C0D), 0x0D, UINT64_C(0x123456789A), 0x0C, 0x0B);
    expect("null and length 0", girmutsab_judge(0x4400, 0, 27, 0, NULL, 0), GIRMUTSAB_JUDGED, 0, 0, 0);
    expect("a pointer and length 0", girmutsab_judge(0x4400, 0, 27, 0, pre, 0), GIRMUTSAB_JUDGED, 0, 0, 0);
    expect("PRE of a closed bank", girmutsab_judge(0x4620, 4, 136, 0x42215810, pre, sizeof pre), GIRMUTSAB_JUDGED, 2, 11, 3);
    expect("PRE cut", girmutsab_judge(0x4620, 4, 136, 0x42215810, pre, 4), GIRMUTSAB_CUT, 0, 0, 0);
    expect("a bit of no field", girmutsab_judge(0x4408, 0, 27, 0, NULL, 0), GIRMUTSAB_UNNAMED_BIT, 0, 0, 0);
    expect("CL 4", girmutsab_judge(0x4800, 0, 27, 0, NULL, 0), GIRMUTSAB_NOT_OFFERED, 0, 0, 0);
    expect("RR 26", girmutsab_judge(0x4400, 0, 26, 0, NULL, 0), GIRMUTSAB_SHORT_INTERVAL, 0, 0, 0);
    expect("a tape at the limit", girmutsab_judge(0x4400, 0, 27, 0, long_tape, GIRMUTSAB_TAPE_LIMIT), GIRMUTSAB_WRONG_RUN, 0, 0, 0);
    expect("a tape above the limit", girmutsab_judge(0x4400, 0, 27, 0, long_tape, GIRMUTSAB_TAPE_LIMIT + 1), GIRMUTSAB_TOO_LONG, 0, 0, 0);
    expect("RR 26 and a tape above the limit", girmutsab_judge(0x4400, 0, 26, 0, long_tape, GIRMUTSAB_TAPE_LIMIT + 1), GIRMUTSAB_SHORT_INTERVAL, 0, 0, 0);
    free(long_tape);
    return wrong;
}
