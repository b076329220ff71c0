/* REPLAY.md, "Script": lines into calls. */
#ifndef SCRIPT_H
#define SCRIPT_H

#include <stdbool.h>
#include <stdint.h>
#include <stdio.h>

/* The line with most arguments is `bus` with 126 halfwords of one digit. */
enum { LONGEST_LINE = 255, MOST_ARGUMENTS = 126 };

enum call_kind {
    CALL_CONFIG,
    CALL_READ,
    CALL_WRITE,
    CALL_SLOT,
    CALL_BUS,
    CALL_SLOTS,
    CALL_BACKLOG,
    CALL_CELL,
    CALL_ADDRESS,
    NO_CALL /* an error line */
};

struct call {
    enum call_kind kind;
    unsigned arguments;
    uint32_t argument[MOST_ARGUMENTS];
};

struct script {
    FILE *file;
    uint64_t line;                 /* the last one read, counted from 1 */
    char text[LONGEST_LINE];       /* its first bytes */
    size_t length;                 /* its whole length, without line feed */
    char buffer[65536];
    size_t filled, taken;
};

void script_begin(struct script *s, FILE *file);

/* The next line that is not passed over. False at the end of the script. */
bool script_next(struct script *s, struct call *call);

#endif
