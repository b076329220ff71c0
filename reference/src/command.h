/* Document 01, "Commands and their distances": the eight commands. */
#ifndef COMMAND_H
#define COMMAND_H

#include <stdint.h>

/* Numbered as the kinds of a tape's records are: document 02, (ii). */
enum command_kind { NOP, ACT, READ, WRT, PRE, DEAC, REFR, MRS };

/* A field that the kind does not name is 0. */
struct command {
    enum command_kind kind;
    unsigned bank;   /* ACT, READ, WRT, PRE */
    unsigned row;    /* ACT */
    unsigned column; /* READ, WRT */
    uint16_t word;   /* WRT: the halfword. MRS: its word. */
};

enum { MOST_BANKS = 4 };

/* As REPLAY.md, "Output", has it. */
void print_command(struct command x);

#endif
