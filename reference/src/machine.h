/* Document 01, "Numbers given back", "Start", "A service slot", and document 02, (i): the machine. */
#ifndef MACHINE_H
#define MACHINE_H

#include <stdbool.h>
#include <stdint.h>

#include "command.h"
#include "legality.h"
#include "words.h"

enum { QUEUE_ROOM = 8 };

enum request_kind { READ_REQUEST, WRITE_REQUEST };

struct request {
    uint32_t number;
    enum request_kind kind;
    uint32_t address;
    uint16_t halfword; /* of a write */
};

enum action_kind { NO_ACTION, ACCESS, REFRESH };

struct action {
    enum action_kind kind;
    unsigned place;     /* ACCESS: its request's place in the queue; no other leaves meanwhile */
    bool deac_sent;     /* REFRESH */
    uint64_t data_slot; /* the read's slot t + CL; 0 before READ is sent */
    uint64_t last_slot; /* the last slot that the action occupies; 0 before its last command is sent */
};

struct machine {
    bool blank;
    struct configuration c;
    uint64_t slot; /* slots run so far; the first is 1 */
    struct history past;
    unsigned start_step; /* commands of the start sent so far, its last NOP counted */
    struct request queue[QUEUE_ROOM + 1]; /* oldest first; the last place is for a damaged build */
    unsigned queued;
    uint32_t accepted;
    unsigned interval, backlog;
    bool must_run;
    struct action action;
};

enum report_kind { REPORT_NOTHING, REPORT_READ, REPORT_WRITE };

struct report {
    enum report_kind kind;
    uint32_t number;
    uint16_t halfword; /* of a read */
};

struct request_answer {
    enum number answer;
    uint32_t number;
};

struct slot_answer {
    enum number answer;
    struct command command;
    struct report report;
};

struct backlog_answer {
    enum number answer;
    unsigned backlog;
};

/*
 * Document 02, (i): the three rows lent to the call for many slots. Of each, so many places are lent;
 * 4,096 is REPLAY.md's limit.
 */
enum { ROW_ROOM = 4096 };

struct rows {
    unsigned halfwords, commands, reports; /* places lent */
    uint16_t bus[ROW_ROOM];
    struct command command[ROW_ROOM];
    struct report report[ROW_ROOM];
};

struct slots_answer {
    enum number answer;
    unsigned count; /* slots run */
};

void machine_blank(struct machine *m);
enum number machine_configure(struct machine *m, struct words w);
/* Document 02, (iii): one call for both kinds; the halfword given with a read is ignored. */
struct request_answer machine_request(struct machine *m, enum request_kind kind, uint32_t address,
                                      uint16_t halfword);
struct slot_answer machine_slot(struct machine *m, uint16_t bus);
struct slots_answer machine_slots(struct machine *m, struct rows *r);
struct backlog_answer machine_backlog(const struct machine *m);

#endif
