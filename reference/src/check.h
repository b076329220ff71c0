/*
 * Document 01, "The third condition in full": the flat memory, and every claim about the list of calls.
 * A call for many slots stands for the slots that it runs.
 * The first claim that fails is named on standard error and ends the program with status 1. A script
 * whose bus halfword is not the SDRAM's ends it with status 2.
 */
#ifndef CHECK_H
#define CHECK_H

#include <stdbool.h>
#include <stdint.h>

#include "machine.h"
#include "memory.h"
#include "sdram.h"
#include "words.h"

/* An accepted request that has not been reported. */
struct awaited {
    uint32_t number;
    enum request_kind kind;
    uint16_t halfword; /* of a read: what the flat memory gave for it when it was accepted */
};

struct check {
    uint64_t line; /* of the script, for messages */
    bool watching; /* an accepted configuration is in force */
    struct configuration c;
    struct sdram sdram;
    struct memory flat;  /* place: address / 2 */
    uint32_t count;      /* of accepted requests */
    struct awaited awaited[QUEUE_ROOM];
    unsigned awaiting;
    uint64_t first_service_slot; /* 0 before MRS is sent */
    uint64_t expiries, service_refreshes;
    uint64_t differences; /* addresses at which the flat memory and the SDRAM differ */
};

void check_begin(struct check *k);
void check_end(struct check *k);

/* A configuration was accepted (c) or refused (NULL). */
void check_configuration(struct check *k, const struct configuration *c);
void check_request(struct check *k, struct request asked, struct request_answer a);
void check_bus(const struct check *k, uint16_t bus); /* before the slot */
void check_slot(struct check *k, const struct slot_answer *a);
void check_backlog(const struct check *k, struct backlog_answer a);

/*
 * Document 02, (i). Before the call every place of the rows for commands and reports is marked. After it:
 * the answer and the count, the places beyond the count, and single slots on the machine as it was
 * before. What the slots did is for check_bus and check_slot, one slot after the other.
 */
void check_mark_rows(struct rows *r);
void check_slots(const struct check *k, const struct machine *before, const struct rows *r,
                 struct slots_answer a);

#endif
