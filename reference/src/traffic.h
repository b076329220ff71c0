/* Random traffic: which addresses are asked for, and when. */
#ifndef TRAFFIC_H
#define TRAFFIC_H

#include <stdint.h>

#include "machine.h"
#include "words.h"

enum pace {
    IDLE,
    NOW_AND_THEN,
    BURST_AT_EXPIRY,
    PAUSE_AT_EXPIRY, /* the queue runs empty, so that a refresh is under way when the interval ends */
    BEFORE_REFRESH,  /* one to three after each refresh and shortly before an expiry, then none */
    KEEP_FULL,
    PACES
};

enum { POOL = 8, NEVER = 16 };

struct traffic {
    uint32_t pool[POOL]; /* the addresses asked for; few, so that what is written is read again */
    enum pace pace;
    unsigned reads;         /* in a hundred */
    unsigned until_backlog; /* the traffic ends when the backlog is as high */
    uint32_t slots;         /* or after so many */
    unsigned pause_from;    /* PAUSE_AT_EXPIRY: from this backlog on, */
    unsigned pause;         /* for so many slots before the interval ends; another number each time */
    unsigned lead;          /* BEFORE_REFRESH: so many slots before it ends; another number each time */
};

struct traffic draw_traffic(uint64_t *random, const struct configuration *c);

/* Before a slot: the numbers that are another for each interval. */
void follow_interval(uint64_t *random, struct traffic *t, const struct machine *m);

/* How many requests the traffic hands in before the coming slot. */
unsigned draw_requests(uint64_t *random, const struct traffic *t, const struct machine *m);

/* The kind of one of them. */
enum request_kind draw_kind(uint64_t *random, const struct traffic *t);

#endif
