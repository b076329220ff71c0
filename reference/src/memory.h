/* A sparse store of halfwords, by place number. It knows which places were ever written. */
#ifndef MEMORY_H
#define MEMORY_H

#include <stdbool.h>
#include <stdint.h>

enum { MEMORY_PAGE = 1024, MEMORY_PAGES = 65536 }; /* 2 to the power 26 places: the largest device */

struct memory_page {
    uint16_t halfword[MEMORY_PAGE];
    bool written[MEMORY_PAGE];
};

struct memory {
    struct memory_page **page; /* NULL where nothing was written */
};

void memory_begin(struct memory *m);
void memory_end(struct memory *m);
void memory_put(struct memory *m, uint32_t place, uint16_t halfword);

/* The halfword last put there, or `otherwise` if none ever was. */
uint16_t memory_get(const struct memory *m, uint32_t place, uint16_t otherwise);

#endif
