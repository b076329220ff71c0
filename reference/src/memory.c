#include "memory.h"

#include <stdio.h>
#include <stdlib.h>

static void *zeroed(size_t count, size_t size)
{
    void *space = calloc(count, size);

    if (space == NULL) {
        fputs("reference: out of memory\n", stderr);
        exit(2);
    }
    return space;
}

void memory_begin(struct memory *m)
{
    m->page = zeroed(MEMORY_PAGES, sizeof *m->page);
}

void memory_end(struct memory *m)
{
    unsigned n;

    for (n = 0; n < MEMORY_PAGES; n++)
        free(m->page[n]);
    free(m->page);
    m->page = NULL;
}

void memory_put(struct memory *m, uint32_t place, uint16_t halfword)
{
    struct memory_page **page = &m->page[place / MEMORY_PAGE];

    if (*page == NULL)
        *page = zeroed(1, sizeof **page);
    (*page)->halfword[place % MEMORY_PAGE] = halfword;
    (*page)->written[place % MEMORY_PAGE] = true;
}

uint16_t memory_get(const struct memory *m, uint32_t place, uint16_t otherwise)
{
    const struct memory_page *page = m->page[place / MEMORY_PAGE];

    if (page == NULL || !page->written[place % MEMORY_PAGE])
        return otherwise;
    return page->halfword[place % MEMORY_PAGE];
}
