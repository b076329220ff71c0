/* A row of bytes that grows. Zero at first, it is empty. */
#ifndef BYTES_H
#define BYTES_H

#include <stddef.h>
#include <stdio.h>

struct bytes {
    unsigned char *at;
    size_t length, room;
};

void bytes_put(struct bytes *b, const void *from, size_t length);

/* Puts bytes of the file behind those that are there, up to its end or up to so many. Gives how many. */
size_t bytes_take(struct bytes *b, FILE *file, size_t most);

void bytes_end(struct bytes *b);

#endif
