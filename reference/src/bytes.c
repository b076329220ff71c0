#include "bytes.h"

#include <stdlib.h>
#include <string.h>

static void make_room(struct bytes *b, size_t more)
{
    if (b->room - b->length >= more)
        return;
    b->room = 2 * b->length + more;
    b->at = realloc(b->at, b->room);
    if (b->at == NULL) {
        fputs("reference: out of memory\n", stderr);
        exit(2);
    }
}

void bytes_put(struct bytes *b, const void *from, size_t length)
{
    if (length == 0)
        return;
    make_room(b, length);
    memcpy(b->at + b->length, from, length);
    b->length += length;
}

/* In pieces: a file may have far fewer bytes than are asked for. */
size_t bytes_take(struct bytes *b, FILE *file, size_t most)
{
    enum { PIECE = 65536 };
    size_t before = b->length, piece, got;

    do {
        piece = most < PIECE ? most : PIECE;
        make_room(b, piece);
        got = piece == 0 ? 0 : fread(b->at + b->length, 1, piece, file);
        b->length += got;
        most -= got;
    } while (got == piece && most > 0);
    return b->length - before;
}

void bytes_end(struct bytes *b)
{
    struct bytes none = {NULL, 0, 0};

    free(b->at);
    *b = none;
}
