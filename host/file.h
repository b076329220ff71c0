/* A tape's file as bytes in memory: mapped, or read where it cannot be mapped (a pipe). */
#ifndef FILE_H
#define FILE_H

#include <stdbool.h>
#include <stddef.h>
#include <stdint.h>

typedef struct {
    const uint8_t *bytes; /* null where there are none */
    size_t length;
    bool whole;  /* not so where the file goes on: of one that is read, no more is taken than shows that it is too long */
    bool mapped;
} Tape;

/* 0, or the errno that says why there is no tape. The file must not be made shorter while it is mapped. */
int open_tape(const char *name, Tape *tape);
void close_tape(const Tape *tape);

#endif
