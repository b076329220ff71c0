#define _POSIX_C_SOURCE 200809L
#define _FILE_OFFSET_BITS 64
#include "file.h"
#include "../include/girmutsab.h"
#include <errno.h>
#include <fcntl.h>
#include <stdlib.h>
#include <sys/mman.h>
#include <sys/stat.h>
#include <unistd.h>

/* One byte more than is judged. */
#define MOST ((size_t)GIRMUTSAB_TAPE_LIMIT + 1)

static bool map(int file, Tape *tape) {
    struct stat about;
    if (fstat(file, &about) != 0 || !S_ISREG(about.st_mode) || about.st_size <= 0 || (uintmax_t)about.st_size > SIZE_MAX) return false;
    size_t length = (size_t)about.st_size;
    void *bytes = mmap(NULL, length, PROT_READ, MAP_PRIVATE, file, 0);
    if (bytes == MAP_FAILED) return false;
    *tape = (Tape){ .bytes = bytes, .length = length, .whole = true, .mapped = true };
    return true;
}

/* Fills the bytes as far as the file goes; errno is set where reading fails. */
static bool fill(int file, uint8_t *bytes, size_t *length) {
    while (*length < MOST) {
        ssize_t got = read(file, bytes + *length, MOST - *length);
        if (got == 0) return true;
        if (got < 0 && errno != EINTR) return false;
        if (got > 0) *length += (size_t)got;
    }
    return true;
}

/* The bytes in an allocation of their own length. */
static uint8_t *fitted(uint8_t *bytes, size_t length) {
    if (length == 0) {
        free(bytes);
        return NULL;
    }
    uint8_t *less = realloc(bytes, length);
    return less == NULL ? bytes : less;
}

static int read_whole(int file, Tape *tape) {
    size_t length = 0;
    uint8_t *bytes = malloc(MOST);
    if (bytes == NULL) return ENOMEM;
    if (!fill(file, bytes, &length)) {
        int why = errno;
        free(bytes);
        return why;
    }
    *tape = (Tape){ .bytes = fitted(bytes, length), .length = length, .whole = length < MOST };
    return 0;
}

int open_tape(const char *name, Tape *tape) {
    int file = open(name, O_RDONLY);
    if (file < 0) return errno;
    int why = map(file, tape) ? 0 : read_whole(file, tape);
    close(file);
    return why;
}

void close_tape(const Tape *tape) {
    if (tape->mapped) munmap((void *)tape->bytes, tape->length);
    else free((void *)tape->bytes);
}
