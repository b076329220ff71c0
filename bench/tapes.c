/* Writes the tape of a row of 16,384 words, again and again, or with -DREADS reads it, and prints a digest: the work of crates/bench_tapes in C (document
   02, (ii); docs/PACKING.md has the words). bench/run measures the proved writer and reader against it. The writer goes over the words twice, as the proved
   one does: first for their kinds and the tape's length. Writer and reader test the kind by a chain of `if`s; with a `switch` both were slower. */
#include <stddef.h>
#include <stdint.h>
#include <stdio.h>

#ifdef READS
enum { WRITES = 0 };
#else
enum { WRITES = 1 };
#endif

enum { TIMES = 6000, WORDS = 16384, BYTES = 131072 };

/* The kinds of a tape's records and of a command's word; a NOP is in a run. */
enum { NOP, ACT, READ, WRT, PRE, DEAC, REFR, MRS };

/* Numbers of document 02's table. */
enum { KIND = 11, CUT = 12, WRONG_RUN = 13, NO_ROOM = 14, NO_COMMAND = 20 };

static uint32_t shuffle(uint32_t x) {
    x ^= x << 13;
    x ^= x >> 17;
    return x ^ x << 5;
}

static uint32_t mix(uint32_t digest, uint32_t value) { return shuffle(digest ^ value); }

/* A command's word: half of all are NOPs, and every kind occurs. */
static uint64_t word(uint32_t x) {
    uint32_t kind = x / 256 % 16;
    uint64_t bank = x / 4096 % 4, low = x / 65536 % 512;
    if (kind < 8) return NOP;
    if (kind < 10) return ACT + 256 * bank + 65536 * low;
    if (kind < 12) return READ + 256 * bank + 65536 * low;
    if (kind < 14) return WRT + 256 * bank + 65536 * low + ((uint64_t)(x % 65536) << 32);
    if (kind < 15) return PRE + 256 * bank;
    if (x / 128 % 2 == 1) return MRS + 65536 * low;
    return DEAC + x / 64 % 2;
}

/* The bits that the word of each kind may have, and the bytes of its record. */
static const uint64_t MASK[8] = { 0, 0xFFFFFFFF, 0xFFFFFFFF, 0xFFFFFFFFFFFF, 0xFFFF, 0xFF, 0xFF, 0xFFFF00FF };
static const uint8_t SIZE[8] = { 3, 4, 4, 6, 2, 1, 1, 3 };

typedef struct { uint8_t number; size_t length; } Written;

static size_t put_run(uint8_t *tape, size_t at, uint16_t run) {
    if (run == 0) return at;
    tape[at] = NOP;
    tape[at + 1] = (uint8_t)run;
    tape[at + 2] = (uint8_t)(run >> 8);
    return at + 3;
}

static size_t put_command(uint8_t *tape, size_t at, uint64_t w) {
    uint8_t kind = (uint8_t)w;
    tape[at] = kind;
    if (kind == MRS) {
        tape[at + 1] = (uint8_t)(w >> 16);
        tape[at + 2] = (uint8_t)(w >> 24);
        return at + 3;
    }
    if (kind > PRE) return at + 1;
    tape[at + 1] = (uint8_t)(w >> 8);
    if (kind == PRE) return at + 2;
    tape[at + 2] = (uint8_t)(w >> 16);
    tape[at + 3] = (uint8_t)(w >> 24);
    if (kind < WRT) return at + 4;
    tape[at + 4] = (uint8_t)(w >> 32);
    tape[at + 5] = (uint8_t)(w >> 40);
    return at + 6;
}

static Written write_tape(const uint64_t *words, size_t count, uint8_t *tape, size_t room) {
    size_t length = 0, at = 0;
    uint16_t run = 0;
    for (size_t i = 0; i < count; i++) {
        uint64_t w = words[i];
        uint8_t kind = (uint8_t)w;
        if (kind > MRS || (w & ~MASK[kind]) != 0) return (Written){ NO_COMMAND, 0 };
        if (w != 0) {
            length += (run != 0 ? 3 : 0) + SIZE[kind];
            run = 0;
        } else if (run < 65535) {
            run++;
        } else {
            length += 3;
            run = 1;
        }
    }
    length += run != 0 ? 3 : 0;
    if (length > room) return (Written){ NO_ROOM, 0 };
    run = 0;
    for (size_t i = 0; i < count; i++) {
        uint64_t w = words[i];
        if (w != 0) {
            at = put_command(tape, put_run(tape, at, run), w);
            run = 0;
        } else if (run < 65535) {
            run++;
        } else {
            at = put_run(tape, at, run);
            run = 1;
        }
    }
    put_run(tape, at, run);
    return (Written){ 0, length };
}

typedef enum { END, COMMAND, RUN, REFUSED } What;
/* `low` is a row, a column, a word of MRS or a run's count; `place` is a refused record's. */
typedef struct { What what; uint8_t number, kind, bank; uint16_t low, halfword; size_t place; } Item;
typedef struct { Item item; size_t at; uint16_t run; } Found;

static uint16_t pair(const uint8_t *bytes) { return (uint16_t)(bytes[0] | bytes[1] << 8); }

static Found refused(uint8_t number, size_t at, uint16_t run) {
    return (Found){ { .what = REFUSED, .number = number, .place = at }, at, run };
}

static Found sent(Item item, size_t next) { return (Found){ item, next, 0 }; }

/* How many bytes follow each kind. */
static const uint8_t BODY[8] = { 2, 3, 3, 5, 1, 0, 0, 2 };

static Found read_at(const uint8_t *tape, size_t length, size_t at, uint16_t run) {
    if (length <= at) return (Found){ { .what = END }, at, run };
    uint8_t kind = tape[at];
    if (kind > MRS) return refused(KIND, at, run);
    if (length - at - 1 < BODY[kind]) return refused(CUT, at, run);
    const uint8_t *body = tape + at + 1;
    if (kind == NOP) {
        uint16_t count = pair(body);
        if (count == 0 || (run != 0 && run < 65535)) return refused(WRONG_RUN, at, run);
        return (Found){ { .what = RUN, .low = count }, at + 3, count };
    }
    if (kind == MRS) return sent((Item){ .what = COMMAND, .kind = MRS, .low = pair(body) }, at + 3);
    if (kind == REFR) return sent((Item){ .what = COMMAND, .kind = REFR }, at + 1);
    if (kind == DEAC) return sent((Item){ .what = COMMAND, .kind = DEAC }, at + 1);
    uint8_t bank = body[0];
    if (kind == PRE) return sent((Item){ .what = COMMAND, .kind = PRE, .bank = bank }, at + 2);
    uint16_t low = pair(body + 1);
    if (kind == ACT) return sent((Item){ .what = COMMAND, .kind = ACT, .bank = bank, .low = low }, at + 4);
    if (kind == READ) return sent((Item){ .what = COMMAND, .kind = READ, .bank = bank, .low = low }, at + 4);
    return sent((Item){ .what = COMMAND, .kind = WRT, .bank = bank, .low = low, .halfword = pair(body + 3) }, at + 6);
}

static uint32_t mix_item(uint32_t digest, Item item) {
    if (item.what == END) return digest;
    if (item.what == REFUSED) return mix(digest, 8);
    uint32_t mixed = mix(digest, item.kind + 256u * item.bank + 65536u * item.low);
    return item.kind == WRT ? mix(mixed, item.halfword) : mixed;
}

static uint32_t read_all(uint32_t digest, const uint8_t *tape, size_t length) {
    size_t at = 0;
    uint16_t run = 0;
    while (at < length) {
        Found found = read_at(tape, length, at, run);
        digest = mix_item(digest, found.item);
        if (found.at <= at) return digest;
        at = found.at;
        run = found.run;
    }
    return digest;
}

static uint64_t words[WORDS];
static uint8_t tape[BYTES];

int main(void) {
    uint32_t x = 2463534242u, digest = 1;
    uint64_t bytes = 0;
    for (size_t i = 0; i < WORDS; i++) words[i] = word(x = shuffle(x));
    size_t length = write_tape(words, WORDS, tape, BYTES).length;
    for (uint32_t n = 0; n < TIMES; n++) {
        if (WRITES) {
            Written made = write_tape(words, WORDS, tape, BYTES);
            length = made.length;
            digest = mix(mix(digest, made.number), (uint32_t)(length % 65536));
            digest = mix(digest, tape[digest % 65536]);
            words[digest % WORDS] = word(digest);
        } else {
            digest = read_all(digest, tape, length);
        }
        bytes += length;
    }
    /* So that the digest has all bytes of the last tape. */
    digest = read_all(digest, tape, length);
    printf("bytes %llu digest %u\n", (unsigned long long)(bytes + length), digest);
    return 0;
}
