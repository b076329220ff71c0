/* Judges many cases: reads a case file and prints `judge NUMBER SLOT RULE BANK` for each case.

   usage: cases < CASES

   A case is CFG, ROW, REF, TIM and the tape's length, 4 bytes each, low byte first, and then the tape's bytes. Nothing stands between cases. Status 0: all judged;
   2: the file ends within a case, wrong usage, or input or output that fails. */
#include "../include/girmutsab.h"
#include <errno.h>
#include <stdio.h>
#include <stdlib.h>
#include <string.h>

enum { WORDS = 4, HEAD_BYTES = 4 * (WORDS + 1), BUFFER_BYTES = 1 << 20 };

static int failed(const char *what, unsigned long long number) {
    fprintf(stderr, "cases: %s (case %llu)\n", what, number);
    return 2;
}

static uint32_t word_at(const uint8_t *bytes) {
    return bytes[0] | (uint32_t)bytes[1] << 8 | (uint32_t)bytes[2] << 16 | (uint32_t)bytes[3] << 24;
}

static void judge(const uint8_t *head, const uint8_t *tape, size_t length) {
    uint64_t answer = girmutsab_judge(word_at(head), word_at(head + 4), word_at(head + 8), word_at(head + 12), tape, length);
    printf("judge %u %llu %u %u\n", girmutsab_number(answer), (unsigned long long)girmutsab_slot(answer), girmutsab_rule(answer), girmutsab_bank(answer));
}

/* Judges the case behind a head; NULL, or what failed. Its tape has an allocation of its own length, so that a sanitizer sees any access beyond. */
static const char *rest_of_case(const uint8_t *head) {
    size_t length = word_at(head + 4 * WORDS);
    if (length == 0) {
        judge(head, NULL, 0);
        return NULL;
    }
    uint8_t *tape = malloc(length);
    if (tape == NULL) return "there is no memory for the tape";
    const char *why = NULL;
    if (fread(tape, 1, length, stdin) == length) judge(head, tape, length);
    else why = "the input ends within a tape";
    free(tape);
    return why;
}

int main(int count, char **given) {
    uint8_t head[HEAD_BYTES];
    (void)given;
    if (count != 1) {
        fprintf(stderr, "cases: give the cases on standard input and no words: cases < CASES\n");
        return 2;
    }
    setvbuf(stdin, NULL, _IOFBF, BUFFER_BYTES);
    setvbuf(stdout, NULL, _IOFBF, BUFFER_BYTES);
    for (unsigned long long number = 1;; number++) {
        size_t got = fread(head, 1, sizeof head, stdin);
        if (got == 0 && !ferror(stdin)) break;
        const char *why = got < sizeof head ? "the input ends within a head" : rest_of_case(head);
        if (ferror(stdin)) why = "the input cannot be read";
        if (why != NULL) return failed(why, number);
    }
    if (fflush(stdout) != 0 || ferror(stdout)) {
        fprintf(stderr, "cases: the answers cannot be written: %s\n", strerror(errno));
        return 2;
    }
    return 0;
}
