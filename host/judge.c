/* Judges a tape and says in words what is wrong with it.

   usage: judge CFG ROW REF TIM TAPE

   The first line is `judge NUMBER SLOT RULE BANK`; sentences for a person follow, each after `# `. Status 0: accepted; 1: refused or illegal; 2: wrong usage, or
   a tape that cannot be read. */
#include "../include/girmutsab.h"
#include "explain.h"
#include <errno.h>
#include <stdio.h>
#include <string.h>

enum { ACCEPTED = 0, NOT_ACCEPTED = 1, NOT_DONE = 2 };

static int usage(void) {
    fprintf(stderr, "judge: give the four register words and a tape: judge CFG ROW REF TIM TAPE\n");
    return NOT_DONE;
}

static bool parse_words(char **given, Words *words) {
    static const char *const NAMES[] = { "CFG", "ROW", "REF", "TIM" };
    uint32_t *const parts[] = { &words->cfg, &words->row, &words->ref, &words->tim };
    for (int i = 0; i < 4; i++)
        if (!parse_word(given[i], parts[i])) {
            fprintf(stderr, "judge: %s is '%s': give a number of 32 bits, decimal or hexadecimal after 0x\n", NAMES[i], given[i]);
            return false;
        }
    return true;
}

static int judge(Words words, const Tape *tape) {
    uint64_t answer = girmutsab_judge(words.cfg, words.row, words.ref, words.tim, tape->bytes, tape->length);
    printf("judge %u %llu %u %u\n", girmutsab_number(answer), (unsigned long long)girmutsab_slot(answer), girmutsab_rule(answer), girmutsab_bank(answer));
    explain(words, tape, answer);
    if (fflush(stdout) != 0 || ferror(stdout)) {
        fprintf(stderr, "judge: the answer cannot be written: %s\n", strerror(errno));
        return NOT_DONE;
    }
    return answer == 0 ? ACCEPTED : NOT_ACCEPTED;
}

int main(int count, char **given) {
    Words words;
    Tape tape;
    if (count != 6) return usage();
    if (!parse_words(given + 1, &words)) return NOT_DONE;
    int why = open_tape(given[5], &tape);
    if (why != 0) {
        fprintf(stderr, "judge: the tape %s cannot be read: %s\n", given[5], strerror(why));
        return NOT_DONE;
    }
    int status = judge(words, &tape);
    close_tape(&tape);
    return status;
}
