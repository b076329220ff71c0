#include <errno.h>
#include <inttypes.h>
#include <stdio.h>
#include <stdlib.h>
#include <string.h>

#include "casecheck.h"
#include "casefile.h"
#include "cases.h"
#include "generate.h"
#include "judge.h"
#include "play.h"
#include "rulecases.h"
#include "rules.h"
#include "scrap.h"
#include "show.h"

enum { WELL = 0, REFUSED = 1, UNABLE = 2, MOST_NUMBERS = 4 };

static const char usage[] =
    "usage: reference run < SCRIPT                  plays a script, prints REPLAY.md's lines\n"
    "       reference check < SCRIPT                the same, and holds the run against document 01\n"
    "       reference script SEED CALLS             writes a random script\n"
    "       reference rules SEED COMMANDS           holds two writings of the rules against each other\n"
    "       reference tape < SCRIPT > TAPE          plays a script, writes its tape\n"
    "       reference read < TAPE                   prints a tape's records\n"
    "       reference damage < TAPE                 prints how a tape ends at each cut and each byte changed\n"
    "       reference copy < TAPE > TAPE            reads a tape and writes its slots anew\n"
    "       reference random-tape SEED RECORDS      writes a random tape\n"
    "       reference spoil SEED < TAPE > TAPE      damages a tape\n"
    "       reference judge CFG ROW REF TIM < TAPE  judges a tape, prints TAPES.md's line\n"
    "       reference judge-cases < CASES           the same for each case of a file\n"
    "       reference check-cases < CASES           the same, and holds each against the other writings of the rules\n"
    "       reference cases SEED COUNT > CASES      writes random cases\n"
    "       reference own-cases SEED COUNT > CASES  writes random cases of our own machine's tapes\n"
    "       reference rule-cases > CASES            writes cases for each rule, command and bank\n"
    "       reference rule-lines                    prints the lines that they get\n";

/* ---- What can be asked: each gives the program's status ---- */

static int do_run(const uint64_t *number)
{
    (void)number;
    play(stdin, LINES);
    return WELL;
}

static int do_check(const uint64_t *number)
{
    (void)number;
    play(stdin, CHECKED_LINES);
    return WELL;
}

static int do_script(const uint64_t *number)
{
    generate(number[0], number[1]);
    return WELL;
}

static int do_rules(const uint64_t *number)
{
    return compare_rules(number[0], number[1]) ? WELL : REFUSED;
}

static int do_tape(const uint64_t *number)
{
    (void)number;
    play(stdin, TAPE);
    return WELL;
}

static int do_read(const uint64_t *number)
{
    (void)number;
    return show_tape(stdin) ? WELL : REFUSED;
}

static int do_damage(const uint64_t *number)
{
    (void)number;
    return damage_tape(stdin) ? WELL : UNABLE;
}

static int do_copy(const uint64_t *number)
{
    (void)number;
    return copy_tape(stdin) ? WELL : REFUSED;
}

static int do_random_tape(const uint64_t *number)
{
    random_tape(number[0], number[1]);
    return WELL;
}

static int do_spoil(const uint64_t *number)
{
    spoil_tape(number[0], stdin);
    return WELL;
}

/* A tape that is too long is told from its first bytes. */
static int do_judge(const uint64_t *number)
{
    struct words w = {(uint32_t)number[0], (uint32_t)number[1], (uint32_t)number[2], (uint32_t)number[3]};
    struct bytes tape = {NULL, 0, 0};
    struct verdict v;

    bytes_take(&tape, stdin, (size_t)LONGEST_TAPE + 1);
    v = judge(w, tape.at, tape.length);
    print_verdict(v);
    bytes_end(&tape);
    return v.number == ACCEPTED && v.slot == 0 ? WELL : REFUSED;
}

static int do_judge_cases(const uint64_t *number)
{
    (void)number;
    return judge_cases(stdin) ? WELL : UNABLE;
}

static int do_check_cases(const uint64_t *number)
{
    (void)number;
    return check_cases(stdin) ? WELL : UNABLE;
}

static int do_cases(const uint64_t *number)
{
    random_cases(number[0], number[1]);
    return WELL;
}

static int do_own_cases(const uint64_t *number)
{
    own_cases(number[0], number[1]);
    return WELL;
}

static int do_rule_cases(const uint64_t *number)
{
    (void)number;
    write_rule_cases();
    return WELL;
}

static int do_rule_lines(const uint64_t *number)
{
    (void)number;
    write_rule_lines();
    return WELL;
}

static const struct task {
    const char *name;
    int numbers;      /* that follow the name */
    uint64_t largest; /* that they may be */
    int (*perform)(const uint64_t *number);
} tasks[] = {
    {"run", 0, UINT64_MAX, do_run},
    {"check", 0, UINT64_MAX, do_check},
    {"script", 2, UINT64_MAX, do_script},
    {"rules", 2, UINT64_MAX, do_rules},
    {"tape", 0, UINT64_MAX, do_tape},
    {"read", 0, UINT64_MAX, do_read},
    {"damage", 0, UINT64_MAX, do_damage},
    {"copy", 0, UINT64_MAX, do_copy},
    {"random-tape", 2, UINT64_MAX, do_random_tape},
    {"spoil", 1, UINT64_MAX, do_spoil},
    {"judge", 4, UINT32_MAX, do_judge},
    {"judge-cases", 0, UINT64_MAX, do_judge_cases},
    {"check-cases", 0, UINT64_MAX, do_check_cases},
    {"cases", 2, UINT64_MAX, do_cases},
    {"own-cases", 2, UINT64_MAX, do_own_cases},
    {"rule-cases", 0, UINT64_MAX, do_rule_cases},
    {"rule-lines", 0, UINT64_MAX, do_rule_lines},
};
enum { TASKS = sizeof tasks / sizeof tasks[0] };

/* ---- The words of the command line ---- */

/* Decimal, or hexadecimal after 0x. */
static bool read_number(const char *text, uint64_t largest, uint64_t *number)
{
    bool hexadecimal = strncmp(text, "0x", 2) == 0;
    const char *digits = hexadecimal ? text + 2 : text;

    if (*digits == '\0' || strspn(digits, hexadecimal ? "0123456789abcdefABCDEF" : "0123456789") != strlen(digits))
        return false;
    errno = 0;
    *number = strtoumax(digits, NULL, hexadecimal ? 16 : 10);
    return errno == 0 && *number <= largest;
}

/* NULL where the words ask for nothing. */
static const struct task *read_task(int words, char **word, uint64_t *number)
{
    const struct task *task = tasks;
    int n;

    while (task < tasks + TASKS && (words == 0 || strcmp(word[0], task->name) != 0))
        task++;
    if (task == tasks + TASKS || words != 1 + task->numbers)
        return NULL;
    for (n = 0; n < task->numbers; n++)
        if (!read_number(word[1 + n], task->largest, &number[n]))
            return NULL;
    return task;
}

int main(int argc, char **argv)
{
    static char buffer[1 << 16];
    uint64_t number[MOST_NUMBERS];
    const struct task *task = read_task(argc - 1, argv + 1, number);
    int status;

    setvbuf(stdout, buffer, _IOFBF, sizeof buffer);
    if (task == NULL) {
        fputs(usage, stderr);
        return UNABLE;
    }
    status = task->perform(number);
    if (ferror(stdin) || fflush(stdout) != 0 || ferror(stdout)) {
        fputs("reference: input or output failed\n", stderr);
        return UNABLE;
    }
    return status;
}
