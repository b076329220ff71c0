#include "script.h"

#include <string.h>

/* ---- Lines ---- */

void script_begin(struct script *s, FILE *file)
{
    s->file = file;
    s->line = 0;
    s->length = 0;
    s->filled = 0;
    s->taken = 0;
}

static int next_byte(struct script *s)
{
    if (s->taken == s->filled) {
        s->filled = fread(s->buffer, 1, sizeof s->buffer, s->file);
        s->taken = 0;
        if (s->filled == 0)
            return EOF;
    }
    return (unsigned char)s->buffer[s->taken++];
}

/* False where the script ends with no byte of a further line. */
static bool next_line(struct script *s)
{
    int byte = next_byte(s);

    if (byte == EOF)
        return false;
    s->line++;
    s->length = 0;
    while (byte != EOF && byte != '\n') {
        if (s->length < LONGEST_LINE)
            s->text[s->length] = (char)byte;
        s->length++;
        byte = next_byte(s);
    }
    return true;
}

/* An empty line, or a comment of any length. */
static bool passed_over(const struct script *s)
{
    return s->length == 0 || s->text[0] == '#';
}

/* ---- Words and numbers ---- */

struct word {
    const char *text;
    size_t length;
};

/* The word at *at, up to a space or the end. An empty one comes of a space too many. */
static bool next_word(const struct script *s, size_t *at, struct word *word)
{
    size_t from = *at;

    while (*at < s->length && s->text[*at] != ' ')
        ++*at;
    word->text = s->text + from;
    word->length = *at - from;
    return word->length > 0;
}

static bool digit_value(char digit, uint32_t base, uint32_t *value)
{
    static const char digits[] = "0123456789abcdef0123456789ABCDEF";
    const char *found = memchr(digits, digit, sizeof digits - 1);

    if (found == NULL)
        return false;
    *value = (uint32_t)(found - digits) % 16;
    return *value < base;
}

static bool read_number(struct word word, uint32_t largest, uint32_t *number)
{
    bool hexadecimal = word.length > 2 && memcmp(word.text, "0x", 2) == 0;
    uint32_t base = hexadecimal ? 16 : 10;
    uint64_t value = 0;
    size_t at;

    for (at = hexadecimal ? 2 : 0; at < word.length; at++) {
        uint32_t digit;

        if (!digit_value(word.text[at], base, &digit))
            return false;
        value = value * base + digit;
        if (value > largest)
            return false;
    }
    *number = (uint32_t)value;
    return true;
}

/* ---- Calls ---- */

#define WORD UINT32_C(0xFFFFFFFF)
#define HALFWORD UINT32_C(0xFFFF)
#define BANK UINT32_C(0xFF)
#define PLACES UINT32_C(4096)

struct form {
    const char *name;
    unsigned arguments;
    uint32_t largest[5];
    bool further; /* more of the last argument may follow */
};

static const struct form forms[NO_CALL] = {
    [CALL_CONFIG] = {"config", 4, {WORD, WORD, WORD, WORD, 0}, false},
    [CALL_READ] = {"read", 1, {WORD, 0, 0, 0, 0}, false},
    [CALL_WRITE] = {"write", 2, {WORD, HALFWORD, 0, 0, 0}, false},
    [CALL_SLOT] = {"slot", 1, {HALFWORD, 0, 0, 0, 0}, false},
    [CALL_BUS] = {"bus", 1, {HALFWORD, 0, 0, 0, 0}, true},
    [CALL_SLOTS] = {"slots", 2, {PLACES, PLACES, 0, 0, 0}, false},
    [CALL_BACKLOG] = {"backlog", 0, {0, 0, 0, 0, 0}, false},
    [CALL_CELL] = {"cell", 3, {WORD, WORD, WORD, 0, 0}, false},
    [CALL_ADDRESS] = {"address", 5, {WORD, WORD, BANK, HALFWORD, HALFWORD}, false},
};

static enum call_kind kind_named(struct word name)
{
    enum call_kind kind = CALL_CONFIG;

    while (kind < NO_CALL && (strlen(forms[kind].name) != name.length ||
                              memcmp(forms[kind].name, name.text, name.length) != 0))
        kind++;
    return kind;
}

/* The argument that is next in the call. A line has no room for more than MOST_ARGUMENTS. */
static bool read_argument(struct word word, struct call *call)
{
    const struct form *form = &forms[call->kind];
    unsigned n = call->arguments;

    if (n >= form->arguments) {
        if (!form->further)
            return false;
        n = form->arguments - 1;
    }
    return read_number(word, form->largest[n], &call->argument[call->arguments++]);
}

/* False where the line is no call; *call is then of no use. */
static bool read_call(const struct script *s, struct call *call)
{
    struct word word;
    size_t at = 0;

    memset(call, 0, sizeof *call);
    if (s->length > LONGEST_LINE || !next_word(s, &at, &word))
        return false;
    call->kind = kind_named(word);
    if (call->kind == NO_CALL)
        return false;
    while (at < s->length) {
        at++; /* the space */
        if (!next_word(s, &at, &word) || !read_argument(word, call))
            return false;
    }
    return call->arguments >= forms[call->kind].arguments;
}

bool script_next(struct script *s, struct call *call)
{
    do {
        if (!next_line(s))
            return false;
    } while (passed_over(s));
    if (!read_call(s, call))
        call->kind = NO_CALL;
    return true;
}
