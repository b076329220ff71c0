/* The four register words: from arguments, what they say of the device, and what is wrong with them. */
#ifndef WORDS_H
#define WORDS_H

#include <stdbool.h>
#include <stdint.h>

typedef struct { uint32_t cfg, row, ref, tim; } Words;

/* What accepted words say. The distances are in slots. */
typedef struct {
    unsigned banks, rows, columns, cl;
    unsigned rfc, rp, rcd, wr, ras, rc, rrd;
} Device;

/* Takes a decimal number, or a hexadecimal one after 0x, of 32 bits; says whether the whole text is one. */
bool parse_word(const char *text, uint32_t *word);

Device device_of(Words words);

/* Prints what is wrong with words that got the number 1, 2 or 3, a sentence a line. */
void explain_words(unsigned number, Words words);

#endif
