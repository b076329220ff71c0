/* The judge's answer in sentences for a person, each on a line after `# `. */
#ifndef EXPLAIN_H
#define EXPLAIN_H

#include "file.h"
#include "words.h"

void explain(Words words, const Tape *tape, uint64_t answer);

#endif
