/* Random register words, accepted and refused. */
#ifndef CONFIGS_H
#define CONFIGS_H

#include <stdbool.h>
#include <stdint.h>

#include "words.h"

enum { GEOMETRIES = 3 * 4 * 5 };

/* One of the geometries, by number. */
void set_geometry(struct words *w, uint32_t geometry);

/* Corners of TIM, any TIM, long row cycles. */
uint32_t draw_tim(uint64_t *random);

/* Accepted words of any geometry. RR is the least or a little more; seldom any, where a large one is allowed. */
struct words draw_words(uint64_t *random, bool large_rr);

/* Spoils the words in one of the ways that numbers 1, 2 and 3 know. */
void spoil_words(uint64_t *random, struct words *w);

struct cell draw_cell(uint64_t *random, struct geometry g);

#endif
