/*
 * Random numbers, the same on every machine: splitmix64. Two draws never stand where C leaves their order
 * open: a seed has to give the same script or tape with every compiler.
 */
#ifndef RANDOM_H
#define RANDOM_H

#include <stdbool.h>
#include <stdint.h>

uint64_t random_next(uint64_t *state);

/* One of 0 to below - 1. */
uint32_t random_below(uint64_t *state, uint32_t below);

bool random_once_in(uint64_t *state, uint32_t times);

#endif
