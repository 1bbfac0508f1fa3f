/* A small seeded generator: the same seed gives the same numbers on every machine. */
#ifndef RANDOM_H
#define RANDOM_H

#include <stdbool.h>
#include <stddef.h>
#include <stdint.h>

typedef struct Random {
    uint64_t state;
} Random;

uint64_t random_next(Random *random);
unsigned random_below(Random *random, unsigned limit);
unsigned random_between(Random *random, unsigned low, unsigned high);
bool random_chance(Random *random, unsigned percent);
unsigned random_weighted(Random *random, const unsigned *weights, unsigned count);
void random_fill(uint64_t seed, void *bytes, size_t length);
Random random_for(uint64_t seed, uint64_t number);

#endif
