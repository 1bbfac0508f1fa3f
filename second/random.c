/* The generator is splitmix64. */
#include "random.h"

#include <string.h>

/* The next 64 bits. */
uint64_t random_next(Random *random) {
    uint64_t z = random->state += UINT64_C(0x9E3779B97F4A7C15);
    z = (z ^ z >> 30) * UINT64_C(0xBF58476D1CE4E5B9);
    z = (z ^ z >> 27) * UINT64_C(0x94D049BB133111EB);
    return z ^ z >> 31;
}

/* A number from 0 to limit - 1; the limit is not 0. */
unsigned random_below(Random *random, unsigned limit) {
    return (unsigned)((random_next(random) >> 32) * limit >> 32);
}

/* A number from low to high, both included. */
unsigned random_between(Random *random, unsigned low, unsigned high) {
    return low + random_below(random, high - low + 1);
}

/* True so many times in a hundred. */
bool random_chance(Random *random, unsigned percent) {
    return random_below(random, 100) < percent;
}

/* An index, each as often as its weight says. */
unsigned random_weighted(Random *random, const unsigned *weights, unsigned count) {
    unsigned sum = 0, index = 0;
    for (unsigned i = 0; i < count; i++) sum += weights[i];
    unsigned drawn = random_below(random, sum);
    while (drawn >= weights[index]) drawn -= weights[index++];
    return index;
}

/* Fills a stretch of memory with noise. */
void random_fill(uint64_t seed, void *bytes, size_t length) {
    Random random = {seed};
    unsigned char *at = bytes;
    for (; length >= 8; at += 8, length -= 8) {
        uint64_t noise = random_next(&random);
        memcpy(at, &noise, 8);
    }
    uint64_t noise = random_next(&random);
    memcpy(at, &noise, length);
}

/* A generator of its own for each sequence of a seed. */
Random random_for(uint64_t seed, uint64_t number) {
    Random random = {seed};
    random.state = random_next(&random) ^ (number + 1) * UINT64_C(0xD1342543DE82EF95);
    random_next(&random);
    return random;
}
