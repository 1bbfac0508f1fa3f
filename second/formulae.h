/* Random formulae: what one is written with, and the sorts there are. */
#ifndef FORMULAE_H
#define FORMULAE_H

#include "random.h"
#include "steps.h"

enum { INK = 4096 }; /* bytes of the longest formula drawn */

/* A formula being written, and the assignment that its literals lean to. */
typedef struct Ink {
    Random *random;
    const bool *leaning;
    unsigned symbols, lean;
    size_t length, given;
    uint8_t bytes[INK];
} Ink;

/* Sorts of formulae. */
enum { PLANT, TREE, SPINE, WIDE, PARITY, LITERALS, NEVER, ALWAYS, LONG, NOISE, PARITY_OF_8, ANY_TRUTH, WIDE_TRUTH, TOO_MANY, SORTS };

void write_formula(Ink *ink, unsigned sort);
void write_implication(Ink *ink, unsigned from, unsigned to);
void append_noise(Ink *ink);
void spoil_formula(Ink *ink);

#endif
