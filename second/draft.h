/* A sequence being drawn. Every step in it carries its own numbers. */
#ifndef DRAFT_H
#define DRAFT_H

#include "random.h"
#include "steps.h"

enum { POOL = 262144, CANDIDATES_KEPT = CANDIDATES_LENDABLE + 4096 };

typedef struct Draft {
    Random random;
    unsigned style, symbols, lean, setup, calls;
    unsigned favoured;                   /* the furnace that is named more often */
    size_t usual;                        /* numbers of the clause table usually lent */
    bool leaning[MOST_SYMBOLS + 1];      /* an assignment that rules and premises lean to, so that boards stay out of conflict */
    Step steps[MOST_STEPS];
    size_t count;
    uint8_t pool[POOL];                  /* the bytes of its formulae and texts */
    size_t pooled;
    int16_t candidates[CANDIDATES_KEPT]; /* and the candidates of its lists */
    size_t kept;
} Draft;

Step *add_step(Draft *draft, Kind kind);
Step *add_own_row(Draft *draft);
const uint8_t *keep_bytes(Draft *draft, Step *step, const uint8_t *bytes, size_t length, size_t given);
const int16_t *keep_candidates(Draft *draft, Step *step, const int16_t *candidates, size_t length, size_t given);

#endif
