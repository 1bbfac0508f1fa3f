/* Adding to a sequence that is being drawn. */
#include "draft.h"

#include <string.h>

/* Adds an empty step, for the favoured furnace where it names one. */
Step *add_step(Draft *draft, Kind kind) {
    Step *step = &draft->steps[draft->count < MOST_STEPS - 1 ? draft->count++ : draft->count];
    memset(step, 0, sizeof *step);
    step->kind = kind;
    step->furnace = draft->favoured;
    step->numbers = draft->usual;
    step->noise = random_next(&draft->random);
    return step;
}

/* Adds a row of the caller's, still without literals: mostly from a rule of its own, now and then from that of the row just before it, or past rules
 * that have no row. */
Step *add_own_row(Draft *draft) {
    bool after_row = draft->count > 0 && draft->steps[draft->count - 1].kind == APPEND_ROW;
    unsigned sort = random_below(&draft->random, 100), more = random_between(&draft->random, 2, 9);
    Step *step = add_step(draft, APPEND_ROW);
    step->rules = sort < 12 ? more : sort < 30 && after_row ? 0 : 1;
    return step;
}

/* Makes the step an ask, where there is no room for what it is given. */
static void ask_instead(Step *step) {
    step->kind = ASK;
    step->value = 1;
}

/* Puts bytes into the pool, so many of them given to the step. Where there is no room the step becomes an ask, and they are NULL. */
const uint8_t *keep_bytes(Draft *draft, Step *step, const uint8_t *bytes, size_t length, size_t given) {
    if (draft->pooled + length > POOL) return ask_instead(step), NULL;
    uint8_t *kept = draft->pool + draft->pooled;
    memcpy(kept, bytes, length);
    step->bytes = given;
    step->standing = length;
    draft->pooled += length;
    return kept;
}

/* Puts candidates where they stay, so many of them given to the step; without room as above. */
const int16_t *keep_candidates(Draft *draft, Step *step, const int16_t *candidates, size_t length, size_t given) {
    if (draft->kept + length > CANDIDATES_KEPT) return ask_instead(step), NULL;
    int16_t *kept = draft->candidates + draft->kept;
    memcpy(kept, candidates, length * sizeof kept[0]);
    step->bytes = given;
    step->standing = length;
    draft->kept += length;
    return kept;
}
