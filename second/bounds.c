/* What document 02's Ticket 7 says of every answer, tested on the library's own and without the model: "No rank can exceed 2S", and 14 is out of the
 * table of refusals. Of lists of smallest sets what Ticket 10 says of every one, in listing.c, and of the least to withdraw what Ticket 12 says, in
 * withdrawal.c. */
#include <stdio.h>

#include "steps.h"

enum { TAKEN_OUT = 14, LAST_REFUSAL = 21 };

/* True for 0 and the numbers of refusals; notes another one. */
bool number_is_known(Play *play, unsigned number) {
    if (number <= LAST_REFUSAL && number != TAKEN_OUT) return true;
    snprintf(play->difference, sizeof play->difference, "refusal: library %u, and no refusal has that number", number);
    return false;
}

/* True if each rank of a good settle is at most 2S, or 65535 for none; notes the first that is not. Where S itself is too large, only the places that
 * there are count. */
bool ranks_are_bounded(Play *play, const uint16_t *ranks, unsigned symbols) {
    unsigned most = 2 * symbols;
    for (unsigned p = 0; p < most && p < PLACES; p++) {
        if (ranks[p] <= most || ranks[p] == NONE) continue;
        snprintf(play->difference, sizeof play->difference, "ranks place %u: library %u, above 2S = %u and not %u", p, ranks[p], most, NONE);
        return false;
    }
    return true;
}

/* True if the rank of a good explain is from 1 to 2S; notes it where it is not. */
static bool reason_is_bounded(Play *play, unsigned rank, unsigned symbols) {
    if (rank >= 1 && rank <= 2 * symbols) return true;
    snprintf(play->difference, sizeof play->difference, "rank of the reason: library %u, not from 1 to 2S = %u", rank, 2 * symbols);
    return false;
}

/* True if a call that was done may be done with its candidates: at most 12, and none of them twice. */
bool candidates_are_bounded(Play *play, const Step *step) {
    bool refused = step->bytes > MOST_CANDIDATES || repeats(step->candidates, step->bytes);
    return same(play, "done with more than 12 candidates, or with a repeated one", NONE, refused, false);
}

/* True if nothing that the library told in a step is ruled out, on a board of so many symbols and with these tables written. */
bool answer_is_bounded(Play *play, const Step *step, const Outcome *told, unsigned symbols, const Tables *tables) {
    if (!number_is_known(play, told->refusal)) return false;
    if (step->kind == LEAST) return least_is_bounded(play, step, told);
    if (told->refusal != 0) return same(play, "sets listed by a refused call", NONE, told->listed, 0);
    if (step->kind == SMALLEST) return list_is_bounded(play, step, told->listed, tables->sets + GUARD);
    if (step->kind == SETTLE) return ranks_are_bounded(play, tables->ranks + GUARD, symbols);
    return step->kind != EXPLAIN || reason_is_bounded(play, told->rank, symbols);
}
