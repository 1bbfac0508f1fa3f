/* The least to withdraw as a C programmer would write it, in two ways; in both the sets go by size, then by number, and the first that ends the
 * conflict is the answer. Each in turn, what one would write at once: every set before it is propagated. By cores, the way of the library: a set that
 * leaves a conflict gives, by blame, the core of that conflict, the candidates that it stands on; a set with none of them would leave it too, and is
 * passed over. Each set tried is a call of its own that tests the board and its table anew, as the library's is, so that both sides do the same work.
 * The same tests, the same outputs, no proof. */
#include "least.h"

#include <stdbool.h>

#include "indexed.h"
#include "plain.h"
#include "sets.h"

enum { NONE = TUP_NONE, CORES = 256 };

/* What both ways search. */
typedef struct problem {
    const tup_board *board;
    const int16_t *table;
    size_t numbers;
    uint8_t furnace;
    const int16_t *candidates;
    size_t count;
} problem;

static unsigned propagated;

unsigned least_propagated(void) {
    return propagated;
}

/* The tests ahead of the search; 18 is its first step. */
static uint8_t tests(const problem *of) {
    uint8_t refusal = plain_tests(of->board, of->table, of->numbers, of->furnace);
    if (refusal == 0) refusal = candidate_tests(of->board, of->candidates, of->count);
    if (refusal != 0) return refusal;
    for (size_t i = 0; i < of->count; i++)
        if (of->board->held[of->furnace - 1][place(of->candidates[i])] == 0) return 11;
    return 0;
}

/* What one way tells: the refusal of the tests, 18 where the set of all candidates leaves a conflict, or what its search finds. */
static tup_withdrawal told(const problem *of, bool (*ends)(const problem *, unsigned), uint16_t (*search)(const problem *)) {
    uint8_t refusal = tests(of);
    propagated = 0;
    if (refusal == 0 && !ends(of, (1u << of->count) - 1)) refusal = 18;
    if (refusal != 0) return (tup_withdrawal){refusal, NONE};
    return (tup_withdrawal){0, search(of)};
}

/* The board with a set withdrawn. */
static tup_board without(const problem *of, unsigned set) {
    tup_board board = *of->board;
    for (unsigned i = 0; set >> i != 0; i++)
        if (set >> i & 1) board.held[of->furnace - 1][place(of->candidates[i])] = 0;
    propagated++;
    return board;
}

/* ---- By cores ---- */

/* The core of the conflict that withdrawing a set leaves, or NONE where there is no conflict left. */
static unsigned core_left(const problem *of, unsigned set) {
    uint8_t marks[TUP_PLACES];
    unsigned core = 0;
    if (indexed_blame(without(of, set), of->table, of->numbers, of->furnace, marks, sizeof marks) != 0) return NONE;
    for (unsigned i = 0; i < of->count; i++)
        if (marks[place(of->candidates[i])] != 0) core |= 1u << i;
    return core;
}

/* True if withdrawing a set leaves no conflict. */
static bool leaves_no_core(const problem *of, unsigned set) {
    return core_left(of, set) == NONE;
}

/* True if the set has no candidate of some core. */
static bool misses_one(const uint16_t *cores, unsigned count, unsigned set) {
    for (unsigned i = 0; i < count; i++)
        if ((cores[i] & set) == 0) return true;
    return false;
}

/* The least of sets of which that of all candidates ends the conflict. As in the library, the numbers from the first to the last of a size are gone
 * through, and those of other sizes passed over. */
static uint16_t search_by_cores(const problem *of) {
    uint16_t cores[CORES];
    unsigned found = 0, all = 1u << of->count;
    for (unsigned size = 0; size <= of->count; size++)
        for (unsigned set = (1u << size) - 1; set <= all - (all >> size); set++) {
            if (set_size(set) != size || misses_one(cores, found, set)) continue;
            unsigned core = core_left(of, set);
            if (core == NONE) return (uint16_t)set;
            if (found < CORES) cores[found++] = (uint16_t)core;
        }
    return NONE;
}

tup_withdrawal indexed_least(tup_board board, const int16_t *table, size_t numbers, uint8_t furnace, const int16_t *candidates,
                             size_t candidate_count) {
    return told(&(problem){&board, table, numbers, furnace, candidates, candidate_count}, leaves_no_core, search_by_cores);
}

/* ---- Each in turn ---- */

/* True if withdrawing a set ends the conflict. Of a whole board every literal tells that. */
static bool ends(const problem *of, unsigned set) {
    return indexed_ask_whole(without(of, set), of->table, of->numbers, of->furnace, 1).standing != TUP_CONFLICT;
}

/* The next set of as many candidates, at least one: the lowest run of bits carries one up, and the rest of it falls to the bottom. */
static unsigned next_of_size(unsigned set) {
    unsigned lowest = set & -set, carried = set + lowest;
    return carried | ((set ^ carried) / lowest >> 2);
}

/* The least of sets of which that of all candidates ends the conflict. */
static uint16_t search_in_turn(const problem *of) {
    if (ends(of, 0)) return 0;
    for (unsigned size = 1; size < of->count; size++)
        for (unsigned set = (1u << size) - 1; set < 1u << of->count; set = next_of_size(set))
            if (ends(of, set)) return (uint16_t)set;
    return (uint16_t)((1u << of->count) - 1);
}

tup_withdrawal indexed_least_in_turn(tup_board board, const int16_t *table, size_t numbers, uint8_t furnace, const int16_t *candidates,
                                     size_t candidate_count) {
    return told(&(problem){&board, table, numbers, furnace, candidates, candidate_count}, ends, search_in_turn);
}
