/* Document 02's Ticket 10, "The shift desk's smallest sets", by its definition: every set of candidates is weighed, held alone, and each one that
 * carries the literal is held against every smaller set inside it. No set is passed over because of what another one does. */
#include <string.h>

#include "model.h"

static Weighed weighed;

/* How many candidates a set has. */
unsigned set_size(unsigned set) {
    unsigned size = 0;
    for (; set != 0; set >>= 1) size += set & 1;
    return size;
}

/* What each set did when sets were weighed last, and how many were listed. */
const Weighed *last_weighed(void) {
    return &weighed;
}

/* The board with a set of candidates held alone, for furnace 1: "Premises held on the board don't count", neither furnace's. */
static Board holding(const Board *board, const int16_t *candidates, unsigned count, unsigned set) {
    Board alone = {.symbols = board->symbols, .rows = board->rows, .rules = board->rules};
    for (unsigned i = 0; i < count; i++)
        if (set >> i & 1) alone.held[0][place_of(candidates[i])] = true;
    return alone;
}

/* Weighs all sets: whether each derives the literal, and whether it is in conflict. */
static void weigh(const Board *board, const int16_t *table, const int16_t *candidates, unsigned count, int literal) {
    weighed.candidates = count;
    for (unsigned set = 0; set < 1u << count; set++) {
        Board alone = holding(board, candidates, count, set);
        Findings found = propagate(&alone, 1, table);
        weighed.derives[set] = derived(&found, place_of(literal));
        weighed.conflict[set] = first_conflict(&alone, &found) != 0;
    }
}

/* True if a set, "held alone under the table's rules, derives the literal without conflict, while no smaller set inside it derives the literal", in
 * conflict or not. One inside it has the smaller number. */
static bool is_listed(unsigned set) {
    if (!weighed.derives[set] || weighed.conflict[set]) return false;
    for (unsigned inside = 0; inside < set; inside++)
        if ((inside & set) == inside && weighed.derives[inside]) return false;
    return true;
}

/* Lists the smallest sets, "order by size, then by number, each once"; returns how many. The board, the literal and the candidates are good. */
unsigned list_smallest(const Board *board, const int16_t *table, const int16_t *candidates, unsigned count, int literal, uint16_t listed[ALL_SETS]) {
    unsigned length = 0;
    weigh(board, table, candidates, count, literal);
    for (unsigned size = 0; size <= count; size++)
        for (unsigned set = 0; set < 1u << count; set++)
            if (set_size(set) == size && is_listed(set)) listed[length++] = (uint16_t)set;
    weighed.listed = length;
    return length;
}

/* True if one of the candidates is given again. */
bool repeats(const int16_t *candidates, size_t count) {
    for (size_t i = 1; i < count; i++)
        for (size_t j = 0; j < i; j++)
            if (candidates[i] == candidates[j]) return true;
    return false;
}

/* The tests of candidates, here and in Ticket 12: "2 for any literal given, 17 for more than 12 candidates or a repeated one". */
unsigned candidate_tests(unsigned symbols, const int16_t *candidates, size_t count) {
    for (size_t i = 0; i < count; i++)
        if (!is_literal(candidates[i], symbols)) return 2;
    return count > MOST_CANDIDATES || repeats(candidates, count) ? 17 : 0;
}

/* Writes the list, "then 13 exactly when the list is longer than the table lent". */
Outcome model_smallest(const Board *board, const int16_t *table, size_t numbers, const int16_t *candidates, size_t count, int literal, uint16_t *sets,
                       size_t room) {
    uint16_t listed[ALL_SETS];
    if (!board_is_good(board, table, numbers)) return (Outcome){.refusal = 1};
    unsigned refusal = is_literal(literal, board->symbols) ? candidate_tests(board->symbols, candidates, count) : 2;
    if (refusal != 0) return (Outcome){.refusal = refusal};
    unsigned length = list_smallest(board, table, candidates, (unsigned)count, literal, listed);
    if (length > room) return (Outcome){.refusal = 13};
    memcpy(sets, listed, length * sizeof listed[0]);
    return (Outcome){.listed = length};
}
