/* Propagation in document 01's rounds, supports by their definition, labels, the symbol to blame, and the walk back to the premises. */
#include <string.h>

#include "model.h"

/* The place of a literal. */
unsigned place_of(int literal) {
    return literal > 0 ? 2 * ((unsigned)literal - 1) : 2 * ((unsigned)-literal - 1) + 1;
}

/* The literal at a place. */
int literal_at(unsigned place) {
    int symbol = (int)(place / 2) + 1;
    return place % 2 == 0 ? symbol : -symbol;
}

/* True if literal i of the row is given rank k: the opposite of each other literal has a rank below k. */
static bool gives(const int16_t *row, unsigned i, const Findings *found, unsigned k) {
    for (unsigned j = 0; j < ROW_LITERALS && row[j] != 0; j++)
        if (j != i && found->rank[place_of(-row[j])] >= k) return false;
    return true;
}

/* Rank 0 for the premises, none for the others. */
static void start(const bool premises[PLACES], Findings *found) {
    for (unsigned p = 0; p < PLACES; p++) {
        found->rank[p] = premises[p] ? 0 : NONE;
        found->support[p] = NONE;
    }
}

/* Finds the set of literals that round k adds, looking at ranks below k only; says whether it adds any. */
static bool find_round(const Board *board, const int16_t *table, const Findings *found, unsigned k, bool added[PLACES]) {
    bool any = false;
    memset(added, 0, PLACES);
    for (unsigned r = 0; r < board->rows; r++) {
        const int16_t *row = table + WIDTH * r;
        for (unsigned i = 0; i < ROW_LITERALS && row[i] != 0; i++) {
            unsigned p = place_of(row[i]);
            if (found->rank[p] == NONE && gives(row, i, found, k)) any = added[p] = true;
        }
    }
    return any;
}

/* Gives each derived literal that is not held the lowest-numbered row that gave it its rank. */
static void find_supports(const Board *board, const bool premises[PLACES], const int16_t *table, Findings *found) {
    for (unsigned r = 0; r < board->rows; r++) {
        const int16_t *row = table + WIDTH * r;
        for (unsigned i = 0; i < ROW_LITERALS && row[i] != 0; i++) {
            unsigned p = place_of(row[i]), k = found->rank[p];
            if (k == NONE || premises[p] || found->support[p] != NONE) continue;
            if (gives(row, i, found, k)) found->support[p] = r;
        }
    }
}

/* Rounds from a furnace's premises until one adds nothing; the board is good. */
Findings propagate(const Board *board, unsigned furnace, const int16_t *table) {
    const bool *premises = premises_of(board, furnace);
    Findings found;
    bool added[PLACES];
    start(premises, &found);
    for (unsigned k = 1; find_round(board, table, &found, k, added); k++)
        for (unsigned p = 0; p < PLACES; p++)
            if (added[p]) found.rank[p] = k;
    find_supports(board, premises, table, &found);
    return found;
}

/* A derived literal is one with a rank. */
bool derived(const Findings *found, unsigned place) {
    return found->rank[place] != NONE;
}

/* 0 neither literal derived, 1 only +s, 2 only -s, 3 both. */
unsigned label_of(const Findings *found, unsigned symbol) {
    unsigned plus = 2 * (symbol - 1);
    return (derived(found, plus) ? 1u : 0u) + (derived(found, plus + 1) ? 2u : 0u);
}

/* The lowest symbol with label 3, or 0 where there is no conflict among the findings, which are of one furnace's premises. */
unsigned first_conflict(const Board *board, const Findings *found) {
    for (unsigned s = 1; s <= board->symbols; s++)
        if (label_of(found, s) == 3) return s;
    return 0;
}

/* True if the furnace is in conflict; the board is good. */
bool has_conflict(const Board *board, unsigned furnace, const int16_t *table) {
    Findings found = propagate(board, furnace, table);
    return first_conflict(board, &found) != 0;
}

/* The larger rank of a symbol's two literals; NONE where one of them has no rank. */
unsigned larger_rank(const Findings *found, unsigned symbol) {
    unsigned plus = found->rank[place_of((int)symbol)], minus = found->rank[place_of(-(int)symbol)];
    return plus > minus ? plus : minus;
}

/* The symbol that blame takes, or 0 where there is no conflict among the findings: "among symbols with label 3, the one whose larger rank of its two
 * literals is smallest, and of equals the lowest symbol". */
unsigned blamed_symbol(const Board *board, const Findings *found) {
    unsigned taken = 0;
    for (unsigned s = 1; s <= board->symbols; s++) {
        if (label_of(found, s) != 3) continue;
        if (taken == 0 || larger_rank(found, s) < larger_rank(found, taken)) taken = s;
    }
    return taken;
}

/* Marks every derived literal met on the way back from a place along the supports; a held one is an end. */
void walk_back(const bool premises[PLACES], const int16_t *table, const Findings *found, unsigned place, bool seen[PLACES]) {
    if (seen[place]) return;
    seen[place] = true;
    if (premises[place]) return;
    const int16_t *row = table + WIDTH * found->support[place];
    for (unsigned i = 0; i < ROW_LITERALS && row[i] != 0; i++)
        if (place_of(row[i]) != place) walk_back(premises, table, found, place_of(-row[i]), seen);
}
