/* Document 02's Ticket 12, "What is the least we must withdraw?", by its definition: every set of candidates is withdrawn from the premises of the
 * furnace, and what is left is propagated. No set is passed over because of what another one does. */
#include "model.h"

static Withdrawn withdrawn;

/* What each set did when sets were withdrawn last. */
const Withdrawn *last_withdrawn(void) {
    return &withdrawn;
}

/* The board with a set of candidates withdrawn from the furnace's premises, those that are held. "Nothing is changed": it is a copy. */
Board board_without(const Board *board, unsigned furnace, const int16_t *candidates, unsigned count, unsigned set) {
    Board left = *board;
    for (unsigned i = 0; i < count; i++)
        if (set >> i & 1) left.held[furnace - 1][place_of(candidates[i])] = false;
    return left;
}

/* Withdraws all sets, each by itself. */
static void withdraw_each(const Board *board, const int16_t *table, unsigned furnace, const int16_t *candidates, unsigned count) {
    withdrawn.candidates = count;
    for (unsigned set = 0; set < 1u << count; set++) {
        Board left = board_without(board, furnace, candidates, count, set);
        withdrawn.conflict[set] = has_conflict(&left, furnace, table);
    }
}

/* "Give the smallest set of them whose withdrawal ends the conflict; of equal size, the one with the smallest number in the spelling of Ticket 10;
 * the empty set if there is no conflict": that one has the size 0, and nothing is withdrawn with it. Some set does end it. */
static unsigned least_set(unsigned count) {
    for (unsigned size = 0; size <= count; size++)
        for (unsigned set = 0; set < 1u << count; set++)
            if (set_size(set) == size && !withdrawn.conflict[set]) return set;
    return NONE;
}

/* "Refusals: after 1, 16 and 2, 17 as in Ticket 10, 11 if one isn't held": by the furnace named, as Ticket 6 has it for every call with premises. */
static unsigned least_tests(const Board *board, const int16_t *table, size_t numbers, unsigned furnace, const int16_t *candidates, size_t count) {
    unsigned refusal = furnace_tests(board, table, numbers, furnace);
    if (refusal == 0) refusal = candidate_tests(board->symbols, candidates, count);
    for (size_t i = 0; i < count && refusal == 0; i++)
        if (!premises_of(board, furnace)[place_of(candidates[i])]) refusal = 11;
    return refusal;
}

/* Tells the least to withdraw, "and 18 exactly when withdrawing all of them leaves the conflict". Refused, there is no set: 65535, by the C
 * interface. */
Outcome model_least(const Board *board, const int16_t *table, size_t numbers, unsigned furnace, const int16_t *candidates, size_t count) {
    unsigned refusal = least_tests(board, table, numbers, furnace, candidates, count);
    if (refusal != 0) return (Outcome){.refusal = refusal, .set = NONE};
    withdraw_each(board, table, furnace, candidates, (unsigned)count);
    if (withdrawn.conflict[(1u << count) - 1]) return (Outcome){.refusal = 18, .set = NONE};
    return (Outcome){.set = least_set((unsigned)count)};
}
