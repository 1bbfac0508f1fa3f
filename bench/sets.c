/* The smallest sets as a C programmer would write them over ask_whole: the sets by number, so that each set comes after those inside it; what was
 * found of each noted in a byte; and nothing asked about a set where a set of one candidate fewer ended the search. Each call tests the board and its
 * table anew, as the library's does, so that both sides do the same work. The same tests, the same outputs, no proof. */
#include "sets.h"

#include <stdbool.h>
#include <string.h>

#include "indexed.h"
#include "plain.h"

/* What is noted of a set: larger ones are still to be looked at; or not, as it or a set inside it is in conflict, or a set inside it is listed; or it
 * is listed. */
enum { GOES_ON, STOPS, LISTED };

static unsigned propagated;

unsigned sets_propagated(void) {
    return propagated;
}

uint8_t candidate_tests(const tup_board *board, const int16_t *candidates, size_t count) {
    for (size_t i = 0; i < count; i++)
        if (!plain_fits(candidates[i], board)) return 2;
    if (count > TUP_MOST_CANDIDATES) return 17;
    for (size_t i = 0; i < count; i++)
        for (size_t j = 0; j < i; j++)
            if (candidates[i] == candidates[j]) return 17;
    return 0;
}

/* The tests ahead of the search; 13 is known after it. */
static uint8_t tests(const tup_board *board, const int16_t *table, size_t numbers, const int16_t *candidates, size_t count, int16_t literal) {
    if (!plain_good(board, table, numbers)) return 1;
    if (!plain_fits(literal, board)) return 2;
    return candidate_tests(board, candidates, count);
}

/* True if the search stops at a set of one candidate fewer. */
static bool stops_fewer(const uint8_t *notes, unsigned set) {
    for (unsigned rest = set; rest != 0; rest &= rest - 1)
        if (notes[set - (rest & -rest)] != GOES_ON) return true;
    return false;
}

/* The note of a set whose candidates furnace 1 holds alone. */
static uint8_t ask_alone(tup_board board, const int16_t *table, size_t numbers, const int16_t *candidates, unsigned set, int16_t literal) {
    memset(board.held, 0, sizeof board.held);
    for (unsigned i = 0; set >> i != 0; i++)
        if (set >> i & 1) board.held[0][place(candidates[i])] = 1;
    propagated++;
    switch (indexed_ask_whole(board, table, numbers, 1, literal).standing) {
    case TUP_CONFLICT: return STOPS;
    case TUP_STANDS: return LISTED;
    default: return GOES_ON;
    }
}

/* Writes the listed of so many sets by size, then by number. */
static void write_listed(const uint8_t *notes, unsigned all, uint16_t *sets) {
    for (unsigned size = 0; size <= TUP_MOST_CANDIDATES; size++)
        for (unsigned set = 0; set < all; set++)
            if (notes[set] == LISTED && set_size(set) == size) *sets++ = (uint16_t)set;
}

tup_listing indexed_smallest(tup_board board, const int16_t *table, size_t numbers, const int16_t *candidates, size_t candidate_count,
                             int16_t literal, uint16_t *sets, size_t room) {
    uint8_t notes[TUP_MOST_SETS], refusal = tests(&board, table, numbers, candidates, candidate_count, literal);
    uint16_t count = 0;
    propagated = 0;
    if (refusal != 0) return (tup_listing){refusal, 0};
    unsigned all = 1u << candidate_count;
    for (unsigned set = 0; set < all; set++) {
        notes[set] = stops_fewer(notes, set) ? STOPS : ask_alone(board, table, numbers, candidates, set, literal);
        if (notes[set] == LISTED) count++;
    }
    if (count > room) return (tup_listing){13, 0};
    write_listed(notes, all, sets);
    return (tup_listing){0, count};
}
