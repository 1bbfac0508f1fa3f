/* The least to withdraw on the measure's other sides: by hand in plain C over the indexed calls, with the contract of tupahineka.h. */
#ifndef LEAST_H
#define LEAST_H

#include "tupahineka.h"

/* By cores, as the library: the sets by size, then by number, and none tried that leaves all candidates of a conflict that was found. */
tup_withdrawal indexed_least(tup_board board, const int16_t *table, size_t numbers, uint8_t furnace, const int16_t *candidates,
                             size_t candidate_count);

/* Each in turn: the same order, and every set tried. */
tup_withdrawal indexed_least_in_turn(tup_board board, const int16_t *table, size_t numbers, uint8_t furnace, const int16_t *candidates,
                                     size_t candidate_count);

/* How many sets the last call withdrew and propagated, that of all candidates, tried ahead of the search, among them. */
unsigned least_propagated(void);

#endif
