/* The smallest sets on the measure's third side: the library's search by hand in plain C over the indexed ask_whole, with the contract of
 * tupahineka.h. */
#ifndef SETS_H
#define SETS_H

#include "tupahineka.h"

tup_listing indexed_smallest(tup_board board, const int16_t *table, size_t numbers, const int16_t *candidates, size_t candidate_count,
                             int16_t literal, uint16_t *sets, size_t room);

/* The tests of candidates on a board that was tested: 2 for any of them, then 17; 0 where there is nothing to refuse. */
uint8_t candidate_tests(const tup_board *board, const int16_t *candidates, size_t count);

/* How many candidates a set has. */
static inline unsigned set_size(unsigned set) {
    unsigned size = 0;
    for (; set != 0; set &= set - 1) size++;
    return size;
}

/* How many sets the last call held alone and asked about. */
unsigned sets_propagated(void);

#endif
