/* The board on which calls are given candidates by hand, good and bad: 7 symbols, where 1 or 2 implies 3. */
#ifndef GIVENBOARD_H
#define GIVENBOARD_H

#include "steps.h"

enum { GIVEN_SYMBOLS = 7, GIVEN = MOST_CANDIDATES + 2 }; /* its symbols, and the numbers given at most */

/* All literals of its symbols but the last one. */
#define ALL_BUT_7 1, -1, 2, -2, 3, -3, 4, -4, 5, -5, 6, -6

bool given_open(Play *play);
bool given_refuses(Play *play, Step step, unsigned refusal);

#endif
