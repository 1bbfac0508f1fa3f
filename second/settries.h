/* Lists of smallest sets worked out by hand from document 02's Ticket 10, on both sides. */
#ifndef SETTRIES_H
#define SETTRIES_H

#include "steps.h"

/* settries.c: the lists of boards made by hand, and the longest list. */
void turn_round(int16_t *candidates, unsigned count, uint16_t *sets, unsigned listed);
bool set_tries_agree(Play *play);

/* candidatetries.c: what is refused, and in which order; a great many candidates are refused for both calls that are given some. */
bool candidate_tries_agree(Play *play);

#endif
