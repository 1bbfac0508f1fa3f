/* Position variables and pair tables worked out by hand from document 02's Ticket 13, on both sides. */
#ifndef POSITIONTRIES_H
#define POSITIONTRIES_H

#include "steps.h"

/* positiontries.c: rows, and what they derive. */
bool position_tries_agree(Play *play);

/* valvetries.c: what is refused, and in which order, with nothing written. */
bool valve_tries_agree(Play *play);

#endif
