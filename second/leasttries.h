/* The least to withdraw, worked out by hand from document 02's Ticket 12, on both sides. */
#ifndef LEASTTRIES_H
#define LEASTTRIES_H

#include "steps.h"

/* leasttries.c: on boards made by hand. */
bool least_tries_agree(Play *play);

/* heldtries.c: what is refused, and in which order. */
bool held_tries_agree(Play *play);

#endif
