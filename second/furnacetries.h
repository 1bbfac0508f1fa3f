/* Boards of two furnaces, worked out by hand from document 02's Ticket 6, on both sides. */
#ifndef FURNACETRIES_H
#define FURNACETRIES_H

#include "steps.h"

bool furnace_tries_agree(Play *play);

#endif
