/* Grounds of literals and what is withdrawn, held or added beside them, worked out by hand from document 02's Ticket 9, on both sides. */
#ifndef OUTSIDETRIES_H
#define OUTSIDETRIES_H

#include "steps.h"

bool outside_tries_agree(Play *play);

#endif
