/* Answers of both calls that ask, worked out by hand from document 02's Ticket 11, on both sides. */
#ifndef ASKTRIES_H
#define ASKTRIES_H

#include "steps.h"

bool ask_tries_agree(Play *play);

#endif
