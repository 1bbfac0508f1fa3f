/* Ticket 6's furnaces kept apart, by the library alone. */
#ifndef APART_H
#define APART_H

#include "steps.h"

bool furnaces_apart(Play *play, const Step *steps, size_t count, uint64_t seed);

#endif
