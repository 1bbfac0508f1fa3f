/* Rows of the caller's that are hard to find by their literals. */
#ifndef DRAWROWS_H
#define DRAWROWS_H

#include "draft.h"

void add_knot(Draft *draft, unsigned rows);

#endif
