/* Rows and premises by which furnaces are in conflict, in several ways at once. */
#ifndef DRAWCLASHES_H
#define DRAWCLASHES_H

#include "draft.h"

void add_clashes(Draft *draft, unsigned rows);

#endif
