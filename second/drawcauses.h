/* Rows of the caller's by which a mark has many causes. */
#ifndef DRAWCAUSES_H
#define DRAWCAUSES_H

#include "draft.h"

void add_causes(Draft *draft, unsigned rows);

#endif
