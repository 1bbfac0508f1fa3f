/* Steps of a sequence that list the smallest sets of candidates. */
#ifndef DRAWSETS_H
#define DRAWSETS_H

#include "draft.h"

void draw_smallest(Draft *draft, const Play *play, Step *step, bool many);

#endif
