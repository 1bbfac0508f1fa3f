/* Steps of a sequence that ask for the least to withdraw. */
#ifndef DRAWLEAST_H
#define DRAWLEAST_H

#include "draft.h"

void draw_least(Draft *draft, const Play *play, Step *step, bool many);

#endif
