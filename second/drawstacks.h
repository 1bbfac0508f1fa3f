/* Drawing literals that are on a stack. */
#ifndef DRAWSTACKS_H
#define DRAWSTACKS_H

#include "draft.h"

int draw_stacked(Draft *draft, const Play *play, const Step *step);

#endif
