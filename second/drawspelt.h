/* Steps of a sequence that read and write formula text. */
#ifndef DRAWSPELT_H
#define DRAWSPELT_H

#include "draft.h"
#include "formulae.h"

bool spell_rule(Draft *draft, Step *step, const Ink *ink);
void draw_spelling(Draft *draft, Step *step, const Ink *ink);
void draw_room(Draft *draft, const Play *play, Step *step);

#endif
