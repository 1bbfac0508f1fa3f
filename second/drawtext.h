/* Steps of a sequence that read and write texts. */
#ifndef DRAWTEXT_H
#define DRAWTEXT_H

#include "draft.h"

size_t text_needed(const Play *play);
void draw_read(Draft *draft, const Play *play, Step *step);
void add_reading(Draft *draft, const Play *play, unsigned clauses);

#endif
