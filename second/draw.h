/* Drawing random sequences, step after step. */
#ifndef DRAW_H
#define DRAW_H

#include "draft.h"

void draft_start(Draft *draft, uint64_t seed, uint64_t number);
bool draft_next(Draft *draft, const Play *play);
int draw_bad_literal(Random *random, unsigned symbols);
int draw_literal(Draft *draft, const Play *play);
size_t rows_needed(const Step *step, unsigned symbols);

#endif
