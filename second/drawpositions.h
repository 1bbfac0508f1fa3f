/* Steps of a sequence that enter position variables and pair tables, and networks of them to begin with. */
#ifndef DRAWPOSITIONS_H
#define DRAWPOSITIONS_H

#include "draft.h"

void draw_variables_given(Draft *draft, const Play *play, Step *step);
void add_last_rules(Draft *draft, const Play *play);
void add_network(Draft *draft);

#endif
