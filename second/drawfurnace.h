/* Drawing what tells two furnaces apart. */
#ifndef DRAWFURNACE_H
#define DRAWFURNACE_H

#include "draft.h"

void name_furnace(Draft *draft, Step *step, unsigned chance);
unsigned furnace_meant(const Step *step);
int draw_telling(Draft *draft, const Play *play, const Step *step, bool pass);
void add_hold(Draft *draft, int literal);
bool add_echo(Draft *draft);

#endif
