/* Boards whose ranks, supports and premises to blame were worked out by hand from documents 01 and 02, on both sides. */
#ifndef ROWTRIES_H
#define ROWTRIES_H

#include "steps.h"

bool row_tries_agree(Play *play);

#endif
