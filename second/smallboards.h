/* All boards of few symbols, on both sides. */
#ifndef SMALLBOARDS_H
#define SMALLBOARDS_H

#include "steps.h"

bool small_boards_agree(Play *play);
void small_boards_close(void);

#endif
