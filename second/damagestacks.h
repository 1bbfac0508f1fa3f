/* Damage to the record of both stacks, around a few calls. */
#ifndef DAMAGESTACKS_H
#define DAMAGESTACKS_H

#include "draft.h"

/* What is spoilt in a furnace's stack. The first ones mostly make the record bad: refusal 1 for the calls that test it. The others leave it good. */
typedef enum StackDamage {
    NOT_SPOILT,
    COUNT_ONE_MORE, COUNT_2S, COUNT_PAST_2S, COUNT_400, COUNT_401, COUNT_65535, COUNT_OTHER, STACKED_0, STACKED_BEYOND, STACKED_LOWEST,
    STACKED_REPEATED, STACKED_NOT_HELD, STACKED_OTHERS, STACKED_OPPOSITE, PREMISE_GONE,
    BAD_STACKS,
    COUNT_0 = BAD_STACKS, COUNT_ONE_LESS, STACKED_SWAPPED, STACKED_ANOTHER, STACKED_MORE, JUNK_BEYOND,
    STACK_DAMAGES
} StackDamage;

enum { MOST_UNDONE = 3 };

/* A stack that was spoilt: whose, how, and what puts it right again: the steps, or a hold of this literal where it is not 0. */
typedef struct Spoilt {
    unsigned furnace;
    StackDamage damage;
    Step undo[MOST_UNDONE];
    unsigned undone;
    int by_hold;
} Spoilt;

bool spoil_stack(Draft *draft, const Play *play, Spoilt *spoilt);

#endif
