/* Damage to a board or its table, around one call. */
#ifndef DAMAGE_H
#define DAMAGE_H

#include "draft.h"

/* What is spoilt ahead of one call and put right after it. The first ones make the board bad: refusal 1. */
typedef enum Damage {
    NO_DAMAGE,
    SYMBOLS_0, SYMBOLS_201, SYMBOLS_65535, SYMBOLS_OTHER, ROWS_PAST_LENT, TABLE_TOO_SHORT, PREMISE_BEYOND, RULES_32768, RULES_65535, RULES_OTHER,
    RULES_TOO_FEW, ROW_EMPTY, ROW_ZERO_INSIDE, ROW_FALLING, ROW_REPEATED, ROW_LOWEST, ROW_BEYOND, RULE_0, RULE_NEGATIVE, RULE_PAST_COUNT,
    RULE_FALLING,
    BAD_BOARDS,
    SYMBOLS_FEWER = BAD_BOARDS, ROWS_FEWER, NUMBER_UNUSED, RULES_MORE, RULE_ANOTHER,
    DAMAGES
} Damage;

Damage draw_damage(Draft *draft, const Play *play);
void add_damage(Draft *draft, const Play *play, Damage damage, Step *call, Step undo[2], unsigned *undone);
void add_odd_bytes(Draft *draft, const Play *play);

#endif
