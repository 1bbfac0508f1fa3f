/* The boards of the measure: each puts into `now` what the calls are given. */
#ifndef BOARDS_H
#define BOARDS_H

#include <stdbool.h>

#include "tupahineka.h"

#ifdef __cplusplus
extern "C" {
#endif

enum { NUMBERS = TUP_MOST_ROWS * TUP_ROW_WIDTH, FURNACE = 1 };

/* What there is to withdraw: see typical_conflicts. */
enum { ONE_CONFLICT, THREE_CONFLICTS, SIX_CONFLICTS, MANY_CORES, NO_CONFLICT, LASTING_CONFLICT, CONFLICTS };

/* What a call is given: a board, its table, its stacks, a literal to ask of, one to withdraw, which FURNACE holds on all boards with rows, a formula,
 * a text, and candidates to explain the literal by, or to withdraw. */
typedef struct setting {
    tup_board board;
    int16_t table[NUMBERS];
    tup_stacks stacks;
    int16_t literal, premise;
    const uint8_t *formula;
    size_t bytes;
    uint8_t text[TUP_MOST_TEXT];
    size_t text_bytes;
    int16_t candidates[TUP_MOST_CANDIDATES];
} setting;

extern setting now;

void full_board(bool for_rule);
void chain(unsigned symbols);
void long_rows(bool for_rule);
void typical(void);
void many_rows(unsigned rows);
void empty_board(void);
void stack_premises(void);
void deep_stack(void);
void in_conflict(void);
void parity_rule(void);
void as_text(void);
void text_of(unsigned rows);
void typical_sets(void);
void full_sets(void);
void no_sets(void);
void typical_conflicts(unsigned kind);
void full_conflicts(unsigned kind);

#ifdef __cplusplus
}
#endif
#endif
