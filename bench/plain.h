/* The measure's other side: all calls but those for formula text, the smallest sets and the least to withdraw, by hand in plain C, with the contract
 * of tupahineka.h. */
#ifndef PLAIN_H
#define PLAIN_H

#include <stdbool.h>

#include "tupahineka.h"

/* The place of a literal. */
static inline unsigned place(int literal) {
    return literal > 0 ? 2u * (unsigned)literal - 2 : 2u * (unsigned)-literal - 1;
}

/* The opposite of a literal that was tested: its negation. */
static inline int16_t opposite(int16_t literal) {
    return (int16_t)-literal;
}

/* Rows lent, and the test behind refusal 1; with that of the furnace; with those of settle's tables too; and that of a literal. */
size_t plain_rows_lent(size_t numbers);
bool plain_good(const tup_board *board, const int16_t *table, size_t numbers);
uint8_t plain_tests(const tup_board *board, const int16_t *table, size_t numbers, uint8_t furnace);
uint8_t plain_settle_tests(const tup_board *board, const int16_t *table, size_t numbers, uint8_t furnace, size_t labels, size_t ranks,
                           size_t supports);
bool plain_fits(int literal, const tup_board *board);

/* Writes the held bytes as 0 and 1, as a call that hands a board back. */
void plain_tidy(tup_board *board);

/* Writes the labels from the ranks. */
void plain_label_all(const tup_board *board, const uint16_t *ranks, uint8_t *labels);

/* Tests of both asks. */
uint8_t plain_ask_tests(const tup_board *board, const int16_t *table, size_t numbers, uint8_t furnace, int16_t literal);

/* True if the literal and its opposite are both derived. */
bool plain_clash(const uint16_t *ranks, int16_t literal);

/* How a literal stands by the ranks; clash says whether there is a conflict for it. */
tup_answer plain_standing(const uint16_t *ranks, int16_t literal, bool clash);

tup_change plain_open(uint16_t symbols, tup_stacks *stacks);
tup_addition plain_rule(tup_board board, int16_t *table, size_t numbers, const uint8_t *formula, size_t bytes);
tup_change plain_hold(tup_board board, const int16_t *table, size_t numbers, uint8_t furnace, int16_t literal);
tup_change plain_withdraw(tup_board board, const int16_t *table, size_t numbers, tup_stacks *stacks, uint8_t furnace, int16_t literal);
tup_change plain_push(tup_board board, const int16_t *table, size_t numbers, tup_stacks *stacks, uint8_t furnace, int16_t literal);
tup_change plain_pop(tup_board board, const int16_t *table, size_t numbers, tup_stacks *stacks, uint8_t furnace);
uint8_t plain_settle(tup_board board, const int16_t *table, size_t numbers, uint8_t furnace, uint8_t *labels, size_t label_count,
                     uint16_t *ranks, size_t rank_count, uint16_t *supports, size_t support_count);
tup_answer plain_ask(tup_board board, const int16_t *table, size_t numbers, uint8_t furnace, int16_t literal);
tup_answer plain_ask_whole(tup_board board, const int16_t *table, size_t numbers, uint8_t furnace, int16_t literal);
tup_reason plain_explain(tup_board board, const int16_t *table, size_t numbers, uint8_t furnace, int16_t literal);
uint8_t plain_ground(tup_board board, const int16_t *table, size_t numbers, uint8_t furnace, int16_t literal, uint8_t *marks,
                     size_t mark_count);
uint8_t plain_blame(tup_board board, const int16_t *table, size_t numbers, uint8_t furnace, uint8_t *marks, size_t mark_count);

tup_reading plain_read_dimacs(tup_board board, int16_t *table, size_t numbers, const uint8_t *text, size_t bytes);
tup_writing plain_write_dimacs(tup_board board, const int16_t *table, size_t numbers, uint8_t *text, size_t bytes);

/* Reading once more, in one pass, with up to 2,048 rows kept aside until the text is known to be good. */
tup_reading plain_read_dimacs_once(tup_board board, int16_t *table, size_t numbers, const uint8_t *text, size_t bytes);

#endif
