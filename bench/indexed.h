/* The measure's third side: settle, both asks, ground and blame by hand in plain C with an index of the rows by literal, with the contracts of
 * tupahineka.h. Blame is timed only as part of the least to withdraw (least.c). */
#ifndef INDEXED_H
#define INDEXED_H

#include "tupahineka.h"

uint8_t indexed_settle(tup_board board, const int16_t *table, size_t numbers, uint8_t furnace, uint8_t *labels, size_t label_count,
                       uint16_t *ranks, size_t rank_count, uint16_t *supports, size_t support_count);
tup_answer indexed_ask(tup_board board, const int16_t *table, size_t numbers, uint8_t furnace, int16_t literal);
tup_answer indexed_ask_whole(tup_board board, const int16_t *table, size_t numbers, uint8_t furnace, int16_t literal);
uint8_t indexed_ground(tup_board board, const int16_t *table, size_t numbers, uint8_t furnace, int16_t literal, uint8_t *marks,
                       size_t mark_count);
uint8_t indexed_blame(tup_board board, const int16_t *table, size_t numbers, uint8_t furnace, uint8_t *marks, size_t mark_count);

/* Settle once more, with the exclusive or of the places left kept beside the count of each row, so that a row with one literal left is not read. */
uint8_t indexed_settle_summing(tup_board board, const int16_t *table, size_t numbers, uint8_t furnace, uint8_t *labels, size_t label_count,
                               uint16_t *ranks, size_t rank_count, uint16_t *supports, size_t support_count);

#endif
