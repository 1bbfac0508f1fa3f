/* Document 02's Ticket 14, "Try a reading and take it back": "a stack of premises for each furnace, both in one record lent and changed by each
 * step". The record is looked at as the numbers that the C interface lays it out in: for furnace 1, and then for furnace 2, a count and 400 places.
 * The places below the count are the stack, the bottom first; those from the count on say nothing and may have any numbers. */
#include "model.h"

/* The numbers of a furnace's stack: its count, then its places. */
static int16_t *numbers_of(int16_t *record, unsigned furnace) {
    return record + STACK_NUMBERS * (furnace - 1);
}

/* How many literals a furnace's stack says that it has: any number of 16 bits. */
unsigned stack_count(const int16_t *record, unsigned furnace) {
    return (uint16_t)record[STACK_NUMBERS * (furnace - 1)];
}

/* The number at a place of a furnace's stack, counted from the bottom, which is 0. */
int stacked_at(const int16_t *record, unsigned furnace, unsigned at) {
    return record[STACK_NUMBERS * (furnace - 1) + 1 + at];
}

/* True if the literal is on the furnace's stack, which is a good one. */
bool is_stacked(const int16_t *record, unsigned furnace, int literal) {
    for (unsigned i = 0; i < stack_count(record, furnace); i++)
        if (stacked_at(record, furnace, i) == literal) return true;
    return false;
}

/* True if the number at a place of the stack is one below it too. */
static bool is_repeated(const int16_t *record, unsigned furnace, unsigned at) {
    for (unsigned i = 0; i < at; i++)
        if (stacked_at(record, furnace, i) == stacked_at(record, furnace, at)) return true;
    return false;
}

/* False "when either stack has more than 2S literals, a repeated one or one its furnace doesn't hold": of this stack. What is no literal of symbols 1
 * to S is not held. */
bool stack_is_good(const Board *board, const int16_t *record, unsigned furnace) {
    unsigned count = stack_count(record, furnace);
    if (count > 2 * board->symbols) return false;
    for (unsigned i = 0; i < count; i++) {
        int number = stacked_at(record, furnace, i);
        if (!is_literal(number, board->symbols) || !premises_of(board, furnace)[place_of(number)]) return false;
        if (is_repeated(record, furnace, i)) return false;
    }
    return true;
}

/* The tests 1 and 16 of the calls that are lent the record, open aside: 1 of the board, and of both stacks, whichever furnace is named. */
unsigned stack_tests(const Board *board, const int16_t *table, size_t numbers, const int16_t *record, unsigned furnace) {
    if (!board_is_good(board, table, numbers)) return 1;
    if (!stack_is_good(board, record, 1) || !stack_is_good(board, record, 2)) return 1;
    return is_furnace(furnace) ? 0 : 16;
}

/* "push holds a literal and puts it on top"; refused "as hold". */
Outcome model_push(Board *board, const int16_t *table, size_t numbers, int16_t *record, unsigned furnace, int literal) {
    unsigned refusal = stack_tests(board, table, numbers, record, furnace);
    if (refusal != 0) return (Outcome){.refusal = refusal};
    Outcome held = model_hold(board, table, numbers, furnace, literal);
    if (held.refusal != 0) return held;
    int16_t *its = numbers_of(record, furnace);
    unsigned count = stack_count(record, furnace);
    its[1 + count] = (int16_t)literal;
    its[0] = (int16_t)(count + 1);
    return held;
}

/* "pop withdraws the top"; "20, after 16, for pop on an empty stack". By the C interface 0 is left where the literal was. */
Outcome model_pop(Board *board, const int16_t *table, size_t numbers, int16_t *record, unsigned furnace) {
    unsigned refusal = stack_tests(board, table, numbers, record, furnace);
    if (refusal != 0) return (Outcome){.refusal = refusal};
    unsigned count = stack_count(record, furnace);
    if (count == 0) return (Outcome){.refusal = 20};
    int16_t *its = numbers_of(record, furnace);
    board->held[furnace - 1][place_of(its[count])] = false;
    its[count] = 0;
    its[0] = (int16_t)(count - 1);
    return (Outcome){0};
}
