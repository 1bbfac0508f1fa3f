/* The board on which calls are given candidates by hand, and the ways in which it is made bad. */
#include "givenboard.h"

#include "tries.h"

enum { GIVEN_NUMBERS = 2 * WIDTH };

/* The ways in which the board is bad. */
enum { NO_SYMBOLS, TOO_MANY_SYMBOLS, TOO_MANY_RULES, PREMISE_OF_1, PREMISE_OF_2, TABLE_SHORT, ROW_SPOILT, BAD_WAYS };

/* Opens the board. */
bool given_open(Play *play) {
    play_start(play, 20, true);
    bool good = try_call(play, OPEN, 0, GIVEN_SYMBOLS, 0);
    try_row(play, (int16_t[ROW_LITERALS]){-1, 3});
    try_row(play, (int16_t[ROW_LITERALS]){-2, 3});
    return good;
}

/* Makes the board bad in a way; or good again. */
static void spoil(Play *play, unsigned way, bool bad) {
    if (way == NO_SYMBOLS) try_act(play, SET_SYMBOLS, 0, bad ? 0 : GIVEN_SYMBOLS);
    if (way == TOO_MANY_SYMBOLS) try_act(play, SET_SYMBOLS, 0, bad ? MOST_SYMBOLS + 1 : GIVEN_SYMBOLS);
    if (way == TOO_MANY_RULES) try_act(play, SET_RULES, 0, bad ? MOST_RULES + 1 : 2);
    if (way == ROW_SPOILT) try_act(play, SET_NUMBER, WIDTH, bad ? -GIVEN_SYMBOLS - 1 : -2);
    if (way != PREMISE_OF_1 && way != PREMISE_OF_2) return;
    play_step(play, &(Step){.kind = SET_HELD, .furnace = way == PREMISE_OF_1 ? 1 : 2, .place = 2 * GIVEN_SYMBOLS, .value = bad});
}

/* Makes the call with so many numbers of the clause table; false where the sides differ or the refusal is another. */
static bool refuses(Play *play, Step *step, size_t numbers, unsigned refusal) {
    step->numbers = numbers;
    return play_step(play, step) && play->last.refusal == refusal;
}

/* True if the call is refused so on the board, or done, with just its rows lent and, the last time, with all that can be; and with 1 while the board
 * is bad, in every way. */
bool given_refuses(Play *play, Step step, unsigned refusal) {
    bool good = refuses(play, &step, GIVEN_NUMBERS, refusal);
    for (unsigned way = 0; way < BAD_WAYS && good; way++) {
        spoil(play, way, true);
        good = refuses(play, &step, way == TABLE_SHORT ? GIVEN_NUMBERS - 1 : GIVEN_NUMBERS, 1);
        spoil(play, way, false);
    }
    return good && refuses(play, &step, TABLE_LENDABLE, refusal);
}
