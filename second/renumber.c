/* Ticket 8's number says which rule a row is from, and nothing else: tables that differ only in sound rule numbers give the same labels, ranks,
 * supports, grounds, marks of blame, answers, smallest sets, least to withdraw and texts. The library makes a call once more over other numbers and
 * another count of rules; of all that it tells only explain's rule may be another, the new number of the same row. The model has no part in it. */
#include <stdio.h>
#include <string.h>

#include "random.h"
#include "steps.h"

static Tables again;

/* True if the call tells what follows from the rows. */
bool can_renumber(Kind kind) {
    return kind >= SETTLE && kind <= WRITE;
}

/* Gives the rows other rule numbers, all of them sound: all the lowest, all the highest, each its own, or rising at random. Returns a count of rules
 * for them, just as many or more. */
static unsigned renumber(int16_t *table, unsigned rows, Random *random) {
    enum { LOWEST, HIGHEST, OWN, RISING, SORTS, MOST_FIRST = 300, MOST_MORE = 14 };
    unsigned sort = random_below(random, SORTS), number = sort == HIGHEST ? MOST_RULES : 1;
    if (sort == RISING) number = random_between(random, 1, MOST_FIRST);
    for (unsigned r = 0; r < rows; r++) {
        if (sort == OWN) number = r + 1;
        if (sort == RISING) number += random_below(random, MOST_MORE);
        table[WIDTH * r + RULE_PLACE] = (int16_t)number;
    }
    return random_chance(random, 50) ? number : random_between(random, number, MOST_RULES);
}

/* Says that the difference noted is one that other rule numbers make; false, so that the caller can return it. */
static bool by_numbers(Play *play) {
    char words[sizeof play->difference];
    snprintf(words, sizeof words, "other rule numbers (library: with them, model: the library without them): %.140s", play->difference);
    memcpy(play->difference, words, sizeof words);
    return false;
}

/* What is lent to the call once more: its rows and its candidates, and the noise that it was lent before where it writes. */
static void lend_again(const Play *play, const Step *step) {
    size_t from = offsetof(Tables, ranks), bytes = offsetof(Tables, formula) - from, rows = play->library_board.rows;
    random_fill(step->noise, (char *)&again + from, bytes);
    random_fill(step->noise, again.text, text_window(step));
    random_fill(step->noise, again.sets, sets_window(step) * sizeof again.sets[0]);
    memcpy(again.candidates, play->theirs.candidates, candidates_window(step) * sizeof again.candidates[0]);
    memcpy(again.table + GUARD, play->theirs.table + GUARD, rows * WIDTH * sizeof again.table[0]);
}

/* True if the call wrote the same both times. */
static bool wrote_the_same(const Play *play, const Step *step) {
    size_t from = offsetof(Tables, ranks), bytes = offsetof(Tables, formula) - from;
    return memcmp((char *)&again + from, (char *)&play->theirs + from, bytes) == 0 && memcmp(again.text, play->theirs.text, text_window(step)) == 0 &&
           memcmp(again.sets, play->theirs.sets, sets_window(step) * sizeof again.sets[0]) == 0;
}

/* True if the call that was done tells and writes the same with other rule numbers. */
bool numbers_change_nothing(Play *play, const Step *step) {
    unsigned rows = play->library_board.rows;
    tup_board board = play->library_board;
    Random random = random_for(step->noise, rows + 512 * (unsigned)(step->value + MOST_RULES));
    lend_again(play, step);
    board.rules = (uint16_t)renumber(again.table + GUARD, rows, &random);
    Outcome told = library_call(step, &board, &again), otherwise = told;
    otherwise.rule = play->library_last.rule;
    if (!same_outcome(play, &play->library_last, &otherwise)) return by_numbers(play);
    unsigned rule = step->kind == EXPLAIN ? (unsigned)rule_number(again.table + GUARD, told.row) : 0;
    if (!same(play, "rule of the reason (model: the row's new number)", told.row, told.rule, rule)) return by_numbers(play);
    if (wrote_the_same(play, step)) return true;
    snprintf(play->difference, sizeof play->difference, "what the call writes");
    return by_numbers(play);
}
