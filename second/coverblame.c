/* Counts of which symbol good blames took: where another choice among the symbols in conflict is another answer. */
#include <string.h>

#include "cover.h"

/* Cases, each of which has to come up. */
enum {
    NOT_LOWEST, LOWEST_MARKS_OTHERS, TIE, TIE_MARKS_OTHERS, SMALLER_MARKS_OTHERS, PLUS_IS_LATER, MINUS_IS_LATER, NOTHING_MARKED, NOTHING_THOUGH_HELD,
    CASES
};

static const char *const case_words[CASES] = {
    "a symbol not the lowest in conflict", "the lowest in conflict would mark others", "a tie of the larger rank",
    "the last one of a tie would mark others", "the least smaller rank would mark others", "+s later than -s", "-s later than +s",
    "nothing marked", "nothing marked, premises held"};

static unsigned long cases[CASES];

/* The last symbol in conflict whose larger rank is that of the symbol taken. */
static unsigned last_of_tie(const Board *board, const Findings *found, unsigned taken) {
    unsigned last = taken;
    for (unsigned s = taken + 1; s <= board->symbols; s++)
        if (larger_rank(found, s) == larger_rank(found, taken)) last = s;
    return last;
}

/* The smaller rank of a symbol's two literals. */
static unsigned smaller_rank(const Findings *found, unsigned symbol) {
    unsigned plus = found->rank[place_of((int)symbol)], minus = found->rank[place_of(-(int)symbol)];
    return plus < minus ? plus : minus;
}

/* The lowest symbol in conflict whose smaller rank is the least. */
static unsigned by_smaller_rank(const Board *board, const Findings *found) {
    unsigned least = first_conflict(board, found);
    for (unsigned s = least + 1; s <= board->symbols; s++)
        if (label_of(found, s) == 3 && smaller_rank(found, s) < smaller_rank(found, least)) least = s;
    return least;
}

/* True if blame would have marked other premises for another symbol. */
static bool marks_others(const Play *play, unsigned furnace, const Findings *found, unsigned other) {
    uint8_t marks[PLACES];
    mark_both(&play->board, furnace, play->ours.table + GUARD, found, other, marks);
    return memcmp(marks, play->ours.marks + GUARD, 2 * play->board.symbols) != 0;
}

/* Counts the cases of a good blame for a furnace that marked so many premises. */
void cover_blame(const Play *play, unsigned furnace, unsigned marks) {
    const Board *board = &play->board;
    Findings found = propagate(board, furnace, play->ours.table + GUARD);
    unsigned lowest = first_conflict(board, &found), taken = blamed_symbol(board, &found), last = last_of_tie(board, &found, taken);
    unsigned plus = found.rank[place_of((int)taken)], minus = found.rank[place_of(-(int)taken)];
    cases[NOT_LOWEST] += taken != lowest;
    cases[LOWEST_MARKS_OTHERS] += marks_others(play, furnace, &found, lowest);
    cases[TIE] += taken != last;
    cases[TIE_MARKS_OTHERS] += marks_others(play, furnace, &found, last);
    cases[SMALLER_MARKS_OTHERS] += marks_others(play, furnace, &found, by_smaller_rank(board, &found));
    cases[PLUS_IS_LATER] += plus > minus;
    cases[MINUS_IS_LATER] += minus > plus;
    cases[NOTHING_MARKED] += marks == 0;
    cases[NOTHING_THOUGH_HELD] += marks == 0 && held_before(play, furnace);
}

const Part blame_part = {.cases = {"blame done with", case_words, cases, CASES, 42}};
