/* Counts of what was asked, by each of the two calls: how the literal stood beside a conflict or without one, what a refusal came ahead of, and the
 * literals that both calls were asked for beside settle. */
#include <stdio.h>

#include "cover.h"

enum { BY_SYMBOL, OF_WHOLE, ASKING };

/* Cases, each of which has to come up for both calls. Beside a conflict, which is one of other symbols, the two calls answer otherwise. The answers
 * that are not conflict stand in the order of their numbers. */
enum {
    OPEN_ALONE, STANDS_ALONE, RULED_OUT_ALONE, OPEN_BESIDE, STANDS_BESIDE, RULED_OUT_BESIDE, PLUS_BOTH, MINUS_BOTH, BOTH_HELD, ONE_HELD, NONE_HELD,
    STANDS_ON_BOTH, RULED_OUT_BY_BOTH, ONLY_HERE, ONLY_THERE, BOARD_NOT_16, BOARD_NOT_2, FURNACE_NOT_2, BOARD_NOT_EITHER,
    CASES
};

static const char *const case_words[CASES] = {
    "open, no conflict", "stands, no conflict", "ruled out, no conflict", "open beside a conflict", "stands beside a conflict",
    "ruled out beside a conflict", "+s itself in conflict", "-s itself in conflict", "in conflict, both held", "in conflict, one of the two held",
    "in conflict, neither held", "stands on a premise in conflict", "ruled out by a premise in conflict", "a conflict for this furnace alone",
    "a conflict for the other furnace alone", "1 where 16 is due as well", "1 where 2 is due as well", "16 where 2 is due as well",
    "1 where 16 and 2 are due as well"};

static unsigned long cases[ASKING][CASES], literals, hidden, boards, boards_in_conflict;

/* True if a derived literal stands on a premise that is in conflict itself. */
static bool on_conflict(const Play *play, const Step *step, const Findings *found, int literal) {
    const bool *premises = premises_of(&play->board, step->furnace);
    bool seen[PLACES] = {false};
    walk_back(premises, play->ours.table + GUARD, found, place_of(literal), seen);
    for (unsigned p = 0; p < 2 * play->board.symbols; p++)
        if (seen[p] && premises[p] && label_of(found, p / 2 + 1) == 3) return true;
    return false;
}

/* Counts an answer for a literal that is in conflict itself. */
static void cover_both(const Play *play, const Step *step, unsigned long counts[CASES]) {
    const bool *premises = premises_of(&play->board, step->furnace);
    unsigned held = premises[place_of(step->value)] + premises[place_of(-step->value)];
    counts[step->value > 0 ? PLUS_BOTH : MINUS_BOTH]++;
    counts[held == 2 ? BOTH_HELD : held == 1 ? ONE_HELD : NONE_HELD]++;
}

/* Counts an answer. */
static void cover_answer(const Play *play, const Step *step, unsigned long counts[CASES]) {
    const Board *board = &play->board;
    const int16_t *table = play->ours.table + GUARD;
    Findings found = propagate(board, step->furnace, table), others = propagate(board, 3 - step->furnace, table);
    bool stands = derived(&found, place_of(step->value)), ruled_out = derived(&found, place_of(-step->value));
    bool conflict = first_conflict(board, &found) != 0, for_other = first_conflict(board, &others) != 0;
    counts[ONLY_HERE] += conflict && !for_other;
    counts[ONLY_THERE] += for_other && !conflict;
    if (stands && ruled_out) {
        cover_both(play, step, counts);
        return;
    }
    counts[(conflict ? OPEN_BESIDE : OPEN_ALONE) + (stands ? STANDS : ruled_out ? RULED_OUT : IS_OPEN)]++;
    counts[STANDS_ON_BOTH] += stands && on_conflict(play, step, &found, step->value);
    counts[RULED_OUT_BY_BOTH] += ruled_out && on_conflict(play, step, &found, -step->value);
}

/* Counts what a refusal came ahead of; S is good, so that it can be told whether 2 is due. */
static void cover_order(const Play *play, const Step *step, unsigned long counts[CASES]) {
    bool bad_furnace = !is_furnace(step->furnace), bad_literal = !is_literal(step->value, play->board.symbols);
    if (play->last.refusal == 1) {
        counts[BOARD_NOT_16] += bad_furnace;
        counts[BOARD_NOT_2] += bad_literal;
        counts[BOARD_NOT_EITHER] += bad_furnace && bad_literal;
    }
    counts[FURNACE_NOT_2] += play->last.refusal == 16 && bad_literal;
}

/* Counts a call that asks or settles: what was asked, and what both calls were asked for beside it. */
void cover_answers(const Play *play, const Step *step) {
    unsigned symbols = play->board.symbols;
    unsigned long *counts = cases[step->kind == ASK_WHOLE ? OF_WHOLE : BY_SYMBOL];
    if (asks(step->kind) && play->last.refusal == 0) cover_answer(play, step, counts);
    if (asks(step->kind) && symbols >= 1 && symbols <= MOST_SYMBOLS) cover_order(play, step, counts);
    literals += play->asked;
    hidden += play->hidden;
    boards += play->asked > 0 && play->asked == 2 * symbols;
    boards_in_conflict += play->hidden > 0 && play->asked == 2 * symbols;
}

/* Prints the counts. */
static void print_ahead(void) {
    printf("\n%-42s%9s %9s\n", "asked", kind_word(ASK), kind_word(ASK_WHOLE));
    for (unsigned c = 0; c < CASES; c++) printf("%-42s%9lu %9lu\n", case_words[c], cases[BY_SYMBOL][c], cases[OF_WHOLE][c]);
}

/* Prints the closing line of the answers. */
static void print_close(void) {
    printf("ask by symbol: %lu literals asked by both calls beside settle, %lu of them hidden by a conflict from the second; %lu boards literal by "
           "literal, %lu of them with some hidden\n", literals, hidden, boards, boards_in_conflict);
}

/* True if all that can come up where both calls ask did; says what did not. */
static bool is_whole(void) {
    bool whole = came_up(hidden, "literals hidden by a conflict", "ask by symbol:", 0);
    whole &= came_up(boards_in_conflict, "boards literal by literal, some hidden", "ask by symbol:", 0);
    whole &= cases_came_up(case_words, cases[BY_SYMBOL], CASES, "ask:");
    return cases_came_up(case_words, cases[OF_WHOLE], CASES, "ask whole:") && whole;
}

const Part answers_part = {.print_ahead = print_ahead, .print_close = print_close, .is_whole = is_whole};
