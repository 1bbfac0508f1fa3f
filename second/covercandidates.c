/* Counts of the candidates that the lists of smallest sets and the calls for the least to withdraw were given, and how these were refused for them:
 * by which candidate or literal, and which refusal came ahead of another one due as well. */
#include <stdio.h>

#include "cover.h"
#include "damage.h"

enum { FIRST_ONES = 5, BYTE = 256, SIXTEEN_BITS = 65536 };

enum { OF_SETS, OF_LEAST, CALLED };

/* Cases, each of which has to come up for both calls; those past the shared ones, of the literal to explain and the room, for lists alone. */
enum {
    BOARD_NOT_2, BOARD_NOT_17, NOT_TOO_MANY, NOT_REPEATED, BY_FIRST, BY_LAST, BY_LATER, BY_0, BY_LOWEST, BY_HIGHEST, BY_NEXT, BY_13, BY_TWO, BY_ENDS,
    BY_NEIGHBOURS, BY_BOTH, PAST_A_BYTE, PAST_16_BITS, NO_LITERAL_AFTER, REPEATED_AFTER,
    SHARED,
    BOARD_NOT_13 = SHARED, BAD_NOT_13, TOO_MANY_NOT_13, REPEATED_NOT_13, BY_LITERAL, BY_LITERAL_ALONE,
    CASES
};

static const char *const case_words[CASES] = {
    "1 where 2 is due as well", "1 where 17 is due as well", "2 where 17 is due, more than 12", "2 where 17 is due, one repeated",
    "2 for the first candidate only", "2 for the last candidate only", "2 past the twelfth candidate only", "2 for a candidate 0",
    "2 for a candidate -32768", "2 for a candidate 32767 or -32767", "2 for a candidate just beyond S", "17 for 13, all different",
    "17 for two, the same", "17 for the first given again as last", "17 for one given twice in a row", "17 for more than 12, one repeated",
    "17 for more than a byte can count", "17 for more than 16 bits can count", "done, no literal standing after them",
    "done, one of them standing after them", "1 where 13 is due as well", "2 where 13 is due as well", "17 for more than 12 where 13 is due",
    "17 for one repeated where 13 is due", "2 for the literal, candidates good", "2 for the literal, no candidates"};

static unsigned long cases[CALLED][CASES];

/* How many of the candidates are no literals, and where the first and the last of these are. */
typedef struct Bad {
    size_t count, first, last;
} Bad;

/* Looks for candidates that are no literals of symbols 1 to S. */
static Bad find_bad(const Step *step, unsigned symbols) {
    Bad bad = {0};
    for (size_t i = 0; i < step->bytes; i++) {
        if (is_literal(step->candidates[i], symbols)) continue;
        if (bad.count++ == 0) bad.first = i;
        bad.last = i;
    }
    return bad;
}

/* True if the list is longer than the room lent, by a few of the candidates alone: the first ones that are literals, each once. What is listed of
 * them is listed of all, since what is inside a set does not depend on the others. */
static bool is_short(const Play *play, const Step *step) {
    static uint16_t listed[ALL_SETS];
    int16_t few[FIRST_ONES + 1];
    unsigned count = 0;
    if (step->kind != SMALLEST || !is_literal(step->value, play->board.symbols)) return false;
    for (size_t i = 0; i < step->bytes && count < FIRST_ONES; i++) {
        few[count] = step->candidates[i];
        if (is_literal(few[count], play->board.symbols) && !repeats(few, count + 1)) count++;
    }
    return list_smallest(&play->board, play->ours.table + GUARD, few, count, step->value, listed) > step->lent[0];
}

/* True if the damage leaves S and the literals of the rows as they were. */
bool rows_are_left(unsigned damage) {
    return (damage >= PREMISE_BEYOND && damage <= RULES_TOO_FEW) || (damage >= RULE_0 && damage <= RULE_FALLING);
}

/* Counts what 1 comes ahead of; S itself is good. */
static void cover_board(const Play *play, const Step *step, unsigned long counts[CASES]) {
    bool good = gives_literals(step, play->board.symbols), many = step->bytes > MOST_CANDIDATES;
    counts[BOARD_NOT_2] += !good;
    counts[BOARD_NOT_17] += good && (many || repeats(step->candidates, step->bytes));
    counts[BOARD_NOT_13] += good && rows_are_left(step->damage) && is_short(play, step);
}

/* Counts by which candidate that is no literal a call was refused. */
static void cover_bad(const Play *play, const Step *step, const Bad *bad, unsigned long counts[CASES]) {
    int number = step->candidates[bad->first], beyond = (int)play->board.symbols + 1;
    counts[BY_FIRST] += bad->count == 1 && bad->first == 0 && step->bytes > 1;
    counts[BY_LAST] += bad->count == 1 && bad->last > 0 && bad->last + 1 == step->bytes;
    counts[BY_LATER] += bad->first >= MOST_CANDIDATES;
    counts[BY_0] += number == 0;
    counts[BY_LOWEST] += number == -32768;
    counts[BY_HIGHEST] += number == 32767 || number == -32767;
    counts[BY_NEXT] += number == beyond || number == -beyond;
    counts[BAD_NOT_13] += is_short(play, step);
}

/* Counts a refusal 2. */
static void cover_2(const Play *play, const Step *step, unsigned long counts[CASES]) {
    Bad bad = find_bad(step, play->board.symbols);
    bool literal = !gives_literal(step->kind) || is_literal(step->value, play->board.symbols), many = step->bytes > MOST_CANDIDATES;
    counts[NOT_TOO_MANY] += many;
    counts[NOT_REPEATED] += !many && repeats(step->candidates, step->bytes);
    if (literal) cover_bad(play, step, &bad, counts);
    else if (bad.count == 0) counts[step->bytes == 0 ? BY_LITERAL_ALONE : BY_LITERAL]++;
}

/* True if a candidate is the same as the one before it. */
static bool same_in_a_row(const Step *step) {
    for (size_t i = 1; i < step->bytes; i++)
        if (step->candidates[i] == step->candidates[i - 1]) return true;
    return false;
}

/* Counts a refusal 17. */
static void cover_17(const Play *play, const Step *step, unsigned long counts[CASES]) {
    size_t count = step->bytes;
    bool many = count > MOST_CANDIDATES, repeated = repeats(step->candidates, count);
    counts[BY_13] += count == MOST_CANDIDATES + 1 && !repeated;
    counts[BY_BOTH] += many && repeated;
    counts[PAST_A_BYTE] += count >= BYTE && count <= BYTE + MOST_CANDIDATES;
    counts[PAST_16_BITS] += count >= SIXTEEN_BITS && count <= SIXTEEN_BITS + MOST_CANDIDATES;
    counts[many ? TOO_MANY_NOT_13 : REPEATED_NOT_13] += is_short(play, step);
    if (many) return;
    counts[BY_TWO] += count == 2;
    counts[BY_ENDS] += count > 2 && step->candidates[0] == step->candidates[count - 1];
    counts[BY_NEIGHBOURS] += count > 2 && same_in_a_row(step);
}

/* Counts what stands after the candidates of a call that was done. */
static void cover_after(const Play *play, const Step *step, unsigned long counts[CASES]) {
    if (step->standing == step->bytes) return;
    int after = step->candidates[step->bytes];
    counts[NO_LITERAL_AFTER] += !is_literal(after, play->board.symbols);
    counts[REPEATED_AFTER] += step->bytes > 0 && after == step->candidates[0];
}

/* Counts what a call was given, and how it was refused for it. */
void cover_candidates(const Play *play, const Step *step) {
    unsigned symbols = play->board.symbols, refusal = play->last.refusal;
    unsigned long *counts = cases[step->kind == LEAST ? OF_LEAST : OF_SETS];
    if (refusal == 1 && symbols >= 1 && symbols <= MOST_SYMBOLS) cover_board(play, step, counts);
    if (refusal == 2) cover_2(play, step, counts);
    if (refusal == 17) cover_17(play, step, counts);
    if (refusal == 0) cover_after(play, step, counts);
}

/* Prints the counts; a dot where a case cannot come up. */
static void print_ahead(void) {
    printf("\n%-42s%9s %9s\n", "candidates given", kind_word(SMALLEST), kind_word(LEAST));
    for (unsigned c = 0; c < SHARED; c++) printf("%-42s%9lu %9lu\n", case_words[c], cases[OF_SETS][c], cases[OF_LEAST][c]);
    for (unsigned c = SHARED; c < CASES; c++) printf("%-42s%9lu %9s\n", case_words[c], cases[OF_SETS][c], ".");
}

/* True if all that can come up with candidates did; says what did not. */
static bool is_whole(void) {
    bool of_sets = cases_came_up(case_words, cases[OF_SETS], CASES, "candidates of smallest sets:");
    return cases_came_up(case_words, cases[OF_LEAST], SHARED, "candidates to withdraw:") && of_sets;
}

const Part candidates_part = {.print_ahead = print_ahead, .is_whole = is_whole};
