/* Counts of the least to withdraw, as it was told: how many candidates go, which other sets end the conflict, what the candidates and the conflicts
 * were, and where a conflict stays. */
#include <stdio.h>

#include "cover.h"

enum { SIZES = 7, HIGHEST_BIT = 1 << (MOST_CANDIDATES - 1), MANY_SYMBOLS = 5 };

/* Cases, each of which has to come up. Those up to ODD_BYTE are of calls that were done, the others of 18. */
enum {
    NONE_GIVEN, NO_CONFLICT, ONLY_THERE, ONLY_HERE, IN_BOTH, TIE, TIE_APART, SMALLER_NUMBER, LARGER_NEEDED, MORE_GIVEN, ALL_GO, MORE_HELD, OF_12,
    HIGHEST_GOES, OPPOSITES, OPPOSITE_GOES, BOTH_GO, DERIVED_TOO, DERIVED_GOES, MANY_BY_ONE, SEPARATE_1, SEPARATE_2, SEPARATE_3, FULL_TABLE,
    SYMBOL_200, ODD_BYTE, STAYS_NONE_GIVEN, STAYS_BY_ROWS, STAYS_BY_PREMISE, STAYS_FEWER, STAYS_OF_12,
    CASES
};

static const char *const case_words[CASES] = {
    "no candidates, no conflict", "candidates, and no conflict", "no conflict, but for the other furnace", "a conflict for this furnace alone",
    "conflicts for both furnaces", "another set of the same size ends it", "the same, with no candidate in common",
    "a smaller number ends it, larger in size", "a larger set ends it, each of it needed", "more candidates than needed",
    "all of 3 candidates or more go", "more held than the candidates", "12 candidates, in conflict", "the twelfth candidate goes",
    "a candidate and its opposite", "a candidate goes, its opposite stays", "a candidate and its opposite go",
    "a candidate that is derived as well", "one goes with what it is derived from", "5 symbols or more in conflict, one goes", "one conflict",
    "two separate conflicts", "three separate conflicts or more", "2,048 rows, in conflict", "200 or -200 goes", "one held by a byte beyond 1 goes",
    "18 and no candidates", "18 by the rows alone", "18 by a premise that is no candidate", "18, and some conflict would end",
    "18 of 12 candidates"};

static unsigned long cases[CASES], sizes[FURNACES][SIZES], struck, left, told_again;

/* True if withdrawing the set ends the conflict, and withdrawing all but one of it does not: less then does not either, since more held derive no
 * less. */
static bool is_needed(const Withdrawn *withdrawn, unsigned set) {
    if (withdrawn->conflict[set]) return false;
    for (unsigned i = 0; i < withdrawn->candidates; i++)
        if ((set >> i & 1) != 0 && !withdrawn->conflict[set & ~(1u << i)]) return false;
    return true;
}

/* Counts the other sets that end the conflict. */
static void cover_others(const Withdrawn *withdrawn, unsigned least) {
    bool tie = false, apart = false, smaller = false, larger = false;
    for (unsigned set = 0; set < 1u << withdrawn->candidates; set++) {
        if (set == least || withdrawn->conflict[set]) continue;
        bool same_size = set_size(set) == set_size(least);
        tie |= same_size;
        apart |= same_size && (set & least) == 0;
        smaller |= set < least;
        larger |= !same_size && is_needed(withdrawn, set);
    }
    cases[TIE] += tie;
    cases[TIE_APART] += apart;
    cases[SMALLER_NUMBER] += smaller;
    cases[LARGER_NEEDED] += larger;
}

/* Takes the premises out of the board that the conflict stands on which blame takes; false where there is no conflict, or it stands on none. */
static bool take_out(const Play *play, unsigned furnace, Board *board) {
    uint8_t marks[PLACES] = {0};
    bool any = false;
    Findings found = propagate(board, furnace, play->ours.table + GUARD);
    unsigned symbol = blamed_symbol(board, &found);
    if (symbol != 0) mark_both(board, furnace, play->ours.table + GUARD, &found, symbol, marks);
    for (unsigned p = 0; p < PLACES; p++) {
        if (marks[p] == 0) continue;
        any = true;
        board->held[furnace - 1][p] = false;
    }
    return any;
}

/* How many separate conflicts there are: that stand on premises, and no two of them on the same one. */
static unsigned count_separate(const Play *play, unsigned furnace, Board board) {
    unsigned count = 0;
    while (take_out(play, furnace, &board)) count++;
    return count;
}

/* The board with a set of the step's candidates withdrawn. */
static Board without_set(const Play *play, const Step *step, unsigned set) {
    return board_without(&play->board, step->furnace, step->candidates, (unsigned)step->bytes, set);
}

/* True if a candidate is derived still where it alone is withdrawn. */
static bool is_derived_still(const Play *play, const Step *step, unsigned candidate) {
    Board board = without_set(play, step, 1u << candidate);
    Findings found = propagate(&board, step->furnace, play->ours.table + GUARD);
    return derived(&found, place_of(step->candidates[candidate]));
}

/* Counts candidates beside their opposites, and those that are derived as well. */
static void cover_kinship(const Play *play, const Step *step, unsigned least) {
    bool opposites = false, one_goes = false, both_go = false, derived_too = false, derived_goes = false;
    for (unsigned i = 0; i < step->bytes; i++) {
        bool derived_still = is_derived_still(play, step, i);
        derived_too |= derived_still;
        derived_goes |= derived_still && (least >> i & 1) != 0;
        for (unsigned j = 0; j < i; j++) {
            if (step->candidates[i] != -step->candidates[j]) continue;
            unsigned going = (least >> i & 1) + (least >> j & 1);
            opposites = true;
            one_goes |= going == 1;
            both_go |= going == 2;
        }
    }
    cases[OPPOSITES] += opposites;
    cases[OPPOSITE_GOES] += one_goes;
    cases[BOTH_GO] += both_go;
    cases[DERIVED_TOO] += derived_too;
    cases[DERIVED_GOES] += derived_goes;
}

/* Counts the conflicts that were there. */
static void cover_conflicts(const Play *play, const Step *step, unsigned least) {
    const int16_t *table = play->ours.table + GUARD;
    Findings found = propagate(&play->board, step->furnace, table);
    bool there = has_conflict(&play->board, 3 - step->furnace, table);
    unsigned symbols = 0, separate = count_separate(play, step->furnace, play->board);
    for (unsigned s = 1; s <= play->board.symbols; s++) symbols += label_of(&found, s) == 3;
    cases[ONLY_THERE] += there && symbols == 0;
    cases[ONLY_HERE] += !there && symbols > 0;
    cases[IN_BOTH] += there && symbols > 0;
    cases[MANY_BY_ONE] += symbols >= MANY_SYMBOLS && set_size(least) == 1;
    cases[SEPARATE_1] += separate == 1;
    cases[SEPARATE_2] += separate == 2;
    cases[SEPARATE_3] += separate > 2;
}

/* Counts how many candidates there were and how many of them go. */
static void cover_size(const Play *play, const Step *step, unsigned least) {
    unsigned size = set_size(least), count = (unsigned)step->bytes, held = 0;
    sizes[step->furnace - 1][size < SIZES ? size : SIZES - 1]++;
    for (unsigned p = 0; p < PLACES; p++) held += premises_of(&play->board, step->furnace)[p];
    if (least == 0) cases[count == 0 ? NONE_GIVEN : NO_CONFLICT]++;
    if (least == 0) return;
    cases[MORE_GIVEN] += size < count;
    cases[ALL_GO] += size == count && count >= 3;
    cases[MORE_HELD] += held > count;
    cases[OF_12] += count == MOST_CANDIDATES;
    cases[HIGHEST_GOES] += (least & HIGHEST_BIT) != 0;
    cases[FULL_TABLE] += play->board.rows == MOST_ROWS;
}

/* Counts what the candidates that go are like. */
static void cover_going(const Play *play, const Step *step, unsigned least) {
    bool last = false, odd = false;
    for (unsigned i = 0; i < step->bytes; i++) {
        int literal = step->candidates[i];
        if ((least >> i & 1) == 0) continue;
        last |= literal == MOST_SYMBOLS || literal == -MOST_SYMBOLS;
        odd |= play->given.held[step->furnace - 1][place_of(literal)] > 1;
    }
    cases[SYMBOL_200] += last;
    cases[ODD_BYTE] += odd;
}

/* Counts a refusal 18. */
static void cover_18(const Play *play, const Step *step) {
    Board rows = {.symbols = play->board.symbols, .rows = play->board.rows};
    bool by_rows = has_conflict(&rows, step->furnace, play->ours.table + GUARD);
    unsigned before = count_separate(play, step->furnace, play->board);
    unsigned after = count_separate(play, step->furnace, without_set(play, step, (1u << step->bytes) - 1));
    cases[STAYS_NONE_GIVEN] += step->bytes == 0;
    cases[by_rows ? STAYS_BY_ROWS : STAYS_BY_PREMISE]++;
    cases[STAYS_FEWER] += after < before;
    cases[STAYS_OF_12] += step->bytes == MOST_CANDIDATES;
}

/* Counts the least to withdraw that was told, or that a conflict stays. */
void cover_least(const Play *play, const Step *step) {
    unsigned least = play->last.set;
    struck += play->struck;
    left += play->left;
    told_again += play->told_again;
    if (play->last.refusal == 18) cover_18(play, step);
    if (play->last.refusal != 0) return;
    cover_size(play, step, least);
    cover_conflicts(play, step, least);
    if (least == 0) return;
    cover_others(last_withdrawn(), least);
    cover_kinship(play, step, least);
    cover_going(play, step, least);
}

/* Prints how many candidates go. */
static void print_after(void) {
    for (unsigned f = 0; f < FURNACES; f++) {
        printf("candidates that go for furnace %u, 0 to %u or more:", f + 1, SIZES - 1);
        for (unsigned s = 0; s < SIZES; s++) printf(" %lu", sizes[f][s]);
        printf("\n");
    }
}

/* Prints the closing line of the least to withdraw. */
static void print_close(void) {
    printf("least to withdraw: %lu candidates withdrawn by the library one by one, %lu left in place and in conflict still, told again %lu times in "
           "other ways\n", struck, left, told_again);
}

/* True if all that can come up where the least to withdraw is told did, but for the cases; says what did not. */
static bool is_whole(void) {
    bool whole = came_up(struck, "candidates withdrawn", "least to withdraw:", 0);
    whole &= came_up(left, "candidates left in place", "least to withdraw:", 0);
    whole &= came_up(told_again, "told again", "least to withdraw:", 0);
    for (unsigned s = 0; s < SIZES; s++) {
        whole &= came_up(sizes[0][s], "for furnace 1,", "candidates that go", s);
        whole &= came_up(sizes[1][s], "for furnace 2,", "candidates that go", s);
    }
    return whole;
}

const Part least_part = {
    .cases = {"least to withdraw told with", case_words, cases, CASES, 44},
    .print_after = print_after, .print_close = print_close, .is_whole = is_whole};
