/* Counts of the position variables and pair tables that calls were given: what they were like where the call was done, by which of them it was
 * refused, and which refusal came ahead of another one due as well. */
#include <stdio.h>

#include "cover.h"

/* Cases, each of which has to come up: of variables entered, of tables entered, and of either refused. */
enum {
    FROM_SYMBOL_1, TO_LAST_SYMBOL, TO_SYMBOL_200, ROWS_JUST_FIT, LAST_RULE, ODD_BYTES,
    TABLE_RISING, TABLE_FALLING, NEXT_TO_EACH_OTHER, ALL_PAIRS, ONE_PAIR, IGNORED_BITS, HIGHEST_BIT, ROW_OF_8, ROW_OF_1_FIRST, ROW_OF_1_SECOND,
    NOT_SYMMETRIC, TABLE_JUST_FITS, TABLE_LAST_RULE, TABLE_ODD_BYTES,
    BY_FIRST_0, BY_FIRST_S_1, BY_FIRST_FAR, BY_LAST_S_1, BY_LAST_FAR, BY_LAST_TURNED, BY_SECOND_ONLY, BY_FIRST_ONLY,
    COUNT_0, COUNT_1, COUNT_8, COUNT_9, COUNT_OF_FIRST_ONLY, COUNT_OF_SECOND_ONLY, COUNT_0_AT_S, COUNT_1_AT_S,
    SHARE_ALL, SHARE_LAST_FIRST, SHARE_FIRST_LAST, SHARE_WITHIN, NO_PAIR, NO_PAIR_BUT_IGNORED,
    ROW_MISSING, ROWS_MISSING, SOME_ROWS_FIT, RULE_MISSING, RULES_MISSING, SOME_RULES_FIT, BOTH_MISSING,
    BOARD_NOT_2, BOARD_NOT_19, BOARD_NOT_8, LITERAL_NOT_19, LITERAL_NOT_8, LITERAL_NO_ROW, LITERAL_NO_RULE, POSITIONS_NOT_8, POSITIONS_NO_ROW,
    POSITIONS_NO_RULE, NO_PAIR_NO_ROW, NO_PAIR_NO_RULE,
    CASES
};

static const char *const case_words[CASES] = {
    "a variable from symbol 1", "a variable up to symbol S", "a variable up to symbol 200", "a variable's rows just fit",
    "a variable is rule 32,767", "a variable, held bytes beyond 1",
    "the first variable below the second", "the first variable above the second", "variables next to each other", "all pairs allowed",
    "one pair allowed", "ignored bits set", "the pair of both seventh positions", "a row of eight literals", "a first position without a partner",
    "a second position without a partner", "not the same with i and j exchanged", "a table's rows just fit", "a table's last is rule 32,767",
    "a table, held bytes beyond 1",
    "2 for first symbol 0", "2 for first symbol S + 1", "2 for first symbol 65535", "2 for last symbol S + 1", "2 for last symbol far beyond",
    "2 for a last symbol past 65535", "2 for the second variable only", "2 for the first variable only",
    "19 for count 0", "19 for count 1", "19 for count 8", "19 for count 9 or more", "19 for the first one's count only",
    "19 for the second one's count only", "19 for count 0 at symbol S", "19 for count 1 at symbol S",
    "19 for the same variable twice", "19, the last symbol is the other's first", "19, the first symbol is the other's last",
    "19 for one within the other", "8 for no bit at all", "8 though ignored bits are set",
    "9 with one row missing", "9 with several rows missing", "9 with room for some of the rows", "9 with one rule missing",
    "9 with several rules missing", "9 with some rules left", "9 by rows and rules",
    "1 where 2 is due as well", "1 where 19 is due as well", "1 where 8 is due as well", "2 where 19 is due as well", "2 where 8 is due as well",
    "2 with no row free", "2 at 32,767 rules", "19 where 8 is due as well", "19 with no row free", "19 at 32,767 rules", "8 with no row free",
    "8 at 32,767 rules"};

static unsigned long cases[CASES], entered[MOST_POSITIONS + 1], of_tables[2][MOST_POSITIONS + 1], rows_added[CALLS];

/* The variables that the call is given. */
static unsigned given(const Step *step) {
    return step->kind == PAIRS ? 2 : 1;
}

/* True if each of them has 2 to 7 positions. */
static bool counts_are_good(const Step *step) {
    return variable_has_positions(&step->variables[0]) && (step->kind != PAIRS || variable_has_positions(&step->variables[1]));
}

/* True if 19 is due, whatever is due ahead of it. */
static bool due_19(const Step *step) {
    return !counts_are_good(step) || (step->kind == PAIRS && variables_share(step->variables));
}

/* True if 8 is due, whatever is due ahead of it; for a bad count that means nothing. */
static bool due_8(const Step *step) {
    return step->kind == PAIRS && counts_are_good(step) && !allows_a_pair(step->variables, step->pairs);
}

/* Rows that variables with good counts need, and rules. */
static unsigned needed(const Step *step, bool rules) {
    unsigned count = step->variables[0].count;
    if (step->kind == PAIRS) return pair_clauses(step->variables);
    return rules ? 1 : count * (count - 1) / 2 + 1;
}

/* Counts a variable that was entered. */
static void cover_entered(const Play *play, const Step *step) {
    const Variable *its = &step->variables[0];
    unsigned last = its->first + its->count - 1;
    entered[its->count]++;
    cases[FROM_SYMBOL_1] += its->first == 1;
    cases[TO_LAST_SYMBOL] += last == play->board.symbols;
    cases[TO_SYMBOL_200] += last == MOST_SYMBOLS;
    cases[ROWS_JUST_FIT] += play->board.rows == rows_lent(step->numbers);
    cases[LAST_RULE] += play->board.rules == MOST_RULES;
    cases[ODD_BYTES] += odd_before(play, 1) || odd_before(play, 2);
}

/* Pairs that the table allows, all bits or only those of the variables' positions. */
static unsigned count_pairs(const Step *step, bool all) {
    unsigned count = 0;
    for (unsigned bit = 0; bit < 64; bit++) {
        bool inside = bit / 7 < step->variables[0].count && bit % 7 < step->variables[1].count;
        count += (all || inside) && (step->pairs >> bit & 1) != 0;
    }
    return count;
}

/* True if the table allows a pair, but not the one with i and j exchanged. */
static bool is_one_sided(const Step *step) {
    for (unsigned i = 0; i < step->variables[0].count; i++)
        for (unsigned j = 0; j < step->variables[1].count; j++)
            if (pair_is_allowed(step->pairs, i, j) != pair_is_allowed(step->pairs, j, i)) return true;
    return false;
}

/* Counts the rows of a table that was entered: of eight literals, and of one for either variable's positions. */
static void cover_pair_rows(const Play *play, const Step *step) {
    const int16_t *rows = play->ours.table + GUARD + WIDTH * (play->board.rows - play->last.added);
    bool of_8 = false, of_1[2] = {false};
    for (unsigned r = 0; r < play->last.added; r++) {
        of_8 |= rows[WIDTH * r + ROW_LITERALS - 1] != 0;
        of_1[r < step->variables[0].count ? 0 : 1] |= rows[WIDTH * r + 1] == 0;
    }
    cases[ROW_OF_8] += of_8;
    cases[ROW_OF_1_FIRST] += of_1[0];
    cases[ROW_OF_1_SECOND] += of_1[1];
}

/* Counts a pair table that was entered. */
static void cover_table(const Play *play, const Step *step) {
    const Variable *its = &step->variables[0], *others = &step->variables[1];
    unsigned pairs = count_pairs(step, false);
    of_tables[0][its->count]++;
    of_tables[1][others->count]++;
    cases[its->first < others->first ? TABLE_RISING : TABLE_FALLING]++;
    cases[NEXT_TO_EACH_OTHER] += its->first + its->count == others->first || others->first + others->count == its->first;
    cases[ALL_PAIRS] += pairs == its->count * others->count;
    cases[ONE_PAIR] += pairs == 1;
    cases[IGNORED_BITS] += count_pairs(step, true) > pairs;
    cases[HIGHEST_BIT] += its->count == 7 && others->count == 7 && pair_is_allowed(step->pairs, 6, 6);
    cases[NOT_SYMMETRIC] += is_one_sided(step);
    cases[TABLE_JUST_FITS] += play->board.rows == rows_lent(step->numbers);
    cases[TABLE_LAST_RULE] += play->board.rules == MOST_RULES;
    cases[TABLE_ODD_BYTES] += odd_before(play, 1) || odd_before(play, 2);
    cover_pair_rows(play, step);
}

/* Counts what 1 comes ahead of. */
static void cover_1(const Play *play, const Step *step) {
    unsigned symbols = play->board.symbols;
    bool bad = false;
    for (unsigned v = 0; v < given(step); v++) bad |= !variable_is_on_board(&step->variables[v], symbols);
    cases[BOARD_NOT_2] += bad && symbols >= 1 && symbols <= MOST_SYMBOLS;
    cases[BOARD_NOT_19] += due_19(step);
    cases[BOARD_NOT_8] += due_8(step);
}

/* Counts a refusal 2: for which symbols, of which variable, and what it comes ahead of. */
static void cover_2(const Play *play, const Step *step) {
    unsigned symbols = play->board.symbols, bad = 0;
    for (unsigned v = 0; v < given(step); v++) {
        const Variable *its = &step->variables[v];
        unsigned last = its->first + its->count - 1;
        bool first_is_good = its->first >= 1 && its->first <= symbols;
        if (variable_is_on_board(its, symbols)) continue;
        bad |= 1u << v;
        cases[BY_FIRST_0] += its->first == 0;
        cases[BY_FIRST_S_1] += its->first == symbols + 1;
        cases[BY_FIRST_FAR] += its->first == 65535;
        cases[BY_LAST_S_1] += first_is_good && last == symbols + 1;
        cases[BY_LAST_FAR] += first_is_good && last > MOST_SYMBOLS;
        cases[BY_LAST_TURNED] += first_is_good && last > 65535;
    }
    cases[BY_FIRST_ONLY] += given(step) == 2 && bad == 1;
    cases[BY_SECOND_ONLY] += bad == 2;
    cases[LITERAL_NOT_19] += due_19(step);
    cases[LITERAL_NOT_8] += due_8(step) && !due_19(step);
    cases[LITERAL_NO_ROW] += play->board.rows == rows_lent(step->numbers);
    cases[LITERAL_NO_RULE] += play->board.rules == MOST_RULES;
}

/* Counts a pair of variables with good counts that share a symbol. */
static void cover_shared(const Step *step) {
    const Variable *its = &step->variables[0], *others = &step->variables[1];
    unsigned last = its->first + its->count - 1, others_last = others->first + others->count - 1;
    cases[SHARE_ALL] += its->first == others->first && last == others_last;
    cases[SHARE_LAST_FIRST] += last == others->first;
    cases[SHARE_FIRST_LAST] += its->first == others_last;
    cases[SHARE_WITHIN] += (its->first < others->first && others_last < last) || (others->first < its->first && last < others_last);
}

/* Counts a refusal 19: for which counts, of which variable, or for which symbols of both, and what it comes ahead of. */
static void cover_19(const Play *play, const Step *step) {
    unsigned bad = 0;
    for (unsigned v = 0; v < given(step); v++) {
        const Variable *its = &step->variables[v];
        if (variable_has_positions(its)) continue;
        bad |= 1u << v;
        cases[its->count == 0 ? COUNT_0 : its->count == 1 ? COUNT_1 : its->count == 8 ? COUNT_8 : COUNT_9]++;
        cases[COUNT_0_AT_S] += its->count == 0 && its->first == play->board.symbols;
        cases[COUNT_1_AT_S] += its->count == 1 && its->first == play->board.symbols;
    }
    cases[COUNT_OF_FIRST_ONLY] += given(step) == 2 && bad == 1;
    cases[COUNT_OF_SECOND_ONLY] += bad == 2;
    if (bad == 0) cover_shared(step);
    cases[POSITIONS_NOT_8] += due_8(step);
    cases[POSITIONS_NO_ROW] += play->board.rows == rows_lent(step->numbers);
    cases[POSITIONS_NO_RULE] += play->board.rules == MOST_RULES;
}

/* Counts a refusal 8. */
static void cover_8(const Play *play, const Step *step) {
    cases[step->pairs == 0 ? NO_PAIR : NO_PAIR_BUT_IGNORED]++;
    cases[NO_PAIR_NO_ROW] += play->board.rows == rows_lent(step->numbers);
    cases[NO_PAIR_NO_RULE] += play->board.rules == MOST_RULES;
}

/* Counts a refusal 9: by rows, by rules or both, and whether there is room for some of them. */
static void cover_9(const Play *play, const Step *step) {
    size_t lent = rows_lent(step->numbers), rows = play->board.rows + needed(step, false);
    unsigned rules = play->board.rules + needed(step, true);
    bool by_rows = rows > lent, by_rules = rules > MOST_RULES;
    cases[BOTH_MISSING] += by_rows && by_rules;
    if (by_rows && !by_rules) {
        cases[rows == lent + 1 ? ROW_MISSING : ROWS_MISSING]++;
        cases[SOME_ROWS_FIT] += step->kind == PAIRS && play->board.rows < lent;
    }
    if (by_rules && !by_rows) {
        cases[rules == MOST_RULES + 1 ? RULE_MISSING : RULES_MISSING]++;
        cases[SOME_RULES_FIT] += play->board.rules < MOST_RULES;
    }
}

/* Counts a call that was given variables. */
void cover_positions(const Play *play, const Step *step) {
    rows_added[step->kind] += play->last.added;
    switch (play->last.refusal) {
    case 0:
        if (step->kind == POSITIONS) cover_entered(play, step);
        else cover_table(play, step);
        break;
    case 1: cover_1(play, step); break;
    case 2: cover_2(play, step); break;
    case 19: cover_19(play, step); break;
    case 8: cover_8(play, step); break;
    default: cover_9(play, step);
    }
}

/* Prints the positions. */
static void print_after(void) {
    printf("positions of variables, of tables' first and of tables' second ones, %u to %u:", LEAST_POSITIONS, MOST_POSITIONS);
    for (unsigned n = LEAST_POSITIONS; n <= MOST_POSITIONS; n++) printf(" %lu", entered[n]);
    for (unsigned i = 0; i < 2; i++) {
        printf(";");
        for (unsigned n = LEAST_POSITIONS; n <= MOST_POSITIONS; n++) printf(" %lu", of_tables[i][n]);
    }
    printf("\n");
}

/* Prints the closing line of the variables and tables. */
static void print_close(void) {
    unsigned long variables = 0, tables = 0;
    for (unsigned n = LEAST_POSITIONS; n <= MOST_POSITIONS; n++) variables += entered[n], tables += of_tables[0][n];
    printf("positions: %lu variables entered with %lu rows, %lu pair tables with %lu rows\n", variables, rows_added[POSITIONS], tables,
           rows_added[PAIRS]);
}

/* True if all that can come up with variables and tables did, but for the cases; says what did not. */
static bool is_whole(void) {
    bool whole = true;
    for (unsigned n = LEAST_POSITIONS; n <= MOST_POSITIONS; n++) {
        whole &= came_up(entered[n], "a variable of", "positions:", n);
        whole &= came_up(of_tables[0][n], "a table's first variable of", "positions:", n);
        whole &= came_up(of_tables[1][n], "a table's second variable of", "positions:", n);
    }
    return whole;
}

const Part positions_part = {
    .cases = {"position variables and pair tables with", case_words, cases, CASES, 44},
    .print_after = print_after, .print_close = print_close, .is_whole = is_whole};
