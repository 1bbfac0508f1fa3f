/* Counts of what came up with the numbers of rules: the last rule that there can be and the one after it, rules without rows and with several, counts
 * and numbers that the caller wrote, and what was held against the book of rules or told once more with other numbers. */
#include <stdio.h>

#include "cover.h"
#include "damage.h"
#include "draw.h"

/* Cases, each of which has to come up. */
enum {
    LAST_WITH_ROWS, LAST_NO_ROWS, LAST_FROM_TEXT, LAST_OF_CLAUSES, NO_MORE_WITH_ROWS, NO_MORE_NO_ROWS, NO_MORE_FROM_TEXT, NO_MORE_FIRST_CLAUSE,
    NO_MORE_LATER_CLAUSE, NO_MORE_TRUE_CLAUSE, NO_MORE_NO_ROOM, LAST_7_NOT_9, LAST_8_NOT_9, LAST_2_NOT_9, LAST_15_NOT_9, CLAUSE_2_NOT_9,
    CLAUSE_7_NOT_9, CLAUSE_8_NOT_9, OPENED_OVER_RULES, NOT_OPENED_OVER_RULES, DONE_AT_LAST, MORE_COUNTED, ANOTHER_NUMBER, NOT_OF_ITS_ROW,
    NOT_ITS_FIRST_ROW, ABOVE_A_BYTE, RULE_32767, TRUE_BETWEEN, WROTE_OTHERS, BOOKED_GAP, BOOKED_SEVERAL, BOOKED_REASON,
    CASES
};

static const char *const case_words[CASES] = {
    "rule 32,767, with rows", "rule 32,767, no rows", "rule 32,767 from formula text", "rule 32,767, the last clause of a text",
    "9 by the count, with rows that fit", "9 by the count, no rows", "9 by the count, formula text", "9 by the count, first clause",
    "9 by the count, a later clause", "9 by the count, a clause always true", "9 by the count and no row free", "7 at 32,767 rules",
    "8 at 32,767 rules", "2 at 32,767 rules", "15 at 32,767 rules", "2 for the clause at 32,767 rules", "7 for the clause at 32,767 rules",
    "8 for the clause at 32,767 rules", "opened over rules", "open refused over rules", "done at 32,767 rules", "done with more rules counted",
    "done with another number in a row", "explain: not rule row + 1", "explain: not the first row of its rule", "explain: a rule above 255",
    "explain: rule 32,767", "read: always true between rows", "wrote: numbers not row + 1", "book: a rule without rows between",
    "book: a rule of several rows", "book: a rule explained"};

static unsigned long cases[CASES], booked, renumbered[CALLS];

/* Counts a rule that was accepted as the last there can be, or met that one; of a text each clause is one. */
static void cover_last_rule(const Play *play, const Step *step) {
    unsigned refusal = play->last.refusal, added = play->last.added, given = play->given.rules;
    bool from_text = step->kind == TEXT_RULE;
    if (refusal == 0 && play->board.rules == MOST_RULES) {
        cases[added > 0 ? LAST_WITH_ROWS : LAST_NO_ROWS]++;
        cases[LAST_FROM_TEXT] += from_text;
    }
    if (given != MOST_RULES) return;
    cases[LAST_2_NOT_9] += refusal == 2;
    cases[LAST_7_NOT_9] += refusal == 7;
    cases[LAST_8_NOT_9] += refusal == 8;
    cases[LAST_15_NOT_9] += refusal == 15;
    if (refusal != 9) return;
    size_t needed = rows_needed(step, play->board.symbols), room = rows_lent(step->numbers) - play->board.rows;
    cases[NO_MORE_NO_ROOM] += needed > room;
    if (needed > room) return;
    cases[needed > 0 ? NO_MORE_WITH_ROWS : NO_MORE_NO_ROWS]++;
    cases[NO_MORE_FROM_TEXT] += from_text;
}

/* The clause of a text of good form that is at fault. */
static Clause clause_at_fault(const Play *play, const Step *step) {
    Form form = {0};
    Clause clause = {0};
    text_keeps_form(step->text, step->bytes, &form);
    size_t at = form.body;
    for (unsigned c = 0; c <= play->last.clauses; c++) clause = next_clause(step->text, step->bytes, &at, play->board.symbols);
    return clause;
}

/* Counts a text that came to the last rule there can be. */
static void cover_last_clause(const Play *play, const Step *step) {
    unsigned refusal = play->last.refusal, before = play->last.clauses;
    bool at_fault = refusal == 2 || refusal == 7 || refusal == 8 || refusal == 9;
    cases[LAST_OF_CLAUSES] += refusal == 0 && before > 0 && play->board.rules == MOST_RULES;
    if (!at_fault || play->given.rules + before != MOST_RULES) return;
    cases[CLAUSE_2_NOT_9] += refusal == 2;
    cases[CLAUSE_7_NOT_9] += refusal == 7;
    cases[CLAUSE_8_NOT_9] += refusal == 8;
    if (refusal != 9 || play->board.rows + before >= rows_lent(step->numbers)) return;
    Clause clause = clause_at_fault(play, step);
    cases[before == 0 ? NO_MORE_FIRST_CLAUSE : NO_MORE_LATER_CLAUSE]++;
    cases[NO_MORE_TRUE_CLAUSE] += clause_always_true(&clause);
}

/* Counts the rule that a good explain told. */
static void cover_reason(const Play *play) {
    unsigned row = play->last.row, rule = play->last.rule;
    cases[NOT_OF_ITS_ROW] += rule != row + 1;
    cases[NOT_ITS_FIRST_ROW] += row > 0 && rule_number(play->ours.table + GUARD, row - 1) == (int)rule;
    cases[ABOVE_A_BYTE] += rule > 255;
    cases[RULE_32767] += rule == MOST_RULES;
    cases[BOOKED_REASON] += play->booked;
}

/* Rows in use that are from another rule than the row before them, and not from the next one; or from the same one. */
static unsigned steps_of(const Play *play, unsigned from, bool same_rule) {
    const int16_t *table = play->ours.table + GUARD;
    unsigned count = 0;
    for (unsigned r = from; r < play->board.rows; r++) {
        int more = r == 0 ? 1 : rule_number(table, r) - rule_number(table, r - 1);
        count += same_rule ? more == 0 : more > 1;
    }
    return count;
}

/* Counts what the rows in use of a call that was done are from. */
static void cover_rows_of_rules(const Play *play, const Step *step) {
    unsigned rows = play->board.rows;
    cases[DONE_AT_LAST] += play->given.rules == MOST_RULES;
    cases[MORE_COUNTED] += step->damage == RULES_MORE;
    cases[ANOTHER_NUMBER] += step->damage == RULE_ANOTHER;
    if (step->kind == EXPLAIN) cover_reason(play);
    if (step->kind == READ) cases[TRUE_BETWEEN] += steps_of(play, rows - play->last.added + 1, false) > 0;
    if (step->kind == WRITE) cases[WROTE_OTHERS] += rows > 0 && rule_number(play->ours.table + GUARD, rows - 1) != (int)rows;
    if (step->kind != SETTLE || !play->booked) return;
    cases[BOOKED_GAP] += steps_of(play, 0, false) > 0;
    cases[BOOKED_SEVERAL] += steps_of(play, 0, true) > 0;
}

/* Counts one call that was made. */
void cover_rules(const Play *play, const Step *step) {
    unsigned refusal = play->last.refusal;
    booked += play->booked;
    renumbered[step->kind] += play->renumbered;
    if (step->kind == OPEN) cases[refusal == 0 ? OPENED_OVER_RULES : NOT_OPENED_OVER_RULES] += play->given.rules > 0;
    if (step->kind == OPEN || refusal == 1) return;
    if (step->kind == RULE || step->kind == TEXT_RULE) cover_last_rule(play, step);
    if (step->kind == READ) cover_last_clause(play, step);
    if (refusal == 0) cover_rows_of_rules(play, step);
}

/* Prints the closing line of the rules. */
static void print_close(void) {
    unsigned long told = 0;
    for (unsigned k = 0; k < CALLS; k++) told += renumbered[k];
    printf("numbers of rules: %lu calls held against the book of rules, %lu told the same with other rule numbers\n", booked, told);
}

/* True if all that can come up with the numbers of rules did, but for the cases; says what did not. */
static bool is_whole(void) {
    bool whole = came_up(booked, "calls", "the book of rules:", 0);
    for (unsigned k = 0; k < CALLS; k++)
        if (can_renumber((Kind)k)) whole &= came_up(renumbered[k], kind_word((Kind)k), "other rule numbers:", 0);
    return whole;
}

const Part rules_part = {.cases = {NULL, case_words, cases, CASES, 42}, .print_close = print_close, .is_whole = is_whole};
