/* Rules and the numbers that document 02's Ticket 8 gives them: what it says of each board here was worked out by hand, and is held against the model
 * and the library alike. */
#include "ruletries.h"

#include <string.h>

#include "longtext.h"
#include "tries.h"

enum { MOVES = 16, TRY_ROWS = 6 };

/* A call for furnace 1, or a count of rules that the caller writes; the refusal and the count after it. */
typedef struct Move {
    Kind kind;
    int value;        /* S, a literal or a count */
    const char *text; /* a rule as formula text, or DIMACS text */
    unsigned refusal;
    unsigned told;    /* by a reading the clauses before the fault or the end, by an explain the rule's number, by a ground how many are marked */
    unsigned rules;
} Move;

/* Moves until one that is all zeros, and at their end the rows in use, all nine numbers of each. */
typedef struct Try {
    const char *words;
    Move moves[MOVES];
    unsigned rows;
    int16_t row[TRY_ROWS][WIDTH];
} Try;

#define OPENS(symbols) {OPEN, symbols, NULL, 0, 0, 0}
#define ADDS(text, rules) {TEXT_RULE, 0, text, 0, 0, rules}
#define ADDS_NOT(text, refusal, rules) {TEXT_RULE, 0, text, refusal, 0, rules}
#define READS(text, clauses, rules) {READ, 0, text, 0, clauses, rules}
#define READS_NOT(text, refusal, clauses, rules) {READ, 0, text, refusal, clauses, rules}
#define HOLDS(literal, rules) {HOLD, literal, NULL, 0, 0, rules}
#define EXPLAINS(literal, rule, rules) {EXPLAIN, literal, NULL, 0, rule, rules}
#define COUNTS(rules) {SET_RULES, rules, NULL, 0, 0, rules}
#define FROM(rule, ...) {__VA_ARGS__, [RULE_PLACE] = rule}
#define NINE "1|2|3|4|5|6|7|8|9"

static const Try tries[] = {
    {"an always true rule between two others",
     {OPENS(3), ADDS("1>2", 1), ADDS("1|-1", 2), ADDS("2>3", 3), HOLDS(1, 3), EXPLAINS(2, 1, 3), EXPLAINS(3, 3, 3), {EXPLAIN, 1, NULL, 12, 0, 3}},
     2, {FROM(1, -1, 2), FROM(3, -2, 3)}},
    {"always true rules first and last",
     {OPENS(1), ADDS("1|-1", 1), ADDS("1=1", 2), ADDS("1", 3), ADDS("1>1", 4), EXPLAINS(1, 3, 4), {HOLD, 1, NULL, 0, 0, 4}, {HOLD, 1, NULL, 10, 0, 4},
      {WITHDRAW, 1, NULL, 0, 0, 4}, {WITHDRAW, 1, NULL, 11, 0, 4}},
     1, {FROM(3, 1)}},
    {"rules of several rows",
     {OPENS(3), ADDS("1=2", 1), ADDS("(1|2)&(-1|3)", 2), ADDS("-3", 3), EXPLAINS(-3, 3, 3), EXPLAINS(2, 2, 3), EXPLAINS(-1, 2, 3), EXPLAINS(1, 1, 3),
      EXPLAINS(-2, 1, 3), EXPLAINS(3, 2, 3)},
     6, {FROM(1, 1, -2), FROM(1, -1, 2), FROM(2, 1, 2), FROM(2, -1, 3), FROM(2, 2, 3), FROM(3, -3)}},
    {"rows alike from two rules", {OPENS(2), ADDS("2", 1), ADDS("1|2", 2), ADDS("2", 3), EXPLAINS(2, 1, 3)}, 3,
     {FROM(1, 2), FROM(2, 1, 2), FROM(3, 2)}},
    {"a row of eight literals, and its rule's number after them",
     {OPENS(9), ADDS("1|-1", 1), ADDS("1|2|3|4|5|6|7|8", 2), HOLDS(-1, 2), HOLDS(-2, 2), HOLDS(-3, 2), HOLDS(-4, 2), HOLDS(-5, 2), HOLDS(-6, 2),
      HOLDS(-7, 2), EXPLAINS(8, 2, 2), {EXPLAIN, 2, NULL, 12, 0, 2}, {EXPLAIN, 9, NULL, 12, 0, 2}},
     1, {FROM(2, 1, 2, 3, 4, 5, 6, 7, 8)}},
    {"a ground through a row of eight literals, and -9 held beside rule 9",
     {OPENS(9), COUNTS(8), ADDS("-1|-2|-3|-4|-5|-6|-7|8", 9), HOLDS(1, 9), HOLDS(2, 9), HOLDS(3, 9), HOLDS(4, 9), HOLDS(5, 9), HOLDS(6, 9),
      HOLDS(7, 9), HOLDS(-9, 9), EXPLAINS(8, 9, 9), {GROUND, 8, NULL, 0, 7, 9}, {GROUND, -9, NULL, 0, 1, 9}},
     1, {FROM(9, -1, -2, -3, -4, -5, -6, -7, 8)}},
    {"refused rules",
     {OPENS(9), ADDS_NOT("1&-1", 8, 0), ADDS("1>2", 1), ADDS_NOT(NINE, 7, 1), ADDS_NOT("1>", 15, 1), ADDS_NOT("10", 2, 1), ADDS("1|-1", 2),
      ADDS_NOT("1&-1", 8, 2), ADDS("2>3", 3)},
     2, {FROM(1, -1, 2), FROM(3, -2, 3)}},
    {"clauses of a text, some always true",
     {OPENS(3), READS("p cnf 3 5\n2 -2 0\n1 0\n3 1 -3 0\n-1 2 0\n3 -3 0\n", 5, 5), ADDS("3", 6), READS("p cnf 3 0\n", 0, 6),
      READS("p cnf 3 2\n1 -1 0\n1 2 0\n", 2, 8), EXPLAINS(1, 2, 8), EXPLAINS(2, 4, 8), EXPLAINS(3, 6, 8)},
     4, {FROM(2, 1), FROM(4, -1, 2), FROM(6, 3), FROM(8, 1, 2)}},
    {"texts refused",
     {OPENS(3), ADDS("1", 1), READS_NOT("p cnf 3 3\n1 0\n2 -2 0\n0\n", 8, 2, 1), READS_NOT("p cnf 3 2\n1 0\n2\n", 15, 0, 1),
      READS_NOT("p cnf 4 2\n1 -1 0\n4 0\n", 2, 1, 1), ADDS("2", 2)},
     2, {FROM(1, 1), FROM(2, 2)}},
    {"opened and opened again, done and refused",
     {OPENS(2), ADDS("1", 1), ADDS("1|-1", 2), OPENS(2), ADDS("2", 1), {OPEN, 201, NULL, 2, 0, 0}, ADDS_NOT("1", 1, 0), OPENS(2), ADDS("1|-1", 1),
      {OPEN, 65535, NULL, 2, 0, 0}, OPENS(2), ADDS("1", 1)},
     1, {FROM(1, 1)}},
    {"refused opens over a count of the caller's", {OPENS(2), COUNTS(32767), {OPEN, 201, NULL, 2, 0, 0}, COUNTS(40000), {OPEN, 201, NULL, 2, 0, 0}},
     0, {{0}}},
    {"the last rule, with rows",
     {OPENS(2), COUNTS(32766), ADDS("1>2", 32767), HOLDS(1, 32767), EXPLAINS(2, 32767, 32767), ADDS_NOT("2", 9, 32767), ADDS_NOT("1|-1", 9, 32767),
      ADDS_NOT("1&-1", 8, 32767), {ASK, 2, NULL, 0, 0, 32767}},
     1, {FROM(32767, -1, 2)}},
    {"the last rule, without rows",
     {OPENS(9), COUNTS(32766), ADDS("1|-1", 32767), ADDS_NOT("1|-1", 9, 32767), ADDS_NOT("2", 9, 32767), ADDS_NOT(NINE, 7, 32767),
      ADDS_NOT("1&-1", 8, 32767), ADDS_NOT("10", 2, 32767), ADDS_NOT("1>", 15, 32767), READS("p cnf 9 0\n", 0, 32767),
      READS_NOT("p cnf 9 1\n1 -1 0\n", 9, 0, 32767), READS_NOT("p cnf 9 1\n1 0\n", 9, 0, 32767), OPENS(9), ADDS("2", 1)},
     1, {FROM(1, 2)}},
    {"a text up to the last rule",
     {OPENS(3), COUNTS(32764), READS("p cnf 3 3\n1 0\n2 -2 0\n3 0\n", 3, 32767), EXPLAINS(1, 32765, 32767), EXPLAINS(3, 32767, 32767),
      READS_NOT("p cnf 3 1\n2 0\n", 9, 0, 32767)},
     2, {FROM(32765, 1), FROM(32767, 3)}},
    {"a text past the last rule",
     {OPENS(9), COUNTS(32764), READS_NOT("p cnf 9 5\n1 0\n2 -2 0\n3 0\n1 0\n2 0\n", 9, 3, 32764),
      READS_NOT("p cnf 9 4\n1 0\n2 0\n3 -3 0\n1 -1 0\n", 9, 3, 32764), READS_NOT("p cnf 9 5\n1 0\n2 0\n3 0\n1 0\n0\n", 9, 3, 32764),
      READS_NOT("p cnf 10 4\n1 0\n2 0\n3 0\n10 0\n", 2, 3, 32764), READS_NOT("p cnf 9 4\n1 0\n2 0\n3 0\n1 2 3 4 5 6 7 8 9 0\n", 7, 3, 32764),
      READS_NOT("p cnf 9 4\n1 0\n2 0\n3 0\n0\n", 8, 3, 32764), READS_NOT("p cnf 9 4\n1 0\n0\n3 0\n1 0\n", 8, 1, 32764),
      READS_NOT("p cnf 9 4\n1 0\n2 0\n3 0\n1\n", 15, 0, 32764), READS("p cnf 9 2\n1 0\n2 0\n", 2, 32766), ADDS("3", 32767)},
     3, {FROM(32765, 1), FROM(32766, 2), FROM(32767, 3)}},
};

/* Premises that the last call marked. */
static unsigned marked(const Play *play) {
    unsigned count = 0;
    for (unsigned p = 0; p < 2 * play->board.symbols; p++) count += play->ours.marks[GUARD + p];
    return count;
}

/* Plays a move; true if it came out as it was worked out. */
static bool move_agrees(Play *play, const Move *move) {
    Step step = try_step(move->kind, 1, move->value);
    step.text = (const uint8_t *)move->text;
    step.bytes = step.standing = move->text == NULL ? 0 : strlen(move->text);
    if (!play_step(play, &step) || play->board.rules != move->rules) return false;
    if (move->kind == SET_RULES) return true;
    if (play->last.refusal != move->refusal) return false;
    if (move->kind == GROUND) return marked(play) == move->told;
    return (move->kind != READ || play->last.clauses == move->told) && (move->kind != EXPLAIN || play->last.rule == move->told);
}

/* True if the moves of a try, and the rows at their end, come out as they were worked out. */
static bool try_agrees(Play *play, const Try *try) {
    play_start(play, 12, true);
    for (unsigned m = 0; m < MOVES && (try->moves[m].kind != OPEN || try->moves[m].value != 0); m++)
        if (!move_agrees(play, &try->moves[m])) return try_wrong(play, try->words, "call", m + 1);
    bool good = play->board.rows == try->rows;
    for (unsigned r = 0; r < try->rows; r++) good = good && try_has_row(play, r, try->row[r], (unsigned)try->row[r][RULE_PLACE]);
    return good || try_wrong(play, try->words, "rows", try->rows);
}

/* Plays a rule from formula text; false where the sides differ, or the refusal or the count after it is another. */
static bool add_rule(Play *play, const char *text, size_t numbers, unsigned refusal, unsigned rules) {
    Step step = {.kind = TEXT_RULE, .text = (const uint8_t *)text, .bytes = strlen(text), .standing = strlen(text), .numbers = numbers};
    return play_step(play, &step) && play->last.refusal == refusal && play->board.rules == rules;
}

/* Plays a reading of the long text; false where the sides differ, or the refusal, the clauses told or the count after it are others. */
static bool read_long(Play *play, size_t numbers, unsigned refusal, unsigned clauses, unsigned rules) {
    Step step = {.kind = READ, .text = long_text, .bytes = long_length, .standing = long_length, .numbers = numbers};
    return play_step(play, &step) && play->last.refusal == refusal && play->last.clauses == clauses && play->board.rules == rules;
}

/* 32,766 always true rules one by one, from bytes and from text by turns; then the last there can be, with a row; then one more. */
static bool all_rules_agree(Play *play) {
    static const uint8_t same_symbol[] = {0x15, 0x10, 1, 0x10, 1};
    Step by_bytes = {.kind = RULE, .formula = same_symbol, .bytes = sizeof same_symbol, .standing = sizeof same_symbol, .numbers = WIDTH};
    play_start(play, 13, true);
    bool good = try_call(play, OPEN, 0, 2, 0);
    for (unsigned n = 1; n < MOST_RULES && good; n++)
        good = n % 2 == 0 ? add_rule(play, "1|-1", WIDTH, 0, n) : play_step(play, &by_bytes) && play->last.refusal == 0 && play->board.rules == n;
    good = good && add_rule(play, "2", WIDTH, 0, MOST_RULES) && try_has_row(play, 0, (int16_t[ROW_LITERALS]){2}, MOST_RULES) &&
           try_call(play, EXPLAIN, 1, 2, 0) && play->last.rule == MOST_RULES && add_rule(play, "1=1", TABLE_LENDABLE, 9, MOST_RULES) &&
           add_rule(play, "2", TABLE_LENDABLE, 9, MOST_RULES) && add_rule(play, "1&-1", TABLE_LENDABLE, 8, MOST_RULES);
    return good || try_wrong(play, "32,767 rules one by one, and one more", "count", play->board.rules);
}

/* 32,766 clauses that are always true, and as the last rule there can be another one; then a text of 32,767, as many as a header counts: on a board
 * with a rule already, the last of them is one too many. */
static bool all_clauses_agree(Play *play) {
    play_start(play, 14, true);
    start_with("p cnf 2 32766\n"), add("1 -1 0\n", MOST_RULES - 1);
    bool good = try_call(play, OPEN, 0, 2, 0) && read_long(play, 0, 0, MOST_RULES - 1, MOST_RULES - 1) && add_rule(play, "1|-1", 0, 0, MOST_RULES) &&
                add_rule(play, "1|-1", 0, 9, MOST_RULES) && add_rule(play, "1", WIDTH, 9, MOST_RULES);
    start_with("p cnf 2 32767\n"), add("1 -1 0\n", MOST_RULES);
    good = good && try_call(play, OPEN, 0, 2, 0) && read_long(play, 0, 0, MOST_RULES, MOST_RULES) && add_rule(play, "1", WIDTH, 9, MOST_RULES) &&
           try_call(play, OPEN, 0, 2, 0) && add_rule(play, "1", WIDTH, 0, 1) && read_long(play, WIDTH, 9, MOST_RULES - 1, 1) &&
           add_rule(play, "2", 2 * WIDTH, 0, 2) && try_has_row(play, 1, (int16_t[ROW_LITERALS]){2}, 2);
    return good || try_wrong(play, "32,767 clauses, and a rule before them", "count", play->board.rules);
}

/* A board with a rule that has no rows, written as text and read back: the same literals, and rules 1 and 2. */
static bool reading_back_agrees(Play *play) {
    static const char rows[] = "p cnf 3 2\n-1 2 0\n-2 3 0\n";
    Step write = {.kind = WRITE, .numbers = TABLE_LENDABLE, .lent = {sizeof rows - 1}};
    play_start(play, 16, true);
    bool good = try_call(play, OPEN, 0, 3, 0) && add_rule(play, "1|-1", WIDTH, 0, 1) && add_rule(play, "1>2", WIDTH, 0, 2) &&
                add_rule(play, "1=1", WIDTH, 0, 3) && add_rule(play, "2>3", 2 * WIDTH, 0, 4) && play_step(play, &write) &&
                play->last.written == sizeof rows - 1 && memcmp(play->theirs.text + GUARD, rows, sizeof rows - 1) == 0;
    start_with(rows);
    good = good && try_call(play, OPEN, 0, 3, 0) && read_long(play, 2 * WIDTH, 0, 2, 2) && try_has_row(play, 0, (int16_t[ROW_LITERALS]){-1, 2}, 1) &&
           try_has_row(play, 1, (int16_t[ROW_LITERALS]){-2, 3}, 2);
    return good || try_wrong(play, "written and read back", "count", play->board.rules);
}

/* True if all rules are numbered as it was worked out. */
bool rule_tries_agree(Play *play) {
    bool good = true;
    for (size_t i = 0; i < sizeof tries / sizeof tries[0]; i++) good = good && try_agrees(play, &tries[i]);
    return good && reading_back_agrees(play) && all_clauses_agree(play) && all_rules_agree(play);
}
