/* Counts of the texts read and written, and the list of what has to come up among them. */
#include <stdio.h>

#include "cover.h"

/* Cases beyond the refusals, each of which has to come up. */
enum {
    NO_CLAUSES, NO_LAST_FEED, COMMENTS, EMPTY_LINES, LEADING_ZEROS, MORE_VARIABLES, FEWER_VARIABLES, REPEATED, TRUE_CLAUSE, TRUE_ON_FULL,
    CLAUSE_OF_8, ONTO_ROWS, WITH_PREMISES, ROWS_FILLED, FILLED_2048, ROWS_100, ROWS_1000, MORE_LENT, TORN_DONE, CUT_STANDING,
    FULL_BY_ITSELF, FULL_MORE_LENT, BEYOND_NOT_7, MANY_AND_TRUE, BEYOND_ON_FULL, MANY_ON_FULL, EMPTY_ON_FULL, FORM_NOT_FAULT, BOARD_NOT_FORM,
    BOARD_NOT_FAULT, WROTE_NO_ROW, WROTE_2048, WROTE_LONGEST, ROOM_JUST_ENOUGH, ROOM_MORE, ROOM_ONE_SHORT, ROOM_NONE, WRITER_BOARD_NOT_ROOM,
    CASES
};

static const char *const case_words[CASES] = {
    "read: no clause", "read: no line feed at the end", "read: comments", "read: an empty line in the body", "read: leading zeros",
    "read: the header has more than S", "read: the header has fewer than S", "read: a literal repeated", "read: a clause always true",
    "read: always true with no row free", "read: a clause of 8 symbols", "read: onto rows in use", "read: with premises held",
    "read: fills the rows lent", "read: fills row 2,047", "read: 100 rows or more", "read: 1,000 rows or more", "read: more than 2,048 rows lent",
    "read: damaged and good still", "text cut with the rest standing there", "9 by the rows of its own text", "9 at 2,048 rows with more lent",
    "2 where 7 is due as well", "7 and always true", "2 with no row free", "7 with no row free", "8 with no row free",
    "15 where a clause is at fault as well", "1 where 15 is due as well", "1 where a clause is at fault as well", "wrote: no row",
    "wrote: 2,048 rows", "wrote: the longest text", "wrote with no byte to spare", "wrote with bytes to spare", "13 with one byte missing",
    "13 with no byte lent", "1 where 13 is due as well"};

static const unsigned reader_gives[] = {0, 1, 2, 7, 8, 9, 15}, writer_gives[] = {0, 1, 13};
static const unsigned at_fault[] = {2, 7, 8, 9};

enum { READER = sizeof reader_gives / sizeof reader_gives[0], WRITER = sizeof writer_gives / sizeof writer_gives[0] };

static unsigned long reads[NUMBERS], torn_reads[NUMBERS], writes[NUMBERS], cases[CASES], trips, by_rules;
static unsigned long first_clause[NUMBERS], later_clause[NUMBERS];

/* True if the bytes have this pair somewhere. */
static bool has_pair(const uint8_t *text, size_t bytes, bool (*is)(uint8_t, uint8_t, uint8_t)) {
    for (size_t i = 1; i < bytes; i++)
        if (is(i < 2 ? ' ' : text[i - 2], text[i - 1], text[i])) return true;
    return false;
}

/* Two line feeds. */
static bool is_empty_line(uint8_t before, uint8_t first, uint8_t second) {
    (void)before;
    return first == '\n' && second == '\n';
}

/* A zero at a number's front and a digit after it. */
static bool is_leading_zero(uint8_t before, uint8_t first, uint8_t second) {
    return (before == ' ' || before == '\n' || before == '-') && first == '0' && second >= '0' && second <= '9';
}

/* Counts the sorts of clauses that were added. */
static void cover_clauses(const Step *step, const Form *form, unsigned symbols) {
    bool repeated = false, always = false, eight = false;
    size_t at = form->body;
    for (unsigned c = 0; c < form->clauses; c++) {
        Clause clause = next_clause(step->text, step->bytes, &at, symbols);
        size_t literals = 0;
        for (unsigned p = 0; p < 2 * symbols; p++) literals += clause.has[p];
        repeated |= clause.words > literals;
        always |= clause_always_true(&clause);
        eight |= !clause_always_true(&clause) && clause_symbols(&clause) == RULE_SYMBOLS;
    }
    cases[REPEATED] += repeated;
    cases[TRUE_CLAUSE] += always;
    cases[CLAUSE_OF_8] += eight;
}

/* Counts how a text that was read is spelt. */
static void cover_spelling(const Step *step, const Form *form, unsigned symbols) {
    const uint8_t *text = step->text;
    cases[NO_CLAUSES] += form->clauses == 0;
    cases[NO_LAST_FEED] += text[step->bytes - 1] != '\n';
    cases[COMMENTS] += text[0] == 'c';
    cases[EMPTY_LINES] += has_pair(text + form->body, step->bytes - form->body, is_empty_line);
    cases[LEADING_ZEROS] += has_pair(text + form->body, step->bytes - form->body, is_leading_zero);
    cases[MORE_VARIABLES] += form->variables > symbols;
    cases[FEWER_VARIABLES] += form->variables < symbols;
}

/* Counts a text that was read. */
static void cover_read_done(const Play *play, const Step *step) {
    Form form;
    unsigned rows = play->board.rows, added = play->last.added;
    if (!text_keeps_form(step->text, step->bytes, &form)) return;
    cover_spelling(step, &form, play->board.symbols);
    cover_clauses(step, &form, play->board.symbols);
    cases[TRUE_ON_FULL] += rows == rows_lent(step->numbers) && added == 0 && form.clauses > 0;
    cases[ONTO_ROWS] += rows > added && added > 0;
    cases[WITH_PREMISES] += added > 0 && (held_before(play, 1) || held_before(play, 2));
    cases[ROWS_FILLED] += added > 0 && rows == rows_lent(step->numbers);
    cases[FILLED_2048] += added > 0 && rows == MOST_ROWS;
    cases[ROWS_100] += added >= 100;
    cases[ROWS_1000] += added >= 1000;
    cases[MORE_LENT] += added > 0 && step->numbers > WIDTH * MOST_ROWS;
    cases[TORN_DONE] += step->torn;
}

/* Counts a clause at fault: which one, and what is due besides. */
static void cover_fault(const Play *play, const Step *step) {
    unsigned refusal = play->last.refusal, before = play->last.clauses;
    bool full = play->board.rows == rows_lent(step->numbers), last_rule = play->board.rules + before == MOST_RULES;
    Form form;
    Clause clause;
    if (!text_keeps_form(step->text, step->bytes, &form)) return;
    size_t at = form.body;
    for (unsigned c = 0; c <= before; c++) clause = next_clause(step->text, step->bytes, &at, play->board.symbols);
    (before == 0 ? first_clause : later_clause)[refusal]++;
    cases[FULL_BY_ITSELF] += refusal == 9 && !full && !last_rule;
    cases[FULL_MORE_LENT] += refusal == 9 && play->board.rows == MOST_ROWS && step->numbers >= WIDTH * (MOST_ROWS + 1);
    cases[BEYOND_NOT_7] += refusal == 2 && clause_symbols(&clause) > RULE_SYMBOLS;
    cases[MANY_AND_TRUE] += refusal == 7 && clause_always_true(&clause);
    cases[BEYOND_ON_FULL] += refusal == 2 && full;
    cases[MANY_ON_FULL] += refusal == 7 && full;
    cases[EMPTY_ON_FULL] += refusal == 8 && full;
}

/* Counts a reading. */
static void cover_read(const Play *play, const Step *step) {
    Form form;
    unsigned refusal = play->last.refusal;
    reads[refusal]++;
    torn_reads[refusal] += step->torn;
    cases[CUT_STANDING] += refusal == 15 && step->bytes < step->standing;
    cases[FORM_NOT_FAULT] += refusal == 15 && step->torn && step->faults > 1;
    cases[BOARD_NOT_FORM] += refusal == 1 && !text_keeps_form(step->text, step->bytes, &form);
    cases[BOARD_NOT_FAULT] += refusal == 1 && !step->torn && step->faults > 1;
    if (refusal == 0) cover_read_done(play, step);
    else if (refusal != 1 && refusal != 15) cover_fault(play, step);
}

/* Counts a writing. */
static void cover_write(const Play *play, const Step *step) {
    static char text[MOST_TEXT + 1];
    unsigned refusal = play->last.refusal;
    size_t written = play->last.written, room = step->lent[0];
    writes[refusal]++;
    cases[WROTE_NO_ROW] += refusal == 0 && play->board.rows == 0;
    cases[WROTE_2048] += refusal == 0 && play->board.rows == MOST_ROWS;
    cases[WROTE_LONGEST] += written == MOST_TEXT;
    cases[ROOM_JUST_ENOUGH] += refusal == 0 && room == written;
    cases[ROOM_MORE] += refusal == 0 && room > written;
    cases[ROOM_ONE_SHORT] += refusal == 13 && room + 1 == text_of_rows(&play->board, play->ours.table + GUARD, text);
    cases[ROOM_NONE] += refusal == 13 && room == 0;
    cases[WRITER_BOARD_NOT_ROOM] += refusal == 1 && step->faults > 1;
}

/* Counts a step that reads or writes a text. */
void cover_text(const Play *play, const Step *step) {
    if (step->kind == READ) cover_read(play, step);
    else cover_write(play, step);
}

/* Counts a board that was written and read back. */
void cover_trip(void) {
    trips++;
}

/* Counts a text that gave the rows which its clauses give one by one as rules. */
void cover_by_rules(void) {
    by_rules++;
}

/* All of them together. */
static unsigned long sum(const unsigned long counts[NUMBERS]) {
    unsigned long all = 0;
    for (unsigned n = 0; n < NUMBERS; n++) all += counts[n];
    return all;
}

/* Prints at which clause the faults were. */
static void print_ahead(void) {
    printf("\n%-24s%9s%9s\n", "a clause at fault", "first", "later");
    for (unsigned i = 0; i < 4; i++) printf("refusal %-16u%9lu%9lu\n", at_fault[i], first_clause[at_fault[i]], later_clause[at_fault[i]]);
}

/* Prints the closing lines of the texts. */
static void print_close(void) {
    printf("texts: %lu read, of them %lu damaged; done %lu", sum(reads), sum(torn_reads), reads[0]);
    for (unsigned i = 1; i < READER; i++) printf(", refused %u: %lu", reader_gives[i], reads[reader_gives[i]]);
    printf("\ntexts: %lu written; done %lu", sum(writes), writes[0]);
    for (unsigned i = 1; i < WRITER; i++) printf(", refused %u: %lu", writer_gives[i], writes[writer_gives[i]]);
    printf("; %lu read back to the same rows; %lu read to the rows of their clauses as rules\n", trips, by_rules);
}

/* True if all that can come up with texts did, but for the cases; says what did not. */
static bool is_whole(void) {
    bool whole = came_up(trips, "read back", "texts", 0);
    whole &= came_up(by_rules, "as rules", "texts", 0);
    for (unsigned i = 0; i < READER; i++) whole &= came_up(reads[reader_gives[i]], "refusal", "read", reader_gives[i]);
    for (unsigned i = 0; i < READER; i++) whole &= came_up(torn_reads[reader_gives[i]], "refusal of a damaged text", "read", reader_gives[i]);
    for (unsigned i = 0; i < WRITER; i++) whole &= came_up(writes[writer_gives[i]], "refusal", "write", writer_gives[i]);
    for (unsigned i = 0; i < 4; i++) whole &= came_up(first_clause[at_fault[i]], "the first clause at fault", "read", at_fault[i]);
    for (unsigned i = 0; i < 4; i++) whole &= came_up(later_clause[at_fault[i]], "a later clause at fault", "read", at_fault[i]);
    return whole;
}

const Part text_part = {.cases = {NULL, case_words, cases, CASES, 42}, .print_ahead = print_ahead, .print_close = print_close, .is_whole = is_whole};
