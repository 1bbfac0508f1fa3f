/* DIMACS text by document 02's Ticket 2 and document 01's "Text, where a ticket takes it": whether a text keeps the form, its clauses one by
 * one, counted as rules by Ticket 8, and the text of the rows in use. What can be read twice is read twice. */
#include <stdio.h>
#include <stdlib.h>
#include <string.h>

#include "model.h"

enum { LARGEST = 32767, NO_NUMBER = LARGEST + 1 };

/* "Spaces are the only blanks". */
static bool is_blank(uint8_t byte) {
    return byte == ' ';
}

/* Blanks and line ends, "line feeds the only line ends", set words apart. */
static bool is_gap(uint8_t byte) {
    return is_blank(byte) || byte == '\n';
}

/* What words are made of. */
static bool is_no_gap(uint8_t byte) {
    return !is_gap(byte);
}

/* Digits, and no other byte. */
static bool is_digit(uint8_t byte) {
    return byte >= '0' && byte <= '9';
}

/* The first place from `at` on whose byte is not of the sort, or the end. */
static size_t past(const uint8_t *text, size_t bytes, size_t at, bool (*of_sort)(uint8_t)) {
    while (at < bytes && of_sort(text[at])) at++;
    return at;
}

/* "A number is digits, leading zeros taken", and "above 32,767 breaks the form". */
static int number_of(const uint8_t *digits, size_t count) {
    int value = 0;
    for (size_t i = 0; i < count; i++) {
        if (!is_digit(digits[i])) return NO_NUMBER;
        value = 10 * value + (digits[i] - '0');
        if (value > LARGEST) return NO_NUMBER;
    }
    return count == 0 ? NO_NUMBER : value;
}

/* A word of the body as a literal, or 0 for the end of a clause: "`-` stands only right before the digits of a literal, which is never 0". */
static int literal_of(const uint8_t *word, size_t length) {
    bool minus = word[0] == '-';
    int value = number_of(word + minus, length - minus);
    if (value == NO_NUMBER || (minus && value == 0)) return NO_NUMBER;
    return minus ? -value : value;
}

/* Takes the next word of the body; false where there is none. */
static bool next_literal(const uint8_t *text, size_t bytes, size_t *at, int *literal) {
    size_t from = past(text, bytes, *at, is_gap), end = past(text, bytes, from, is_no_gap);
    if (from == end) return false;
    *literal = literal_of(text + from, end - from);
    *at = end;
    return true;
}

/* Where the header is due: past the lines that begin with `c`. One without a line feed leaves no header. */
static size_t past_comments(const uint8_t *text, size_t bytes) {
    size_t at = 0;
    while (at < bytes && text[at] == 'c') {
        while (at < bytes && text[at] != '\n') at++;
        if (at < bytes) at++;
    }
    return at;
}

/* True if the text has its header line: `p cnf`, blanks, the variables, blanks, the clauses, blanks or none, and the line's end. */
bool text_has_header(const uint8_t *text, size_t bytes, Form *form) {
    size_t at = past_comments(text, bytes);
    if (bytes - at < 5 || memcmp(text + at, "p cnf", 5) != 0) return false;
    size_t first = past(text, bytes, at + 5, is_blank), first_end = past(text, bytes, first, is_digit);
    size_t second = past(text, bytes, first_end, is_blank), second_end = past(text, bytes, second, is_digit);
    size_t end = past(text, bytes, second_end, is_blank);
    if (first == at + 5 || second == first_end || (end < bytes && text[end] != '\n')) return false;
    int variables = number_of(text + first, first_end - first), clauses = number_of(text + second, second_end - second);
    if (variables == NO_NUMBER || clauses == NO_NUMBER) return false;
    *form = (Form){.variables = (unsigned)variables, .clauses = (unsigned)clauses, .body = end < bytes ? end + 1 : end};
    return true;
}

/* True if the whole text keeps the form, has the header's number of clauses and no literal beyond its variables: else 15. */
bool text_keeps_form(const uint8_t *text, size_t bytes, Form *form) {
    if (!text_has_header(text, bytes, form)) return false;
    size_t at = form->body, ended = 0;
    int literal = 0;
    while (next_literal(text, bytes, &at, &literal)) {
        if (literal == NO_NUMBER || (unsigned)abs(literal) > form->variables) return false;
        ended += literal == 0;
    }
    return literal == 0 && ended == form->clauses;
}

/* The next clause of a text that keeps the form, from the place *at of its body on; moves *at past its 0. */
Clause next_clause(const uint8_t *text, size_t bytes, size_t *at, unsigned symbols) {
    Clause clause = {.symbols = symbols};
    int literal = 0;
    while (next_literal(text, bytes, at, &literal) && literal != 0) {
        clause.words++;
        if ((unsigned)abs(literal) > symbols) clause.beyond = true;
        else clause.has[place_of(literal)] = true;
    }
    return clause;
}

/* How many different symbols it has; those beyond S are not counted. */
unsigned clause_symbols(const Clause *clause) {
    unsigned count = 0;
    for (unsigned p = 0; p < 2 * clause->symbols; p += 2) count += clause->has[p] || clause->has[p + 1];
    return count;
}

/* True if it has a literal and its opposite. */
bool clause_always_true(const Clause *clause) {
    for (unsigned p = 0; p < 2 * clause->symbols; p += 2)
        if (clause->has[p] && clause->has[p + 1]) return true;
    return false;
}

/* The clause as the literals of a row: each once, with rising symbols, zeros after them. */
void clause_row(const Clause *clause, int16_t row[ROW_LITERALS]) {
    unsigned used = 0;
    memset(row, 0, ROW_LITERALS * sizeof row[0]);
    for (unsigned p = 0; p < 2 * clause->symbols; p++)
        if (clause->has[p]) row[used++] = (int16_t)literal_at(p);
}

/* The clause, of at most eight different symbols, as the rule that one of its literals is true. */
Rule clause_rule(const Clause *clause) {
    Rule rule = {0};
    for (unsigned p = 0; p < 2 * clause->symbols; p += 2)
        if (clause->has[p] || clause->has[p + 1]) rule.symbol[rule.count++] = (uint8_t)(p / 2 + 1);
    for (unsigned a = 0; a < 1u << rule.count; a++) {
        for (unsigned i = 0; i < rule.count; i++) rule.holds[a] |= clause->has[2 * (rule.symbol[i] - 1u) + (a >> i & 1 ? 0 : 1)];
        rule.satisfying += rule.holds[a];
    }
    return rule;
}

/* What is wrong with one clause where so many rows are in use and so many rules are counted: "2, 7, 8, 9 as for rules, an empty clause giving 8". */
static unsigned clause_refusal(const Clause *clause, size_t rows, size_t lent, unsigned rules) {
    if (clause->beyond) return 2;
    if (clause_symbols(clause) > RULE_SYMBOLS) return 7;
    if (clause->words == 0) return 8;
    return (!clause_always_true(clause) && rows + 1 > lent) || rules == MOST_RULES ? 9 : 0;
}

/* Reads the text's clauses as rules, in order, all of them or none. Each is counted, and meets the count that those before it leave. */
Outcome model_read(Board *board, int16_t *table, size_t numbers, const uint8_t *text, size_t bytes) {
    Form form;
    int16_t row[ROW_LITERALS];
    if (!board_is_good(board, table, numbers)) return (Outcome){.refusal = 1};
    if (!text_keeps_form(text, bytes, &form)) return (Outcome){.refusal = 15};
    unsigned rows = board->rows;
    size_t at = form.body;
    for (unsigned c = 0; c < form.clauses; c++) {
        Clause clause = next_clause(text, bytes, &at, board->symbols);
        unsigned refusal = clause_refusal(&clause, rows, rows_lent(numbers), board->rules + c);
        if (refusal != 0) return (Outcome){.refusal = refusal, .clauses = c};
        rows += !clause_always_true(&clause);
    }
    Outcome done = {.clauses = form.clauses, .added = rows - board->rows};
    at = form.body;
    for (unsigned c = 0; c < form.clauses; c++) {
        Clause clause = next_clause(text, bytes, &at, board->symbols);
        board->rules++;
        if (clause_always_true(&clause)) continue;
        clause_row(&clause, row);
        append_row(board, table, row);
    }
    return done;
}

/* The text of the rows in use of a good board: the header with S and the rows, then a line a row without its rule's number; returns its length. */
size_t text_of_rows(const Board *board, const int16_t *table, char out[MOST_TEXT + 1]) {
    size_t used = (size_t)sprintf(out, "p cnf %u %u\n", board->symbols, board->rows);
    for (unsigned r = 0; r < board->rows; r++) {
        const int16_t *row = table + WIDTH * r;
        for (unsigned i = 0; i < ROW_LITERALS && row[i] != 0; i++) used += (size_t)sprintf(out + used, "%d ", row[i]);
        used += (size_t)sprintf(out + used, "0\n");
    }
    return used;
}

/* Writes the rows in use as text. */
Outcome model_write(const Board *board, const int16_t *table, size_t numbers, uint8_t *text, size_t bytes) {
    static char whole[MOST_TEXT + 1];
    if (!board_is_good(board, table, numbers)) return (Outcome){.refusal = 1};
    size_t length = text_of_rows(board, table, whole);
    if (length > bytes) return (Outcome){.refusal = 13};
    memcpy(text, whole, length);
    return (Outcome){.written = length};
}
