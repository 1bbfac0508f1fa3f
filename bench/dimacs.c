/* DIMACS text in and out as a C programmer would write it: a pass that tests the text and finds the first clause at fault, one that appends; and
 * the same in one pass, with the rows kept aside until the text is known to be good. The same tests, the same outputs, no proof. */
#include <stdbool.h>
#include <stdlib.h>
#include <string.h>

#include "plain.h"

enum { WIDTH = TUP_ROW_WIDTH, LITERALS = TUP_ROW_LITERALS, LARGEST = 32767 };

/* ---- Reading ---- */

/* A text being read. */
typedef struct reader {
    const uint8_t *at, *end;
    int variables, clauses;
} reader;

/* A clause: its literals by rising symbols, each once. */
typedef struct clause {
    int16_t literal[LITERALS];
    unsigned count;
    bool beyond, many, always; /* a symbol beyond S; a ninth symbol; a literal and its opposite */
} clause;

/* True for a digit. */
static inline bool is_digit(uint8_t byte) {
    return (uint8_t)(byte - '0') < 10;
}

/* Reads a number up to 32,767; false where there is none. */
static inline bool read_number(reader *in, int *number) {
    int value = 0;
    if (in->at == in->end || !is_digit(*in->at)) return false;
    do {
        value = 10 * value + (*in->at++ - '0');
        if (value > LARGEST) return false;
    } while (in->at != in->end && is_digit(*in->at));
    *number = value;
    return true;
}

/* Passes blanks; how many. */
static size_t pass_blanks(reader *in) {
    const uint8_t *from = in->at;
    while (in->at != in->end && *in->at == ' ') in->at++;
    return (size_t)(in->at - from);
}

/* Passes the comment lines and the header; false where they break the form. */
static bool read_front(reader *in) {
    while (in->at != in->end && *in->at == 'c') {
        const uint8_t *feed = memchr(in->at, '\n', (size_t)(in->end - in->at));
        if (feed == NULL) return false;
        in->at = feed + 1;
    }
    if (in->end - in->at < 5 || memcmp(in->at, "p cnf", 5) != 0) return false;
    in->at += 5;
    if (pass_blanks(in) == 0 || !read_number(in, &in->variables)) return false;
    if (pass_blanks(in) == 0 || !read_number(in, &in->clauses)) return false;
    pass_blanks(in);
    return in->at == in->end || *in->at++ == '\n';
}

/* Passes blanks and line ends; false at the text's end. */
static inline bool more(reader *in) {
    while (in->at != in->end && (*in->at == ' ' || *in->at == '\n')) in->at++;
    return in->at != in->end;
}

/* Reads a literal, or the 0 after a clause; false where it breaks the form. */
static inline bool read_literal(reader *in, int *literal) {
    bool minus = *in->at == '-';
    int value;
    in->at += minus;
    if (!read_number(in, &value) || value > in->variables || (minus && value == 0)) return false;
    if (in->at != in->end && *in->at != ' ' && *in->at != '\n') return false;
    *literal = minus ? -value : value;
    return true;
}

/* Puts a literal in its place among those that the clause has. */
static inline void insert(clause *c, int literal, int symbols) {
    int symbol = abs(literal);
    unsigned i = c->count;
    if (symbol > symbols) {
        c->beyond = true;
        return;
    }
    while (i > 0 && abs(c->literal[i - 1]) > symbol) i--;
    if (i > 0 && abs(c->literal[i - 1]) == symbol) {
        c->always |= c->literal[i - 1] != literal;
        return;
    }
    if (c->count == LITERALS) {
        c->many = true;
        return;
    }
    for (unsigned j = c->count++; j > i; j--) c->literal[j] = c->literal[j - 1];
    c->literal[i] = (int16_t)literal;
}

/* Reads a clause up to its 0; false where the form breaks or the text ends. */
static inline bool read_clause(reader *in, clause *c, int symbols) {
    int literal;
    *c = (clause){.count = 0};
    for (;;) {
        if (!more(in) || !read_literal(in, &literal)) return false;
        if (literal == 0) return true;
        insert(c, literal, symbols);
    }
}

/* Writes the clause as a row from the rule of this number. */
static inline void write_row(const clause *c, int rule, int16_t *row) {
    memcpy(row, c->literal, sizeof c->literal);
    row[LITERALS] = (int16_t)rule;
}

/* The refusal of a clause where so many rows are in use and so many rules are counted. */
static inline uint8_t clause_refusal(const clause *c, size_t rows, size_t lent, int rules) {
    if (c->beyond) return 2;
    if (c->many) return 7;
    if (c->count == 0) return 8;
    return (!c->always && rows >= lent) || rules == TUP_MOST_RULES ? 9 : 0;
}

/* A reading refused after so many clauses. */
static tup_reading refused(uint8_t refusal, size_t clauses, const tup_board *board) {
    return (tup_reading){.refusal = refusal, .clauses = (uint16_t)clauses, .added = 0, .board = *board};
}

/* The board that a reading hands back. */
static tup_reading done(tup_board board, int clauses, size_t rows) {
    tup_reading reading = {.refusal = 0, .clauses = (uint16_t)clauses, .added = (uint16_t)(rows - board.rows), .board = board};
    reading.board.rows = (uint16_t)rows;
    reading.board.rules = (uint16_t)(board.rules + clauses);
    plain_tidy(&reading.board);
    return reading;
}

tup_reading plain_read_dimacs(tup_board board, int16_t *table, size_t numbers, const uint8_t *text, size_t bytes) {
    reader in = {text, text + bytes, 0, 0};
    size_t lent = plain_rows_lent(numbers), rows = board.rows;
    int at_fault = 0;
    uint8_t fault = 0;
    clause c;
    if (!plain_good(&board, table, numbers)) return refused(1, 0, &board);
    if (!read_front(&in)) return refused(15, 0, &board);
    const uint8_t *body = in.at;
    for (int n = 0; n < in.clauses; n++) {
        if (!read_clause(&in, &c, board.symbols)) return refused(15, 0, &board);
        if (fault != 0) continue;
        fault = clause_refusal(&c, rows, lent, board.rules + n);
        at_fault = n;
        rows += !c.always;
    }
    if (more(&in)) return refused(15, 0, &board);
    if (fault != 0) return refused(fault, (size_t)at_fault, &board);
    in.at = body;
    rows = board.rows;
    for (int n = 0; n < in.clauses; n++) {
        read_clause(&in, &c, board.symbols);
        if (!c.always) write_row(&c, board.rules + n + 1, table + WIDTH * rows++);
    }
    return done(board, in.clauses, rows);
}

tup_reading plain_read_dimacs_once(tup_board board, int16_t *table, size_t numbers, const uint8_t *text, size_t bytes) {
    int16_t aside[TUP_MOST_ROWS][WIDTH];
    reader in = {text, text + bytes, 0, 0};
    size_t lent = plain_rows_lent(numbers), added = 0;
    int at_fault = 0;
    uint8_t fault = 0;
    clause c;
    if (!plain_good(&board, table, numbers)) return refused(1, 0, &board);
    if (!read_front(&in)) return refused(15, 0, &board);
    for (int n = 0; n < in.clauses; n++) {
        if (!read_clause(&in, &c, board.symbols)) return refused(15, 0, &board);
        if (fault != 0) continue;
        fault = clause_refusal(&c, board.rows + added, lent, board.rules + n);
        at_fault = n;
        if (fault == 0 && !c.always) write_row(&c, board.rules + n + 1, aside[added++]);
    }
    if (more(&in)) return refused(15, 0, &board);
    if (fault != 0) return refused(fault, (size_t)at_fault, &board);
    if (added != 0) memcpy(table + WIDTH * board.rows, aside, added * sizeof aside[0]);
    return done(board, in.clauses, board.rows + added);
}

/* ---- Writing ---- */

/* Digits of a number up to 2,048. */
static inline unsigned digits(unsigned number) {
    return 1u + (number >= 10) + (number >= 100) + (number >= 1000);
}

/* Writes a number; returns the place after it. */
static inline uint8_t *put_number(uint8_t *at, unsigned number) {
    unsigned count = digits(number);
    for (unsigned i = count; i-- > 0; number /= 10) at[i] = (uint8_t)('0' + number % 10);
    return at + count;
}

/* The bytes of the text. No text has more than 15, and 42 a row: with so many lent it need not be measured. */
static size_t text_size(const tup_board *board, const int16_t *table) {
    size_t size = 8u + digits(board->symbols) + digits(board->rows);
    for (size_t r = 0; r < board->rows; r++) {
        const int16_t *row = table + WIDTH * r;
        for (int i = 0; i < LITERALS && row[i] != 0; i++) size += digits((unsigned)abs(row[i])) + (row[i] < 0) + 1u;
        size += 2;
    }
    return size;
}

tup_writing plain_write_dimacs(tup_board board, const int16_t *table, size_t numbers, uint8_t *text, size_t bytes) {
    if (!plain_good(&board, table, numbers)) return (tup_writing){1, 0};
    if (bytes < 15 + 42 * (size_t)board.rows && text_size(&board, table) > bytes) return (tup_writing){13, 0};
    uint8_t *at = text;
    memcpy(at, "p cnf ", 6);
    at = put_number(at + 6, board.symbols);
    *at++ = ' ';
    at = put_number(at, board.rows);
    *at++ = '\n';
    for (size_t r = 0; r < board.rows; r++) {
        const int16_t *row = table + WIDTH * r;
        for (int i = 0; i < LITERALS && row[i] != 0; i++) {
            if (row[i] < 0) *at++ = '-';
            at = put_number(at, (unsigned)abs(row[i]));
            *at++ = ' ';
        }
        *at++ = '0';
        *at++ = '\n';
    }
    return (tup_writing){0, (size_t)(at - text)};
}
