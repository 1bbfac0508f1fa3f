/* The book of the rules accepted since a good open. Document 02's Ticket 8 by it: "the number of its rule, from 1 in order of acceptance, rules with
 * no rows counted". The book counts rules by what was done, not by the board's count, and the rows of each by what the call said that it added. */
#include <string.h>

#include "steps.h"

/* An empty book, as of no board at all. */
void book_start(Book *book) {
    book->symbols = book->rows = book->count = 0;
    book->parted = false;
}

/* Puts a rule into the book, and of the rows that a call has added so many, from *rows on; moves *rows past them. */
static void enter(Book *book, Rule rule, const int16_t **rows, unsigned added) {
    book->rules[book->count++] = rule;
    for (unsigned i = 0; i < added; i++, *rows += WIDTH) {
        int16_t *row = book->written + WIDTH * book->rows++;
        memcpy(row, *rows, ROW_LITERALS * sizeof row[0]);
        row[RULE_PLACE] = (int16_t)book->count;
    }
}

/* Puts each clause of a text that was read into the book as a rule. */
static void enter_clauses(Book *book, const Step *step, const int16_t *rows) {
    Form form;
    if (!text_keeps_form(step->text, step->bytes, &form)) return;
    size_t at = form.body;
    for (unsigned c = 0; c < form.clauses; c++) {
        Clause clause = next_clause(step->text, step->bytes, &at, book->symbols);
        enter(book, clause_rule(&clause), &rows, clause_always_true(&clause) ? 0 : 1);
    }
}

/* Puts each clause of a pair table into the book as a rule. */
static void enter_pairs(Book *book, const Step *step, const int16_t *rows) {
    for (unsigned n = 0; n < pair_clauses(step->variables); n++) {
        Clause clause = pair_clause(step->variables, step->pairs, n, book->symbols);
        enter(book, clause_rule(&clause), &rows, 1);
    }
}

/* The rule that a step added, as its bytes, its text or its variable has it. */
static Rule rule_added(const Step *step) {
    if (step->kind == POSITIONS) return positions_rule(&step->variables[0]);
    if (step->kind == RULE) return rule_of(step->formula, step->bytes);
    Spelt spelt = spelt_by(step->text, step->bytes);
    return rule_of(spelt.bytes, spelt.count);
}

/* The rules that a call has added: of a text its clauses, of a pair table one for each position, else one. */
static unsigned rules_added(const Play *play, const Step *step) {
    return step->kind == READ ? play->last.clauses : step->kind == PAIRS ? pair_clauses(step->variables) : 1;
}

/* Puts what a call has added into the book, with its rows. A book without room, where the caller took rows back, is closed. */
static void enter_added(Play *play, const Step *step) {
    Book *book = &play->book;
    unsigned added = play->last.added, rules = rules_added(play, step);
    const int16_t *rows = play->ours.table + GUARD + WIDTH * (play->board.rows - added);
    if (book->count + rules > MOST_RULES || book->rows + added > MOST_ROWS) {
        book->symbols = 0;
        book->parted = true;
    }
    if (book->symbols == 0) return;
    if (step->kind == READ) enter_clauses(book, step, rows);
    else if (step->kind == PAIRS) enter_pairs(book, step, rows);
    else enter(book, rule_added(step), &rows, added);
}

/* Keeps the book after a call: a good open starts it and a refused one leaves none, an accepted rule, text, variable or
 * pair table goes in with its rows. */
void keep_book(Play *play, const Step *step) {
    if (step->kind == OPEN) {
        book_start(&play->book);
        play->book.symbols = play->last.refusal == 0 ? (unsigned)step->value : 0;
    } else if (adds_rows(step->kind) && play->last.refusal == 0) {
        enter_added(play, step);
    }
}

/* Notes, after the caller has written something himself, whether the board and its rows are what the book says. */
void book_parts(Play *play) {
    const Book *book = &play->book;
    const Board *board = &play->board;
    play->book.parted = board->symbols != book->symbols || board->rows != book->rows || board->rules != book->count ||
                        memcmp(play->ours.table + GUARD, book->written, book->rows * WIDTH * sizeof book->written[0]) != 0;
}

/* True if the rows in use have the literals that the rules in the book wrote, and there are no others; their numbers do not count here. */
bool book_covers(const Play *play) {
    const Book *book = &play->book;
    const int16_t *table = play->ours.table + GUARD;
    bool covers = book->symbols != 0 && play->board.symbols == book->symbols && play->board.rows == book->rows;
    for (unsigned r = 0; r < book->rows && covers; r++)
        covers = memcmp(table + WIDTH * r, book->written + WIDTH * r, ROW_LITERALS * sizeof table[0]) == 0;
    return covers;
}

/* True if the rows in use are the rows in the book, number by number; notes the first that is not. */
static bool rows_agree(Play *play, const int16_t *table) {
    const Book *book = &play->book;
    size_t numbers = book->rows * WIDTH, i = 0;
    if (memcmp(table, book->written, numbers * sizeof table[0]) == 0) return true;
    while (i < numbers && table[i] == book->written[i]) i++;
    return same(play, "the rules accepted, number in the table (model: the book)", (long)i, (unsigned)table[i], (unsigned)book->written[i]);
}

/* After calls alone since a good open the numbers run from 1 to the count, the rows with number i are those of the i-th rule accepted, and a good
 * explain tells the number of the rule whose rows have the one that it tells. The library's side, or the model's where that plays alone. */
bool book_agrees(Play *play, const Step *step) {
    const Book *book = &play->book;
    const int16_t *table = (play->with_library ? play->theirs.table : play->ours.table) + GUARD;
    const Outcome *told = play->with_library ? &play->library_last : &play->last;
    unsigned rules = play->with_library ? play->library_board.rules : play->board.rules;
    unsigned rows = play->with_library ? play->library_board.rows : play->board.rows;
    if (book->parted) return true;
    play->booked = true;
    if (!same(play, "the rules accepted, counted (model: the book)", NONE, rules, book->count)) return false;
    if (!same(play, "the rules accepted, rows in use (model: the book)", NONE, rows, book->rows) || !rows_agree(play, table)) return false;
    if (step->kind != EXPLAIN || told->refusal != 0) return true;
    unsigned number = told->row < book->rows ? (unsigned)rule_number(book->written, told->row) : 0;
    return same(play, "the rules accepted, rule of the reason (model: the book)", told->row, told->rule, number);
}
