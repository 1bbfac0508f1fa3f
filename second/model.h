/* Document 01 with Tickets 1, 2, 4 to 8 and 10 to 14 of document 02 by brute force, for the independent second program.
 *
 * Written from these documents and include/tupahineka.h alone. No other code of the project was read for it: what this
 * program and the library share is the documents and nothing else. Slow and by definition, wherever a definition is there. */
#ifndef MODEL_H
#define MODEL_H

#include <stdbool.h>
#include <stddef.h>
#include <stdint.h>

enum {
    MOST_SYMBOLS = 200,
    PLACES = 400,        /* +s at 2(s-1), -s at the next */
    FURNACES = 2,        /* numbered from 1 */
    WIDTH = 9,           /* numbers in a row */
    ROW_LITERALS = 8,    /* of them places for literals, from the first on */
    RULE_PLACE = 8,      /* and the place of its rule's number, the last */
    MOST_ROWS = 2048,
    MOST_RULES = 32767,  /* accepted since the board was opened */
    NONE = 65535,        /* no rank, no support, no set */
    RULE_SYMBOLS = 8,    /* different symbols in a rule */
    ASSIGNMENTS = 256,
    MOST_CLAUSES = 6561, /* over eight symbols, the empty one included */
    DEEPEST = 16,        /* the depth an operand may stand at */
    MOST_TEXT = 86031,   /* bytes of 2,048 rows of 8 literals such as -200, under the header of 200 symbols */
    MOST_FORMULA = 98303,   /* bytes of 32,768 symbols at depth 16 and the 32,767 kinds above them */
    MOST_SPELLING = 196603, /* bytes of their text: three digits each, the marks, brackets round all of these forms but the whole */
    MOST_OPEN = 16,         /* brackets open at once in formula text */
    MOST_CANDIDATES = 12,
    ALL_SETS = 4096,        /* sets of so many candidates, the empty one included */
    LEAST_POSITIONS = 2,    /* of a position variable */
    MOST_POSITIONS = 7,
    STACK_NUMBERS = 1 + PLACES,                /* of a furnace's stack in the record: its count, then its places, the bottom first */
    RECORD_NUMBERS = FURNACES * STACK_NUMBERS  /* of the record of both stacks: furnace 1's, then furnace 2's */
};

/* Where no byte place is told: the largest size_t, by the C interface. */
#define NO_PLACE SIZE_MAX

/* Answers to both calls that ask, by the numbers of the C interface. */
enum { IS_OPEN, STANDS, RULED_OUT, IN_CONFLICT };

/* One S, one count of rows in use and one of the rules accepted since open; the premises of furnace 1, then those of furnace 2. */
typedef struct Board {
    unsigned symbols, rows, rules;
    bool held[FURNACES][PLACES];
} Board;

/* What any call returns but its board; what a call does not return is 0. */
typedef struct Outcome {
    unsigned refusal, added, standing, literals, rank, row, rule;
    unsigned clauses; /* of a text read: those before the first at fault */
    size_t place;     /* of a rule, and of formula text: the byte where its formula or its text breaks, or NO_PLACE */
    size_t written;   /* of a text or a formula written: its bytes */
    unsigned listed;  /* of the smallest sets: how many */
    unsigned set;     /* the least to withdraw, or NONE where refused */
} Outcome;

/* What each set of candidates does, held alone: bit i of its number stands for candidate i. Then how many of the sets are listed. */
typedef struct Weighed {
    unsigned candidates, listed;
    bool derives[ALL_SETS], conflict[ALL_SETS];
} Weighed;

/* Whether the furnace is in conflict with each set of candidates withdrawn from its premises. */
typedef struct Withdrawn {
    unsigned candidates;
    bool conflict[ALL_SETS];
} Withdrawn;

/* How reading a formula ended: done, the bytes used and NO_PLACE; refused, the number and the place where it breaks. */
typedef struct Reading {
    unsigned refusal;
    size_t used, place;
} Reading;

/* What a rule says: its symbols in rising order, and whether each assignment (bit i for symbol[i]) satisfies it. */
typedef struct Rule {
    unsigned count, satisfying;
    uint8_t symbol[RULE_SYMBOLS];
    bool holds[ASSIGNMENTS];
} Rule;

/* What a formula text spells: its bytes, which stand until the next text is taken; or where it leaves the form. */
typedef struct Spelt {
    size_t place; /* NO_PLACE for a text of the form */
    size_t count;
    const uint8_t *bytes;
} Spelt;

/* What the header of a DIMACS text says, and where its body starts. */
typedef struct Form {
    unsigned variables, clauses;
    size_t body;
} Form;

/* A clause of a text: which literals of symbols 1 to S it has, whether it has others, and how many words it was written with. */
typedef struct Clause {
    unsigned symbols; /* S */
    bool beyond, has[PLACES];
    size_t words;
} Clause;

/* A position variable as a call is given it: its first symbol, and how many it has. Any 16-bit numbers, so that no sum of the two is too large. */
typedef struct Variable {
    unsigned first, count;
} Variable;

/* What propagation finds, by place. */
typedef struct Findings {
    unsigned rank[PLACES], support[PLACES];
} Findings;

/* formula.c */
Reading read_formula(const uint8_t *bytes, size_t length, unsigned symbols);
unsigned different_symbols(const uint8_t *bytes, size_t used, uint8_t out[MOST_SYMBOLS]);
Rule rule_of(const uint8_t *bytes, size_t used);

/* implicates.c */
unsigned prime_rows(const Rule *rule, int16_t rows[MOST_CLAUSES][ROW_LITERALS]);

/* rounds.c */
unsigned place_of(int literal);
int literal_at(unsigned place);
Findings propagate(const Board *board, unsigned furnace, const int16_t *table);
bool derived(const Findings *found, unsigned place);
unsigned label_of(const Findings *found, unsigned symbol);
unsigned first_conflict(const Board *board, const Findings *found);
bool has_conflict(const Board *board, unsigned furnace, const int16_t *table);
unsigned larger_rank(const Findings *found, unsigned symbol);
unsigned blamed_symbol(const Board *board, const Findings *found);
void walk_back(const bool premises[PLACES], const int16_t *table, const Findings *found, unsigned place, bool seen[PLACES]);

/* model.c: the nine calls, the old answer of ask as one call more, and what they test. */
bool is_literal(int number, unsigned symbols);
size_t rows_lent(size_t numbers);
bool is_furnace(unsigned number);
const bool *premises_of(const Board *board, unsigned furnace);
int rule_number(const int16_t *table, unsigned row);
bool board_is_good(const Board *board, const int16_t *table, size_t numbers);
unsigned furnace_tests(const Board *board, const int16_t *table, size_t numbers, unsigned furnace);
unsigned literal_tests(const Board *board, const int16_t *table, size_t numbers, unsigned furnace, int literal);
void append_row(Board *board, int16_t *table, const int16_t literals[ROW_LITERALS]);
Outcome model_open(Board *board, int16_t *record, unsigned symbols);
Outcome formula_breaks(const uint8_t *formula, size_t bytes, unsigned symbols);
Outcome model_rule(Board *board, int16_t *table, size_t numbers, const uint8_t *formula, size_t bytes);
Outcome model_hold(Board *board, const int16_t *table, size_t numbers, unsigned furnace, int literal);
Outcome model_withdraw(Board *board, const int16_t *table, size_t numbers, const int16_t *record, unsigned furnace, int literal);
Outcome model_settle(const Board *board, const int16_t *table, size_t numbers, unsigned furnace, uint8_t *labels, size_t label_count,
                     uint16_t *ranks, size_t rank_count, uint16_t *supports, size_t support_count);
Outcome model_ask(const Board *board, const int16_t *table, size_t numbers, unsigned furnace, int literal);
Outcome model_ask_whole(const Board *board, const int16_t *table, size_t numbers, unsigned furnace, int literal);
Outcome model_explain(const Board *board, const int16_t *table, size_t numbers, unsigned furnace, int literal);
Outcome model_ground(const Board *board, const int16_t *table, size_t numbers, unsigned furnace, int literal, uint8_t *marks, size_t mark_count);
void mark_both(const Board *board, unsigned furnace, const int16_t *table, const Findings *found, unsigned symbol, uint8_t *marks);
Outcome model_blame(const Board *board, const int16_t *table, size_t numbers, unsigned furnace, uint8_t *marks, size_t mark_count);

/* stacks.c: readings that are tried and taken back, two calls more, and the tests of the record that they are lent. */
unsigned stack_count(const int16_t *record, unsigned furnace);
int stacked_at(const int16_t *record, unsigned furnace, unsigned at);
bool is_stacked(const int16_t *record, unsigned furnace, int literal);
bool stack_is_good(const Board *board, const int16_t *record, unsigned furnace);
unsigned stack_tests(const Board *board, const int16_t *table, size_t numbers, const int16_t *record, unsigned furnace);
Outcome model_push(Board *board, const int16_t *table, size_t numbers, int16_t *record, unsigned furnace, int literal);
Outcome model_pop(Board *board, const int16_t *table, size_t numbers, int16_t *record, unsigned furnace);

/* dimacs.c: text in and out, two calls more. */
bool text_has_header(const uint8_t *text, size_t bytes, Form *form);
bool text_keeps_form(const uint8_t *text, size_t bytes, Form *form);
Clause next_clause(const uint8_t *text, size_t bytes, size_t *at, unsigned symbols);
unsigned clause_symbols(const Clause *clause);
bool clause_always_true(const Clause *clause);
void clause_row(const Clause *clause, int16_t row[ROW_LITERALS]);
Rule clause_rule(const Clause *clause);
Outcome model_read(Board *board, int16_t *table, size_t numbers, const uint8_t *text, size_t bytes);
size_t text_of_rows(const Board *board, const int16_t *table, char out[MOST_TEXT + 1]);
Outcome model_write(const Board *board, const int16_t *table, size_t numbers, uint8_t *text, size_t bytes);

/* spelt.c: formulae in plain text, three calls more. */
Spelt spelt_by(const uint8_t *text, size_t length);
size_t text_of_formula(const uint8_t *formula, char out[MOST_SPELLING + 1]);
Outcome model_to_bytes(const Board *board, const int16_t *table, size_t numbers, const uint8_t *text, size_t length, uint8_t *formula, size_t room);
Outcome model_text_rule(Board *board, int16_t *table, size_t numbers, const uint8_t *text, size_t length);
Outcome model_to_text(const Board *board, const int16_t *table, size_t numbers, const uint8_t *formula, size_t bytes, uint8_t *text, size_t room);

/* smallest.c: the smallest sets of candidates, one call more. */
unsigned set_size(unsigned set);
const Weighed *last_weighed(void);
unsigned list_smallest(const Board *board, const int16_t *table, const int16_t *candidates, unsigned count, int literal, uint16_t listed[ALL_SETS]);
bool repeats(const int16_t *candidates, size_t count);
unsigned candidate_tests(unsigned symbols, const int16_t *candidates, size_t count);
Outcome model_smallest(const Board *board, const int16_t *table, size_t numbers, const int16_t *candidates, size_t count, int literal, uint16_t *sets,
                       size_t room);

/* least.c: the least to withdraw, one call more. */
const Withdrawn *last_withdrawn(void);
Board board_without(const Board *board, unsigned furnace, const int16_t *candidates, unsigned count, unsigned set);
Outcome model_least(const Board *board, const int16_t *table, size_t numbers, unsigned furnace, const int16_t *candidates, size_t count);

/* positions.c: position variables and pair tables, two calls more. */
bool variable_is_on_board(const Variable *variable, unsigned symbols);
bool variable_has_positions(const Variable *variable);
bool variables_share(const Variable both[2]);
bool pair_is_allowed(uint64_t pairs, unsigned i, unsigned j);
bool allows_a_pair(const Variable both[2], uint64_t pairs);
Rule positions_rule(const Variable *variable);
unsigned pair_clauses(const Variable both[2]);
Clause pair_clause(const Variable both[2], uint64_t pairs, unsigned number, unsigned symbols);
Outcome model_positions(Board *board, int16_t *table, size_t numbers, const Variable *variable);
Outcome model_pairs(Board *board, int16_t *table, size_t numbers, const Variable both[2], uint64_t pairs);

/* reduced.c: the form of formula text a second way, and the place of a 15 by its definition. */
bool text_leaves_form_at(const uint8_t *text, size_t length, size_t place);

/* byrule.c: demand 3's second way, without clauses. */
void force_by_rules(const Rule *rules, size_t count, const bool premises[PLACES], bool forced[PLACES]);

#endif
