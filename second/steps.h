/* One step of a sequence, with every number it needs in it, so that any step can be dropped and the rest played again. */
#ifndef STEPS_H
#define STEPS_H

#include "model.h"
#include "tupahineka.h"

enum {
    GUARD = 32,                                /* places before and after what can be lent */
    TABLE_LENDABLE = MOST_ROWS * WIDTH + 43,   /* more than 2,048 rows, and not a whole number of them */
    LABELS_LENDABLE = MOST_SYMBOLS + 9,
    PLACES_LENDABLE = PLACES + 9,
    FORMULA_LENDABLE = 98304,                  /* the longest formula of depth 16, and a byte too many */
    TEXT_LENDABLE = 1100000,                   /* a comment of a megabyte, and a text after it */
    CANDIDATES_LENDABLE = 65600,               /* more than 12, and more than a 16-bit count can say */
    SETS_LENDABLE = 65600,
    MOST_STEPS = 2600,
    PLACE_WORD = 24                            /* bytes for a place in words */
};

/* The twenty-one calls, those that hand a board back first; then what the caller may do between them. READ and WRITE are of DIMACS text; TEXT_RULE,
 * TO_BYTES and TO_TEXT of formula text: a rule added from it, it read to bytes, and bytes written as it. POSITIONS enters a position variable, PAIRS
 * a pair table between two. PUSH holds a literal on trial, POP takes the last one back. ASK answers by symbol, ASK_WHOLE with the old answer,
 * conflict for every literal while the furnace is in conflict. LEAST tells the least of candidates to withdraw, SMALLEST lists sets of them. */
typedef enum Kind {
    OPEN, RULE, TEXT_RULE, READ, POSITIONS, PAIRS, HOLD, WITHDRAW, PUSH, POP, SETTLE, ASK, ASK_WHOLE, EXPLAIN, GROUND, BLAME, LEAST, SMALLEST,
    WRITE, TO_BYTES, TO_TEXT,
    CALLS,
    SET_SYMBOLS = CALLS, /* the caller writes S = value into the board */
    SET_ROWS,            /* the caller writes rows in use = value */
    SET_RULES,           /* the caller writes rules counted = value */
    SET_HELD,            /* the caller writes the byte value at place of a furnace's premises */
    SET_NUMBER,          /* the caller writes the number value at a place of the clause table */
    SET_COUNT,           /* the caller writes the count of a furnace's stack = value */
    SET_STACKED,         /* the caller writes the number value at a place of a furnace's stack */
    APPEND_ROW,          /* the caller counts so many rules, writes a row of his own from the last one after the rows in use, and counts it in */
    KINDS
} Kind;

typedef struct Step {
    Kind kind;
    int value;
    unsigned furnace;        /* that the call names, any byte; 1 or 2 where the caller writes into its premises or its stack */
    unsigned place;
    int16_t row[ROW_LITERALS];
    unsigned rules;          /* that the caller counts ahead of his row */
    size_t numbers;          /* numbers of the clause table lent */
    size_t lent[3];          /* labels, ranks and supports; or marks; or bytes for a text or a formula; or places for sets */
    const uint8_t *formula;  /* of a rule, or to be written as text */
    const uint8_t *text;     /* to be read, of either sort */
    const int16_t *candidates;
    Variable variables[2];   /* the position variable, or the two of a pair table */
    uint64_t pairs;          /* that the table allows */
    size_t bytes, standing;  /* bytes given, or candidates, and those that stand there: the ones past those given must not be read */
    uint64_t noise;          /* what stands in the tables to be written, before the call */
    unsigned damage, faults; /* for the counts only: what was spoilt ahead of this call, and how many things */
    bool torn;               /* for the counts only: the text is a damaged one */
    unsigned spoilt, whose;  /* for the counts only: what was spoilt in the record ahead of this call, and in which furnace's stack */
    bool mended;             /* for the counts only: this puts a spoilt record right */
} Step;

/* Everything that can be lent, with its guards. */
typedef struct Tables {
    int16_t table[GUARD + TABLE_LENDABLE + GUARD];
    uint16_t ranks[GUARD + PLACES_LENDABLE + GUARD];
    uint16_t supports[GUARD + PLACES_LENDABLE + GUARD];
    uint8_t labels[GUARD + LABELS_LENDABLE + GUARD];
    uint8_t marks[GUARD + PLACES_LENDABLE + GUARD];
    uint8_t formula[GUARD + FORMULA_LENDABLE + GUARD];
    uint8_t text[GUARD + TEXT_LENDABLE + GUARD];
    int16_t candidates[GUARD + CANDIDATES_LENDABLE + GUARD];
    uint16_t sets[GUARD + SETS_LENDABLE + GUARD];
    int16_t record[GUARD + RECORD_NUMBERS + GUARD]; /* of both stacks: as it was left by the call before, like the clause table */
} Tables;

/* The rules accepted since the last good open, clauses of texts among them, and the rows they wrote, each with the number of its rule as the book
 * counts them. Where the caller has written into the board or its rows, and not put it back, they are not what the book says. */
typedef struct Book {
    unsigned symbols, rows, count;
    bool parted;
    Rule rules[MOST_RULES];
    int16_t written[MOST_ROWS * WIDTH];
} Book;

/* What the library's settle said beside a step: the refusal, and where that is 0 its three tables. */
typedef struct Settled {
    unsigned refusal;
    uint8_t labels[MOST_SYMBOLS];
    uint16_t ranks[PLACES], supports[PLACES];
} Settled;

/* What the library's furnaces held ahead of each of the last pushes: of so many that are still on the stack, the first of them first; but for what
 * was held and withdrawn for the furnace since then by other calls than pushes and pops, if anything was. */
typedef struct Ahead {
    unsigned pushes[FURNACES];
    bool changed[FURNACES][PLACES];
    uint8_t held[FURNACES][PLACES][PLACES];
} Ahead;

/* A sequence in play: the model's side, the library's side, and the book of rules. */
typedef struct Play {
    bool with_library;
    Board board;
    tup_board library_board, given; /* now, and as the last call was given it */
    Tables ours, theirs;
    size_t watched;          /* bytes of the clause table, from its front on, that are compared after each call */
    Book book;
    Ahead ahead;
    int16_t record_given[RECORD_NUMBERS]; /* the record as the last open was lent it */
    Outcome last, library_last;
    bool demand_3, booked, renumbered; /* compared at the last step: demand 3, the book of rules, the call with other rule numbers */
    unsigned carried, grounds, own_grounds; /* sets of the last list held alone; grounds with one of them inside; those of the board's own premises */
    unsigned struck, left;   /* candidates of the last set to withdraw that were withdrawn; those of it that were left in place, in conflict still */
    unsigned told_again;     /* and calls for it made again in other ways */
    bool popped, taken_back; /* compared at the last step, a pop: what settle tells after it; the premises with those ahead of its push, */
    bool taken_back_but;     /* the same, but for what was held and withdrawn since */
    int tried;               /* the literal that the last step, a pop, took back */
    Findings after;          /* and what the model finds after it */
    unsigned asked, hidden;  /* literals that both calls were asked for beside settle; those whose answer a conflict hides from the second call */
    char difference[240];    /* empty, or the first difference in words */
} Play;

/* steps.c */
bool names_furnace(Kind kind);
bool asks(Kind kind);
bool holds(Kind kind);
bool tests_record(Kind kind);
bool gives_candidates(Kind kind);
bool gives_literal(Kind kind);
bool gives_literals(const Step *step, unsigned symbols);
bool gives_formula(Kind kind);
bool gives_text(Kind kind);
bool gives_variables(Kind kind);
bool adds_rows(Kind kind);
bool spells(Kind kind);
size_t text_window(const Step *step);
size_t formula_window(const Step *step);
size_t candidates_window(const Step *step);
size_t sets_window(const Step *step);
void play_start(Play *play, uint64_t seed, bool with_library);
void lend(Play *play, const Step *step);
void caller_acts(const Step *step, tup_board *board, Tables *tables);
bool play_step(Play *play, const Step *step);

/* book.c */
void book_start(Book *book);
void keep_book(Play *play, const Step *step);
void book_parts(Play *play);
bool book_covers(const Play *play);
bool book_agrees(Play *play, const Step *step);

/* renumber.c */
bool can_renumber(Kind kind);
bool numbers_change_nothing(Play *play, const Step *step);

/* library.c */
Outcome library_call(const Step *step, tup_board *board, Tables *tables);
Settled library_settle(const tup_board *board, const int16_t *table, size_t numbers, unsigned furnace);

/* bounds.c */
bool number_is_known(Play *play, unsigned number);
bool ranks_are_bounded(Play *play, const uint16_t *ranks, unsigned symbols);
bool answer_is_bounded(Play *play, const Step *step, const Outcome *told, unsigned symbols, const Tables *tables);
bool candidates_are_bounded(Play *play, const Step *step);

/* listing.c */
bool list_is_bounded(Play *play, const Step *step, unsigned count, const uint16_t *sets);
bool list_carries(Play *play, const Step *step);

/* withdrawal.c */
bool least_is_bounded(Play *play, const Step *step, const Outcome *told);
bool least_follows(Play *play, const Step *step);

/* leastagain.c */
bool least_told_again(Play *play, const Step *step);

/* takenback.c */
void ahead_start(Play *play);
void ahead_of_act(Play *play, const Step *step);
bool stack_follows(Play *play, const Step *step);

/* answers.c */
bool answers_follow(Play *play, const Step *step);

/* compare.c */
bool same(Play *play, const char *what, long place, unsigned theirs, unsigned ours);
bool same_outcome(Play *play, const Outcome *ours, const Outcome *theirs);
bool table_agrees(Play *play);
bool same_record(Play *play, unsigned but_of);
bool same_tables(Play *play, const Step *step);
bool same_everywhere(Play *play, const Step *step, const Outcome *ours, const Outcome *theirs);
bool same_by_rules(Play *play, const Step *step);
bool marks_are_enough(Play *play, const Step *step);

/* words.c */
const char *kind_word(Kind kind);
void place_word(size_t place, char out[PLACE_WORD]);
void print_text(const uint8_t *text, size_t bytes);
void print_step(const Step *step, size_t ordinal);
void print_outcome(const char *who, Kind kind, const Outcome *outcome);
void print_board(const Play *play, size_t numbers);

/* shrink.c */
size_t shrink(Play *play, Step *steps, size_t count, uint64_t seed);

#endif
