/* Tupahineka: a proved truth-maintenance board behind a trend screen. The nine calls of document 01 for C and C++, with the places of
 * document 02's first ticket, the two calls for DIMACS text of its second, blame as its fourth has it, the three calls for formulae in plain text
 * of its fifth, the two furnaces of its sixth, without refusal 14, which its seventh took out, with the number of its rule in each row, as its
 * eighth asks, the shift desk's smallest sets of its tenth, ask by symbol, with the old answer as a call of its own, as its eleventh asks, the
 * foreman's least to withdraw of its twelfth, the valves with several positions of its thirteenth, and the stacks of its fourteenth, by which a
 * reading is tried and taken back.
 *
 * Changed in version 7.0: tup_open and tup_withdraw are lent a record of both furnaces' stacks, tup_stacks. A program that stacks nothing keeps one
 * beside its board, all zeros to begin with, and lends it to these two: they then do what they did before. New are tup_push, tup_pop, and refusals
 * 20 and 21. No other call or struct moved.
 *
 * Changed in version 6.0: tup_ask answers TUP_CONFLICT only for a literal whose own symbol is in conflict. Before, it did so for every literal while
 * the furnace was in conflict anywhere; a program that relies on that, to find out whether there is a conflict at all, calls tup_ask_whole instead.
 * Nothing else moved: every struct, number and refusal was what it had been.
 *
 * New in version 6.1: tup_least, tup_withdrawal and refusal 18. New in version 6.2: tup_add_positions, tup_add_pairs and refusal 19. Nothing that was
 * there moved.
 *
 * Two furnaces run the same rules: a board has one S and one table of rows, and for each furnace a set of premises of its own. A call that changes
 * premises, or answers by them, names its furnace, 1 or 2, right after the table and its count, or after the stacks where it is lent them. What is
 * held and withdrawn for one furnace, on trial or not, changes no answer for the other, and none of a call that names no furnace.
 *
 * Link with libpanel.a (`make lib`). Every call ends, takes any numbers, and tests its own input. A call that is refused
 * returns one of the numbers below, hands the board back as it was given (a refused tup_open: S = 0, no rows, no rules, no premises)
 * and writes nothing. No call keeps a pointer, allocates, or touches anything but what it is lent.
 *
 * What the caller must still honour, since no library can test it:
 * - a pointer is valid for as many elements as the count after it says (with a count of 0 it may be null);
 * - a pointer to a tup_stacks is valid, and never null;
 * - a table or a record that a call writes does not overlap another one lent to the same call.
 *
 * The clause table: row r, from 0, is the nine numbers from table + 9 * r on: one to eight literals with rising symbols, zeros after them up to the
 * eighth, and the number of the rule that the row is from. Rules are numbered from 1 in the order in which they were accepted since the board was
 * opened, those with no rows too. A table lends as many rows as its count divided by 9, and at most 2,048.
 *
 * Places of literals: +s has place 2(s-1), and -s the next one. Places of bytes: see tup_addition and tup_spelling. */
#ifndef TUPAHINEKA_H
#define TUPAHINEKA_H

#include <stddef.h>
#include <stdint.h>

#ifdef __cplusplus
extern "C" {
#endif

enum {
    TUP_MOST_SYMBOLS = 200,    /* S is from 1 to this */
    TUP_PLACES = 400,          /* two for each symbol */
    TUP_FURNACES = 2,          /* furnaces are numbered from 1 */
    TUP_ROW_WIDTH = 9,         /* numbers in a row of the clause table */
    TUP_ROW_LITERALS = 8,      /* of them places for literals; the last is the rule's number */
    TUP_MOST_ROWS = 2048,      /* rows used of a longer table */
    TUP_MOST_RULES = 32767,    /* rules accepted since the board was opened */
    TUP_MOST_CANDIDATES = 12,  /* literals that tup_smallest and tup_least may choose from */
    TUP_LEAST_POSITIONS = 2,   /* positions that a variable of tup_add_positions has at least, */
    TUP_MOST_POSITIONS = 7,    /* and at most */
    TUP_MOST_SETS = 4096,      /* no list that tup_smallest writes is longer */
    TUP_NONE = 65535,          /* no rank, no support, no row, no set */
    TUP_MOST_TEXT = 86031,     /* no text that tup_write_dimacs writes has more bytes */
    TUP_MOST_FORMULA = 98303,  /* no formula has more bytes */
    TUP_MOST_SPELLING = 196603 /* no text that tup_write_text writes has more bytes */
};

/* No place in a formula or a text: the largest size_t, which the place of a byte never is. */
#define TUP_NO_PLACE ((size_t)-1)

/* Numbers of the refusals; 0 is a call that is done. 14, a rank above 2S, was taken out, since no rank can exceed 2S: the number stays unused. */
enum {
    TUP_DONE = 0,
    TUP_BAD_BOARD = 1,        /* S outside 1 to 200, more than 32,767 rules, rows in use exceed rows lent, a premise of either furnace beyond S, or a
                               * row in use not sound: its literals, or a rule number outside 1 to the count of rules or below the row before's;
                               * in tup_push, tup_pop and tup_withdraw also where the stack of either furnace has more than 2S literals, one
                               * twice, or one that its furnace does not hold */
    TUP_BAD_LITERAL = 2,      /* a literal or symbol is 0 or beyond S; at open, the count is outside 1 to 200 */
    TUP_CUT_SHORT = 3,        /* the formula's bytes end where a kind or body is due */
    TUP_UNKNOWN_KIND = 4,     /* the byte where a kind is due is none */
    TUP_TOO_DEEP = 5,         /* an operand is due at depth 17 */
    TUP_BYTES_LEFT_OVER = 6,  /* bytes follow the complete formula */
    TUP_TOO_MANY_SYMBOLS = 7, /* more than 8 different symbols */
    TUP_NO_ASSIGNMENT = 8,    /* no assignment satisfies the rule; a pair table allows no pair */
    TUP_TABLE_FULL = 9,       /* rows in use plus its prime implicates exceed rows lent, or more than 32,767 rules would be counted */
    TUP_ALREADY_HELD = 10,
    TUP_NOT_HELD = 11,
    TUP_NOTHING_TO_SHOW = 12, /* explain: not derived, or held; ground: not derived; blame: no conflict */
    TUP_TABLE_TOO_SHORT = 13, /* a table to be written is shorter than stated */
    TUP_BAD_TEXT = 15,        /* DIMACS text that breaks the form, has not the header's number of clauses, or a literal beyond its variables;
                               * formula text that breaks its form, or opens a seventeenth bracket */
    TUP_BAD_FURNACE = 16,     /* a furnace number other than 1 or 2 */
    TUP_BAD_CANDIDATES = 17,  /* more than 12 candidates, or one given twice */
    TUP_CONFLICT_STAYS = 18,  /* least: withdrawing all of the candidates leaves the conflict */
    TUP_BAD_POSITIONS = 19,   /* a count of positions outside 2 to 7, or a pair table whose two variables share a symbol */
    TUP_EMPTY_STACK = 20,     /* pop: nothing is on the furnace's stack */
    TUP_STACKED = 21          /* withdraw: the premise is on the furnace's stack, and only tup_pop withdraws it */
};

/* How a literal stands: see tup_ask. */
enum { TUP_OPEN = 0, TUP_STANDS = 1, TUP_RULED_OUT = 2, TUP_CONFLICT = 3 };

/* A board: S, the rows of the clause table in use, the rules accepted since it was opened, and for each furnace and each place a byte, 0 where the
 * furnace does not hold the literal. Any bytes are taken. A call that is done and hands a board back writes its held bytes, of both furnaces, as 0
 * and 1, whatever bytes other than 0 it was given; a refused call hands back the very bytes that it was given. */
typedef struct tup_board {
    uint16_t symbols;
    uint16_t rows;
    uint16_t rules;
    uint8_t held[TUP_FURNACES][TUP_PLACES]; /* the premises of furnace f are held[f - 1] */
} tup_board;

/* The literals that a furnace holds on trial, in the order in which they were pushed: the top is literals[count - 1]. Places from `count` on say
 * nothing, and any bytes are taken there. A good tup_push writes its literal at the first of them, a good tup_pop 0 where its literal was, and a good
 * tup_open 0 in all places; the others stay as they were. So of two records that were all zeros, or as a good tup_open left them, and were changed by
 * these calls only, the bytes are the same just if the stacks are. */
typedef struct tup_stack {
    uint16_t count;
    int16_t literals[TUP_PLACES];
} tup_stack;

/* The stacks of both furnaces, kept by the caller beside the board. A refused call leaves every byte of it as it was. */
typedef struct tup_stacks {
    tup_stack of[TUP_FURNACES]; /* the stack of furnace f is of[f - 1] */
} tup_stacks;

typedef struct tup_change {
    uint8_t refusal;
    tup_board board;
} tup_change;

/* Where a formula breaks, for refusals 2 to 6 of tup_rule; the formula's first byte has place 0. For 2: the symbol's number. For 3: the missing
 * byte, so the count of bytes. For 4 and 5: where the operand was due. For 6: the first byte too many. For 3, and for 5 where no byte is left,
 * formula[place] is one past the end: do not read it. tup_rule_text tells the same of the bytes that its text spells, and for 15 a place in the text:
 * see tup_spelling. */
typedef struct tup_addition {
    uint8_t refusal;
    size_t place;   /* TUP_NO_PLACE where done, for refusals 1, 7, 8 and 9, and from tup_add_positions and tup_add_pairs always */
    uint16_t added; /* rows appended, from row board.rows of the board given on; 0 where refused */
    tup_board board;
} tup_addition;

/* Clauses count from 1: for refusals 2, 7, 8 and 9 the first clause at fault is number clauses + 1. */
typedef struct tup_reading {
    uint8_t refusal;
    uint16_t clauses; /* clauses before the first at fault: all of the text's where done; 0 for refusals 1 and 15 */
    uint16_t added;   /* rows appended, from row board.rows of the board given on; 0 where refused */
    tup_board board;
} tup_reading;

typedef struct tup_writing {
    uint8_t refusal;
    size_t bytes; /* bytes written, from the front on; 0 where refused */
} tup_writing;

/* What the calls for formula text tell. The place of 15 is in the text: the first byte that no text of the form can have there, or the count of
 * bytes where the text is cut short, when text[place] is one past the end: do not read it. The places of 2 to 6 are in the formula's bytes, as in
 * tup_addition, also where the text is what was given. */
typedef struct tup_spelling {
    uint8_t refusal;
    size_t place; /* TUP_NO_PLACE where done, and for refusals 1 and 13 */
    size_t bytes; /* bytes written, from the front on; 0 where refused */
} tup_spelling;

typedef struct tup_listing {
    uint8_t refusal;
    size_t count; /* sets written, from the front on; 0 where refused */
} tup_listing;

/* Look at the refusal before the set: where it is refused there is none, which is not the empty set. */
typedef struct tup_withdrawal {
    uint8_t refusal;
    uint16_t set; /* TUP_NONE, 65535, where refused */
} tup_withdrawal;

typedef struct tup_answer {
    uint8_t refusal;
    uint8_t standing; /* TUP_OPEN where refused */
} tup_answer;

/* Look at the refusal before computing table + 9 * row: a refused explain's row, 65535, would lead far outside the table. */
typedef struct tup_reason {
    uint8_t refusal;
    uint8_t literals; /* how many literals the supporting row has, at table + 9 * row; 0 where refused */
    uint16_t rank;    /* TUP_NONE, 65535, where refused */
    uint16_t row;     /* TUP_NONE, 65535, where refused */
    uint16_t rule;    /* the number of the rule that the row is from; 0 where refused */
} tup_reason;

/* Opens a board of S symbols with no rows in use, no rules counted and no premises of either furnace, and empties both stacks, whatever the record
 * held. Refused: 2; the stacks then stay as they were. */
tup_change tup_open(uint16_t symbols, tup_stacks *stacks);

/* Adds a rule, given in formula bytes: appends all its prime implicates, and no other row, to the table, each with the rule's number, which is the
 * count of rules in the board handed back. A rule that is always true has no rows and is counted. Refused: 1, 2 to 6 (each with its place), 7, 8,
 * 9. */
tup_addition tup_rule(tup_board board, int16_t *table, size_t numbers, const uint8_t *formula, size_t bytes);

/* Reads DIMACS CNF text and adds each clause as one rule, in order: the clause itself as a row, its literals by rising symbols and each once, or no
 * row where it has a literal and its opposite; it is counted either way. All of the text or nothing is added: the whole text is tested before the
 * table is written. The header may count more variables than S or fewer. Refused: 1; 15 for anything in the whole text; then for the first clause at
 * fault 2, 7, 8 (no literal) or 9, which counts the rows of the clauses before it, and these clauses as rules. */
tup_reading tup_read_dimacs(tup_board board, int16_t *table, size_t numbers, const uint8_t *text, size_t bytes);

/* Writes the rows in use as DIMACS CNF text: `p cnf`, S and the count of rows; then a line for each row in row order, single blanks, 0 last. Every
 * line ends with a line feed, and there is no byte 0 at the end. Rule numbers are left out: read back onto a new board, the literals of each row are
 * the same, and row r, from 0, is from rule r + 1. Refused: 1, 13 (the text is longer than `bytes`). */
tup_writing tup_write_dimacs(tup_board board, const int16_t *table, size_t numbers, uint8_t *text, size_t bytes);

/* Formulae in plain text. A unit is a symbol's number, `-` and a unit, or a chain in round brackets. A chain is a unit alone; units joined by `&`
 * only or by `|` only, grouped from the left; or two units joined by `>` (implies) or `=` (same). The whole text is a chain. Spaces may stand
 * anywhere but inside a number; leading zeros are taken; at most 16 brackets may be open at once. Depth is that of the formula's bytes: brackets
 * add none. The first two calls take 100 to 115 KB of stack, of any text (docs/GUIDE.md). */

/* Writes the bytes of the formula that a text spells. Refused: 1; 15 for anything in the whole text; then 2 (a number that is no symbol) or 5,
 * whichever the bytes meet first; 13 (they are more than `room`). */
tup_spelling tup_read_text(tup_board board, const int16_t *table, size_t numbers, const uint8_t *text, size_t length,
                           uint8_t *formula, size_t room);

/* Adds the rule that a text spells, exactly as tup_rule adds its bytes. Refused: 1; 15, with its place in the text; then 2 or 5, with its place in
 * the formula's bytes; 7, 8, 9. */
tup_addition tup_rule_text(tup_board board, int16_t *table, size_t numbers, const uint8_t *text, size_t length);

/* Writes a formula as text: brackets round each form of two operands but the whole, no blanks, no leading zeros, no byte 0 at the end. Read by
 * tup_read_text it gives the same bytes. Refused: 1, 2 to 6 (each with its place, as tup_rule gives them), 13 (the text is longer than `room`). */
tup_spelling tup_write_text(tup_board board, const int16_t *table, size_t numbers, const uint8_t *formula, size_t bytes,
                            uint8_t *text, size_t room);

/* Valves with several positions. A position variable is `count` consecutive symbols from `first` on, a symbol for each position, of which exactly one
 * is true; a pair table says which positions of two variables may stand together. On a board with only such rules, where no two variables share a
 * symbol, pair tables join entered variables and the premises of a furnace are of their symbols: the furnace is in conflict exactly when removing
 * positions without an allowed partner, repeated until none is left to remove, empties some variable; otherwise tup_ask rules out a position exactly
 * when it is removed. (A premise +s removes the other positions of its variable, -s its own.) */

/* Enters a position variable, as one rule: appends its prime implicates, which are that one position at least is taken and, of any two, that not both
 * are: count * (count - 1) / 2 + 1 rows. Refused: 1; 2 (the first symbol is 0 or beyond S, or the last one, first + count - 1, is beyond S); 19 (a
 * count outside 2 to 7); 9. */
tup_addition tup_add_positions(tup_board board, int16_t *table, size_t numbers, uint16_t first, uint16_t count);

/* Enters a pair table between two variables, wholly or not at all: for each position of the first, and then of the second, the clause that it is
 * false or some allowed position of the other is true, each as a rule of its own with one row, count + other_count in all. Bit 7i + j of `pairs`,
 * from the lowest, allows position i of the first with position j of the second, both from 0; other bits are ignored. The variables need not have
 * been entered. Refused: 1; 2 (of either variable, as above); 19 (of either variable, as above, or the two share a symbol); 8 (no pair is allowed);
 * 9. */
tup_addition tup_add_pairs(tup_board board, int16_t *table, size_t numbers, uint16_t first, uint16_t count,
                           uint16_t other_first, uint16_t other_count, uint64_t pairs);

/* The smallest sets of candidates that carry a literal. Writes a number for each set of candidates that, held alone under the rows in use, derives
 * the literal without conflict, while no smaller set inside it derives the literal, in conflict or not. Bit i of a set's number, from the lowest,
 * stands for candidates[i]. The sets are listed by size, then by number, each once; places beyond the list stay as they were. Premises held on the
 * board, of either furnace, don't count, and nothing is held or withdrawn. A list of no sets is a good answer: no set of the candidates carries the
 * literal. The one set 0 is the answer where the rows alone derive it. Where the rows alone are in conflict there is none. The candidates may be
 * none, and may have a literal and its opposite, or the literal to explain. Refused: 1; 2 for any literal given, of the candidates, however many, or
 * the one to explain; 17; 13 (the list is longer than `room`: TUP_MOST_SETS is always enough). */
tup_listing tup_smallest(tup_board board, const int16_t *table, size_t numbers, const int16_t *candidates, size_t candidate_count,
                         int16_t literal, uint16_t *sets, size_t room);

/* The calls below name a furnace: the first four change its premises, the others tell what these and the rules derive, and the last what to
 * withdraw. */

/* Puts a literal into the furnace's premises. Refused: 1, 16, 2, 10. */
tup_change tup_hold(tup_board board, const int16_t *table, size_t numbers, uint8_t furnace, int16_t literal);

/* Takes a literal out of the furnace's premises, unless it is on the furnace's stack. The record stays as it was. Refused: 1, 16, 2, 11, 21. */
tup_change tup_withdraw(tup_board board, const int16_t *table, size_t numbers, tup_stacks *stacks, uint8_t furnace, int16_t literal);

/* Try a reading and take it back. tup_push holds a literal for the furnace and puts it on top of its stack; tup_pop withdraws the top. Tries may be
 * nested, rules added and other literals held and withdrawn in between, and the furnaces take turns as they like: after a pop the furnace holds what
 * it held before the matching push, but for what was held and withdrawn since by tup_hold and tup_withdraw, and every answer is that of the premises
 * still held and the rules then in the table. Room on a stack never runs out. */

/* Refused: 1, 16, 2, 10 (the furnace holds the literal already, whether by tup_hold or by tup_push). */
tup_change tup_push(tup_board board, const int16_t *table, size_t numbers, tup_stacks *stacks, uint8_t furnace, int16_t literal);

/* The literal that is taken back is, before the call, stacks->of[furnace - 1].literals[count - 1]. Refused: 1, 16, 20. */
tup_change tup_pop(tup_board board, const int16_t *table, size_t numbers, tup_stacks *stacks, uint8_t furnace);

/* Writes S labels (0 neither literal derived, 1 only +s, 2 only -s, 3 both), 2S ranks and 2S supports. Each rank written is at most 2S, or TUP_NONE
 * for a literal that is not derived. Refused: 1, 16, 13. */
uint8_t tup_settle(tup_board board, const int16_t *table, size_t numbers, uint8_t furnace, uint8_t *labels, size_t label_count,
                   uint16_t *ranks, size_t rank_count, uint16_t *supports, size_t support_count);

/* How a literal stands at the furnace, by its own symbol: TUP_CONFLICT where the literal and its opposite are both derived, TUP_STANDS where only the
 * literal is, TUP_RULED_OUT where only the opposite is, TUP_OPEN where neither is. For +s that is the very number of the label of s that tup_settle
 * writes; for -s the same with 1 and 2 exchanged. A conflict of other symbols hides nothing: whatever rules are added and premises held, a literal
 * that stands goes on standing until its opposite is derived too, a premise is withdrawn for the furnace, or the board is opened anew. But what
 * stands while the furnace is in conflict may stand on a premise that is in conflict itself, or that a conflict stands on: tup_ground tells which
 * premises it stands on; tup_blame marks those of one conflict only. Refused: 1, 16, 2. */
tup_answer tup_ask(tup_board board, const int16_t *table, size_t numbers, uint8_t furnace, int16_t literal);

/* The same of the whole board: TUP_CONFLICT for every literal while the furnace is in conflict anywhere, and otherwise what tup_ask answers. Refused:
 * 1, 16, 2. */
tup_answer tup_ask_whole(tup_board board, const int16_t *table, size_t numbers, uint8_t furnace, int16_t literal);

/* Why a derived literal that is not held stands: its rank, from 1 to 2S, its supporting row, and the number of the rule that the row is from.
 * Refused: 1, 16, 2, 12. */
tup_reason tup_explain(tup_board board, const int16_t *table, size_t numbers, uint8_t furnace, int16_t literal);

/* Writes 2S bytes, 1 for each premise that the literal stands on, else 0. These are held, and they are enough: whichever premises that are not marked
 * are withdrawn for the furnace, any number of them, the literal keeps its rank, its supporting row and its ground, in conflict or not, as long as no
 * rule is added and no premise is held anew for the furnace. Refused: 1, 16, 2, 13, 12. */
uint8_t tup_ground(tup_board board, const int16_t *table, size_t numbers, uint8_t furnace, int16_t literal,
                   uint8_t *marks, size_t mark_count);

/* Writes 2S bytes, 1 for each premise that a conflict stands on, else 0: those reached by +s or -s, where of all symbols with label 3 s is the one
 * whose larger rank of its two literals is smallest, and of equals the lowest. The premises marked are in conflict by themselves: whatever else is
 * held, withdrawn or added, the furnace stays in conflict until one of them is withdrawn for it or the board is opened anew. Where nothing is
 * marked, the rules alone are in conflict. Refused: 1, 16, 13, 12. */
uint8_t tup_blame(tup_board board, const int16_t *table, size_t numbers, uint8_t furnace, uint8_t *marks, size_t mark_count);

/* The least to withdraw. Of the sets of candidates, all of them premises of the furnace, the smallest whose withdrawal ends the conflict, and of
 * equal size the one with the smallest number; bit i of the number, from the lowest, stands for candidates[i]. The empty set, 0, is the answer
 * exactly where there is no conflict. Nothing is withdrawn: with tup_withdraw for each candidate of the set, in any order, each is done, if none is
 * on the furnace's stack, and then the furnace is in no conflict. Of two smallest sets that end it the answer is the one without the last candidate
 * in which they differ: give first what is doubted most. tup_blame marks the premises of one conflict only: where there are several, these alone as
 * candidates may not be enough, and the answer is 18; give all that may be struck off. The candidates may be none. Refused: 1; 16; 2 for any of the
 * candidates, however many; 17; 11 (one is not held for the furnace); 18. */
tup_withdrawal tup_least(tup_board board, const int16_t *table, size_t numbers, uint8_t furnace, const int16_t *candidates,
                         size_t candidate_count);

#ifdef __cplusplus
}
#endif
#endif
