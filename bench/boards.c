/* The boards of the measure. */
#include "boards.h"

#include <string.h>

#include "plain.h"

enum { WIDTH = TUP_ROW_WIDTH, LITERALS = TUP_ROW_LITERALS };

static const uint8_t implication[] = {0x14, 0x10, 1, 0x10, 2};
static const uint8_t parity[] = {0x15, 0x15, 0x15, 0x15, 0x15, 0x15, 0x15, 0x10, 1, 0x10, 2, 0x10, 3, 0x10, 4, 0x10, 5, 0x10, 6, 0x10, 7, 0x10, 8};
setting now;

static uint64_t state;

/* A number from 0 to limit - 1; the same sequence for every board. */
static unsigned draw(unsigned limit) {
    state = state * UINT64_C(6364136223846793005) + UINT64_C(1442695040888963407);
    return (unsigned)((state >> 33) % limit);
}

/* An empty board. */
static void start(unsigned symbols) {
    memset(&now, 0, sizeof now);
    now.board.symbols = (uint16_t)symbols;
    now.literal = now.premise = 1;
    now.formula = implication;
    now.bytes = sizeof implication;
    state = 1;
}

/* The next row, from a rule of its own. */
static int16_t *add_row(void) {
    int16_t *row = now.table + WIDTH * now.board.rows++;
    row[LITERALS] = (int16_t)++now.board.rules;
    return row;
}

/* Adds a row of so many literals from symbol `from` on: all but one negated, as an implication has them. */
static void add_random_row(unsigned from, unsigned length) {
    int16_t *row = add_row();
    unsigned symbols = now.board.symbols - from + 1, head = draw(length), used = 0;
    for (unsigned i = 0; i < symbols && used < length; i++) {
        if (draw(symbols - i) >= length - used) continue;
        row[used] = (int16_t)(used == head ? from + i : -(from + i));
        used++;
    }
}

/* Adds the row -i, i+1. */
static void add_link(unsigned i) {
    int16_t *row = add_row();
    row[0] = (int16_t)-(int)i;
    row[1] = (int16_t)(i + 1);
}

/* The literal at a place. */
static int16_t literal_at(unsigned p) {
    return (int16_t)(p % 2 == 0 ? (int)(p / 2) + 1 : -(int)(p / 2) - 1);
}

/* Holds the literal at a place. */
static void hold(unsigned p) {
    now.board.held[FURNACE - 1][p] = 1;
    now.premise = literal_at(p);
}

/* Aims the calls for one literal at the derived literal of the highest rank. */
static void aim_high(void) {
    uint8_t labels[TUP_MOST_SYMBOLS];
    uint16_t ranks[TUP_PLACES], supports[TUP_PLACES];
    unsigned best = 0;
    plain_settle(now.board, now.table, NUMBERS, FURNACE, labels, TUP_MOST_SYMBOLS, ranks, TUP_PLACES, supports, TUP_PLACES);
    for (unsigned p = 0; p < 2u * now.board.symbols; p++) {
        if (ranks[p] == TUP_NONE || ranks[p] < best) continue;
        best = ranks[p];
        now.literal = literal_at(p);
    }
}

/* 200 symbols, 2,048 rows of 2 to 4 literals, 4 premises. For a rule one row is left free. */
void full_board(bool for_rule) {
    start(200);
    for (unsigned r = 0; r < TUP_MOST_ROWS - (for_rule ? 1u : 0u); r++) add_random_row(1, 2 + draw(3));
    for (unsigned s = 1; s <= 4; s++) hold(2 * (40 * s - 1));
    aim_high();
}

/* A chain over so many symbols, its first held. */
void chain(unsigned symbols) {
    start(symbols);
    for (unsigned i = 1; i < symbols; i++) add_link(i);
    hold(0);
    aim_high();
}

/* 2,048 rows of 8 literals over 200 symbols, every other symbol held. For a rule one row is left free. */
void long_rows(bool for_rule) {
    start(200);
    for (unsigned r = 0; r < TUP_MOST_ROWS - (for_rule ? 1u : 0u); r++) add_random_row(1, 8);
    for (unsigned s = 0; s < 200; s += 2) hold(2 * s);
    aim_high();
}

/* So many rows at nine rounds: rows of three literals that never fire, and a chain of eight links after them. */
void many_rows(unsigned rows) {
    start(200);
    while (now.board.rows + 8u < rows) add_random_row(20, 3);
    for (unsigned i = 1; i <= 8; i++) add_link(i);
    hold(0);
}

/* 150 rows of 2 to 4 literals over 45 symbols, the first four held, and as many for each further furnace: a board of the usual size, on which
 * rules fire. */
void typical(void) {
    start(45);
    while (now.board.rows < 150) add_random_row(1, 2 + draw(3));
    for (unsigned s = 1; s <= 4; s++) hold(2 * (s - 1));
    for (unsigned s = 5; s <= 4 * TUP_FURNACES; s++) now.board.held[(s - 1) / 4][2 * (s - 1)] = 1;
    aim_high();
}

/* An empty board of 200 symbols. */
void empty_board(void) {
    start(200);
}

/* Puts all premises of the furnace on its stack. */
void stack_premises(void) {
    tup_stack *stack = &now.stacks.of[FURNACE - 1];
    for (unsigned p = 0; p < 2u * now.board.symbols; p++)
        if (now.board.held[FURNACE - 1][p] != 0) stack->literals[stack->count++] = literal_at(p);
}

/* No rows, and all literals of 200 symbols held and stacked but one, which is left to be pushed. */
void deep_stack(void) {
    start(200);
    for (unsigned p = 0; p + 1 < TUP_PLACES; p++) hold(p);
    now.literal = literal_at(TUP_PLACES - 1);
    stack_premises();
}

/* Holds the opposite of the literal aimed at as well: a conflict, where that one is derived. */
void in_conflict(void) {
    now.board.held[FURNACE - 1][place(opposite(now.literal))] = 1;
}

/* An empty board and the parity of eight symbols. */
void parity_rule(void) {
    start(200);
    now.formula = parity;
    now.bytes = sizeof parity;
}

/* The rows of the board as text, and an empty board to read it onto. */
void as_text(void) {
    now.text_bytes = plain_write_dimacs(now.board, now.table, NUMBERS, now.text, sizeof now.text).bytes;
    unsigned symbols = now.board.symbols;
    memset(&now.board, 0, sizeof now.board);
    now.board.symbols = (uint16_t)symbols;
    memset(now.table, 0, sizeof now.table);
}

/* The text of so many rows of 2 to 4 literals. */
void text_of(unsigned rows) {
    start(200);
    while (now.board.rows < rows) add_random_row(1, 2 + draw(3));
    as_text();
}

/* Takes a literal to explain, and candidates. */
static void choose(int16_t literal, const int16_t candidates[TUP_MOST_CANDIDATES]) {
    now.literal = literal;
    memcpy(now.candidates, candidates, sizeof now.candidates);
}

/* The typical board with candidates, found by trying, of which 24 sets are listed, of two to five each; thirteen more end the search in conflict. */
void typical_sets(void) {
    static const int16_t candidates[TUP_MOST_CANDIDATES] = {2, -6, -7, 13, 14, 22, 23, 26, 29, 36, -40, 42};
    typical();
    choose(-24, candidates);
}

/* The full board with the twelve literals that derive nothing alone; any other derives nearly all of its sign. Three sets are listed, of two, three
 * and four; four more end the search in conflict. */
void full_sets(void) {
    static const int16_t candidates[TUP_MOST_CANDIDATES] = {-9, 12, -57, 67, -71, 72, 100, -119, 128, -151, 161, 167};
    full_board(false);
    choose(-67, candidates);
}

/* The first twelve symbols as candidates, and the opposite of the literal aimed at. On a board of implications they derive no negative literal, so
 * that no set is listed and none is in conflict: nothing ends the search. */
void no_sets(void) {
    static const int16_t candidates[TUP_MOST_CANDIDATES] = {1, 2, 3, 4, 5, 6, 7, 8, 9, 10, 11, 12};
    choose(opposite(now.literal), candidates);
}

/* Has the furnace hold candidates to withdraw, and nothing else. The conflict that is to last is one of its premises, beside which they are held. */
static void hold_candidates(const int16_t candidates[TUP_MOST_CANDIDATES], bool lasting) {
    if (lasting) in_conflict();
    else memset(now.board.held[FURNACE - 1], 0, sizeof now.board.held[FURNACE - 1]);
    memcpy(now.candidates, candidates, sizeof now.candidates);
    for (unsigned i = 0; i < TUP_MOST_CANDIDATES; i++) hold(place(candidates[i]));
}

/* Candidates for both boards, since both have implications only. Six literals and their opposites: one of each has to go, and the rest is in no
 * conflict where the positive ones go, as negative literals derive only such. Twelve positive literals, which derive only such: no conflict. Twelve
 * literals that are premises of neither board. */
static const int16_t opposites[TUP_MOST_CANDIDATES] = {1, -1, 2, -2, 3, -3, 4, -4, 5, -5, 6, -6};
static const int16_t positives[TUP_MOST_CANDIDATES] = {1, 2, 3, 4, 5, 6, 7, 8, 9, 10, 11, 12};
static const int16_t bystanders[TUP_MOST_CANDIDATES] = {13, 14, 15, 16, 17, 18, 19, 20, 21, 22, 23, 24};

/* The typical board with candidates to withdraw. Found by trying: one conflict, which stands on four of them; three conflicts, no two of which stand
 * on the same one; and, of some 600,000 tried, those of which a search by number, with the best so far kept, propagates most sets, 639. */
void typical_conflicts(unsigned kind) {
    static const int16_t one[TUP_MOST_CANDIDATES] = {7, 9, 12, 21, 22, 31, -32, 38, 40, 42, 43, 44};
    static const int16_t three[TUP_MOST_CANDIDATES] = {1, 7, 10, -12, 18, -20, 29, -35, 38, 39, 42, 43};
    static const int16_t many[TUP_MOST_CANDIDATES] = {1, 10, -13, 17, 19, 20, 24, 27, 28, 31, 37, -44};
    static const int16_t *const candidates[CONFLICTS] = {one, three, opposites, many, positives, bystanders};
    typical();
    hold_candidates(candidates[kind], kind == LASTING_CONFLICT);
}

/* The full board with candidates to withdraw, in the same way; one conflict is that of the literals that derive nothing alone, and of some 8,000
 * tried the most sets so propagated are 43, as nearly every literal derives nearly all of its sign. */
void full_conflicts(unsigned kind) {
    static const int16_t one[TUP_MOST_CANDIDATES] = {-9, 12, -57, 67, -71, 72, 100, -119, 128, -151, 161, 167};
    static const int16_t three[TUP_MOST_CANDIDATES] = {4, 5, -102, -105, 108, 132, -133, 139, 146, 191, 196, 200};
    static const int16_t many[TUP_MOST_CANDIDATES] = {5, 22, 51, 56, -67, 86, 98, 132, 156, 168, 172, -189};
    static const int16_t *const candidates[CONFLICTS] = {one, three, opposites, many, positives, bystanders};
    full_board(false);
    hold_candidates(candidates[kind], kind == LASTING_CONFLICT);
}
