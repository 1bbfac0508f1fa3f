/* Boards to Ticket 13, "Valves with several positions": the rows that variables and pair tables add, and what follows from them, were worked out by
 * hand, and are held against the model and the library alike. */
#include "positiontries.h"

#include <string.h>

#include "tries.h"

enum { MOVES = 20, TRY_ROWS = 22 };

/* A call, for furnace 1 where it names one; its refusal, and what is told: the rows added, how a literal stands, or the rule of the reason. */
typedef struct Move {
    Kind kind;
    int value; /* S or a literal */
    Variable variables[2];
    uint64_t pairs;
    unsigned refusal, told;
} Move;

/* Moves until one that is all zeros, and at their end the rows in use, so many of them from this row on given. */
typedef struct Try {
    const char *words;
    Move moves[MOVES];
    unsigned rows, from;
    int16_t row[TRY_ROWS][WIDTH];
} Try;

#define OPENS(symbols) {.kind = OPEN, .value = symbols}
#define VARIABLE(first, count, rows) {.kind = POSITIONS, .variables = {{first, count}}, .told = rows}
#define VARIABLE_NOT(first, count, number) {.kind = POSITIONS, .variables = {{first, count}}, .refusal = number}
#define TABLE(first, count, other, others, allowed, rows) \
    {.kind = PAIRS, .variables = {{first, count}, {other, others}}, .pairs = allowed, .told = rows}
#define TABLE_NOT(first, count, other, others, allowed, number) \
    {.kind = PAIRS, .variables = {{first, count}, {other, others}}, .pairs = allowed, .refusal = number}
#define HOLDS(literal) {.kind = HOLD, .value = literal}
#define DROPS(literal) {.kind = WITHDRAW, .value = literal}
#define IS(literal, standing) {.kind = ASK, .value = literal, .told = standing}
#define ALL_ARE(standing) {.kind = ASK_WHOLE, .value = 1, .told = standing}
#define BY(literal, rule) {.kind = EXPLAIN, .value = literal, .told = rule}
#define FROM(rule, ...) {__VA_ARGS__, [RULE_PLACE] = rule}

/* The pair of position i of the first and j of the second. Some tables give their number outright instead. */
#define PAIR(i, j) (UINT64_C(1) << (7 * (i) + (j)))
#define SAME_OF_2 (PAIR(0, 0) | PAIR(1, 1))
#define OTHER_OF_2 (PAIR(0, 1) | PAIR(1, 0))
#define SAME_OF_3 (SAME_OF_2 | PAIR(2, 2))
#define OTHER_OF_3 (OTHER_OF_2 | PAIR(0, 2) | PAIR(2, 0) | PAIR(1, 2) | PAIR(2, 1))

static const Try tries[] = {
    /* the rows of variables */
    {"two positions, the clause with + first", {OPENS(2), VARIABLE(1, 2, 2)}, 2, 0, {FROM(1, 1, 2), FROM(1, -1, -2)}},
    {"three positions, the clause with + last", {OPENS(3), VARIABLE(1, 3, 4)}, 4, 0,
     {FROM(1, -1, -2), FROM(1, -1, -3), FROM(1, -2, -3), FROM(1, 1, 2, 3)}},
    {"four positions up to the last symbol", {OPENS(9), VARIABLE(6, 4, 7)}, 7, 0,
     {FROM(1, -6, -7), FROM(1, -6, -8), FROM(1, -6, -9), FROM(1, -7, -8), FROM(1, -7, -9), FROM(1, -8, -9), FROM(1, 6, 7, 8, 9)}},
    {"seven positions", {OPENS(8), VARIABLE(2, 7, 22)}, 22, 0,
     {FROM(1, -2, -3), FROM(1, -2, -4), FROM(1, -2, -5), FROM(1, -2, -6), FROM(1, -2, -7), FROM(1, -2, -8), FROM(1, -3, -4), FROM(1, -3, -5),
      FROM(1, -3, -6), FROM(1, -3, -7), FROM(1, -3, -8), FROM(1, -4, -5), FROM(1, -4, -6), FROM(1, -4, -7), FROM(1, -4, -8), FROM(1, -5, -6),
      FROM(1, -5, -7), FROM(1, -5, -8), FROM(1, -6, -7), FROM(1, -6, -8), FROM(1, -7, -8), FROM(1, 2, 3, 4, 5, 6, 7, 8)}},
    {"the last positions of all", {OPENS(200), VARIABLE(199, 2, 2), VARIABLE(196, 3, 4)}, 6, 0,
     {FROM(1, 199, 200), FROM(1, -199, -200), FROM(2, -196, -197), FROM(2, -196, -198), FROM(2, -197, -198), FROM(2, 196, 197, 198)}},
    {"a variable twice, and one that shares a symbol with it", {OPENS(3), VARIABLE(1, 2, 2), VARIABLE(1, 2, 2), VARIABLE(2, 2, 2)}, 6, 0,
     {FROM(1, 1, 2), FROM(1, -1, -2), FROM(2, 1, 2), FROM(2, -1, -2), FROM(3, 2, 3), FROM(3, -2, -3)}},
    {"a variable after refused ones", {OPENS(3), VARIABLE_NOT(1, 1, 19), VARIABLE_NOT(3, 2, 2), VARIABLE(2, 2, 2)}, 2, 0,
     {FROM(1, 2, 3), FROM(1, -2, -3)}},
    /* the rows of tables: bit 7i + j */
    {"bit 0, the first of either", {OPENS(4), TABLE(1, 2, 3, 2, 0x1, 4)}, 4, 0, {FROM(1, -1, 3), FROM(2, -2), FROM(3, 1, -3), FROM(4, -4)}},
    {"bit 1, the first with the other's second", {OPENS(4), TABLE(1, 2, 3, 2, 0x2, 4)}, 4, 0,
     {FROM(1, -1, 4), FROM(2, -2), FROM(3, -3), FROM(4, 1, -4)}},
    {"bit 7, the second with the other's first", {OPENS(4), TABLE(1, 2, 3, 2, 0x80, 4)}, 4, 0,
     {FROM(1, -1), FROM(2, -2, 3), FROM(3, 2, -3), FROM(4, -4)}},
    {"bit 2, of two and three positions", {OPENS(5), TABLE(1, 2, 3, 3, 0x4, 5)}, 5, 0,
     {FROM(1, -1, 5), FROM(2, -2), FROM(3, -3), FROM(4, -4), FROM(5, 1, -5)}},
    {"bit 14, of three and two positions", {OPENS(5), TABLE(1, 3, 4, 2, 0x4000, 5)}, 5, 0,
     {FROM(1, -1), FROM(2, -2), FROM(3, -3, 4), FROM(4, 3, -4), FROM(5, -5)}},
    {"bit 48, the seventh of either", {OPENS(14), TABLE(1, 7, 8, 7, UINT64_C(0x1000000000000), 14)}, 14, 0,
     {FROM(1, -1), FROM(2, -2), FROM(3, -3), FROM(4, -4), FROM(5, -5), FROM(6, -6), FROM(7, -7, 14), FROM(8, -8), FROM(9, -9), FROM(10, -10),
      FROM(11, -11), FROM(12, -12), FROM(13, -13), FROM(14, 7, -14)}},
    {"the first variable on the higher symbols", {OPENS(5), TABLE(4, 2, 1, 3, PAIR(0, 1) | PAIR(1, 0) | PAIR(1, 2), 5)}, 5, 0,
     {FROM(1, 2, -4), FROM(2, 1, 3, -5), FROM(3, -1, 5), FROM(4, -2, 4), FROM(5, -3, 5)}},
    {"symbols between the two", {OPENS(9), TABLE(2, 2, 7, 2, OTHER_OF_2, 4)}, 4, 0,
     {FROM(1, -2, 8), FROM(2, -3, 7), FROM(3, 3, -7), FROM(4, 2, -8)}},
    {"all bits", {OPENS(4), TABLE(1, 2, 3, 2, UINT64_MAX, 4)}, 4, 0, {FROM(1, -1, 3, 4), FROM(2, -2, 3, 4), FROM(3, 1, 2, -3), FROM(4, 1, 2, -4)}},
    {"bits that are ignored, and one that is not", {OPENS(4), TABLE(1, 2, 3, 2, PAIR(1, 1) | PAIR(2, 0) | PAIR(0, 2) | UINT64_C(3) << 62, 4)}, 4, 0,
     {FROM(1, -1), FROM(2, -2, 4), FROM(3, -3), FROM(4, 2, -4)}},
    {"a row of eight literals", {OPENS(9), TABLE(1, 2, 3, 7, 0x7F, 9)}, 9, 0,
     {FROM(1, -1, 3, 4, 5, 6, 7, 8, 9), FROM(2, -2), FROM(3, 1, -3), FROM(4, 1, -4), FROM(5, 1, -5), FROM(6, 1, -6), FROM(7, 1, -7), FROM(8, 1, -8),
      FROM(9, 1, -9)}},
    {"a row of eight literals, the last of them with -", {OPENS(9), TABLE(8, 2, 1, 7, 0x7F, 9)}, 9, 0,
     {FROM(1, 1, 2, 3, 4, 5, 6, 7, -8), FROM(2, -9), FROM(3, -1, 8), FROM(4, -2, 8), FROM(5, -3, 8), FROM(6, -4, 8), FROM(7, -5, 8), FROM(8, -6, 8),
      FROM(9, -7, 8)}},
    {"a table between two variables, and its rules numbered on", {OPENS(4), VARIABLE(1, 2, 2), TABLE(1, 2, 3, 2, SAME_OF_2, 4), VARIABLE(3, 2, 2)}, 8,
     0, {FROM(1, 1, 2), FROM(1, -1, -2), FROM(2, -1, 3), FROM(3, -2, 4), FROM(4, 1, -3), FROM(5, 2, -4), FROM(6, 3, 4), FROM(6, -3, -4)}},
    {"a table after refused ones",
     {OPENS(4), TABLE_NOT(1, 2, 3, 2, 0, 8), TABLE_NOT(1, 2, 2, 2, 1, 19), TABLE_NOT(1, 2, 4, 2, 1, 2), TABLE(1, 2, 3, 2, 0x1, 4)}, 4, 0,
     {FROM(1, -1, 3), FROM(2, -2), FROM(3, 1, -3), FROM(4, -4)}},
    {"the same table twice, the second time the other way round", {OPENS(4), TABLE(1, 2, 3, 2, 0x2, 4), TABLE(3, 2, 1, 2, 0x80, 4)}, 8, 0,
     {FROM(1, -1, 4), FROM(2, -2), FROM(3, -3), FROM(4, 1, -4), FROM(5, -3), FROM(6, 1, -4), FROM(7, -1, 4), FROM(8, -2)}},
    /* what follows */
    {"one variable of three positions",
     {OPENS(3), VARIABLE(1, 3, 4), IS(1, IS_OPEN), HOLDS(2), IS(1, RULED_OUT), IS(2, STANDS), IS(3, RULED_OUT), BY(-3, 1), DROPS(2), IS(3, IS_OPEN),
      HOLDS(-1), IS(3, IS_OPEN), HOLDS(-3), IS(2, STANDS), BY(2, 1), HOLDS(-2), ALL_ARE(IN_CONFLICT), DROPS(-1), IS(1, STANDS), ALL_ARE(STANDS)},
     4, 3, {FROM(1, 1, 2, 3)}},
    {"both signs of a position held", {OPENS(3), VARIABLE(1, 3, 4), HOLDS(2), HOLDS(-2), ALL_ARE(IN_CONFLICT), DROPS(2), ALL_ARE(IS_OPEN),
     IS(2, RULED_OUT), IS(3, IS_OPEN)}, 4, 3, {FROM(1, 1, 2, 3)}},
    {"two positions held at once", {OPENS(7), VARIABLE(1, 7, 22), HOLDS(2), HOLDS(7), ALL_ARE(IN_CONFLICT), DROPS(2), ALL_ARE(RULED_OUT),
     IS(7, STANDS), IS(2, RULED_OUT)}, 22, 21, {FROM(1, 1, 2, 3, 4, 5, 6, 7)}},
    {"two valves that may not be in the same position",
     {OPENS(6), VARIABLE(1, 3, 4), VARIABLE(4, 3, 4), TABLE(1, 3, 4, 3, OTHER_OF_3, 6), IS(4, IS_OPEN), HOLDS(1), IS(4, RULED_OUT), IS(5, IS_OPEN),
      IS(6, IS_OPEN), BY(-4, 6), HOLDS(-5), IS(6, STANDS), BY(6, 3), DROPS(1), IS(4, IS_OPEN), IS(6, IS_OPEN), IS(1, IS_OPEN), HOLDS(6),
      IS(3, RULED_OUT), IS(2, IS_OPEN)}, 14, 8, {FROM(3, -1, 5, 6)}},
    {"a position without a partner, of the first variable",
     {OPENS(5), VARIABLE(1, 3, 4), VARIABLE(4, 2, 2), TABLE(1, 3, 4, 2, SAME_OF_2, 5), IS(3, RULED_OUT), BY(-3, 5), IS(1, IS_OPEN), IS(4, IS_OPEN),
      HOLDS(-1), IS(2, STANDS), IS(4, RULED_OUT), IS(5, STANDS)}, 11, 8, {FROM(5, -3)}},
    {"a position without a partner, of the second variable",
     {OPENS(5), VARIABLE(1, 2, 2), VARIABLE(3, 3, 4), TABLE(1, 2, 3, 3, SAME_OF_2, 5), IS(5, RULED_OUT), BY(-5, 7), IS(3, IS_OPEN), IS(1, IS_OPEN),
      HOLDS(-3), IS(4, STANDS), IS(1, RULED_OUT), IS(2, STANDS)}, 11, 10, {FROM(7, -5)}},
    {"removed from the second side: a position whose only partner is struck off",
     {OPENS(6), VARIABLE(1, 3, 4), VARIABLE(4, 3, 4), TABLE(1, 3, 4, 3, SAME_OF_3 | PAIR(0, 1), 6), HOLDS(-3), IS(6, RULED_OUT), BY(-6, 8),
      IS(5, IS_OPEN), HOLDS(-2), IS(1, STANDS), IS(4, IS_OPEN), IS(5, IS_OPEN), HOLDS(-4), IS(5, STANDS)}, 14, 13, {FROM(8, 3, -6)}},
    {"a chain of four, one premise fixes all",
     {OPENS(8), VARIABLE(1, 2, 2), VARIABLE(3, 2, 2), VARIABLE(5, 2, 2), VARIABLE(7, 2, 2), TABLE(1, 2, 3, 2, OTHER_OF_2, 4),
      TABLE(5, 2, 3, 2, SAME_OF_2, 4), TABLE(5, 2, 7, 2, OTHER_OF_2, 4), IS(1, IS_OPEN), HOLDS(8), IS(7, RULED_OUT), IS(5, STANDS), IS(6, RULED_OUT),
      IS(3, STANDS), IS(4, RULED_OUT), IS(2, STANDS), IS(1, RULED_OUT), DROPS(8), ALL_ARE(IS_OPEN)}, 20, 20, {{0}}},
    {"a chain of tables that comes ahead of its variables",
     {OPENS(9), TABLE(1, 3, 4, 3, SAME_OF_3, 6), TABLE(4, 3, 7, 3, SAME_OF_3, 6), HOLDS(-7), HOLDS(-8), IS(1, RULED_OUT), IS(3, IS_OPEN),
      IS(9, IS_OPEN), VARIABLE(1, 3, 4), IS(3, STANDS), IS(6, STANDS), IS(9, STANDS), BY(3, 13), BY(6, 3), BY(9, 9), VARIABLE(4, 3, 4),
      VARIABLE(7, 3, 4), IS(9, STANDS), ALL_ARE(RULED_OUT)},
     24, 11, {FROM(12, 6, -9)}},
    {"an emptied variable, with nothing held", {OPENS(4), VARIABLE(1, 2, 2), VARIABLE(3, 2, 2), TABLE(1, 2, 3, 2, PAIR(0, 0), 4),
     ALL_ARE(STANDS), IS(3, STANDS), TABLE(1, 2, 3, 2, PAIR(1, 1), 4), ALL_ARE(IN_CONFLICT)}, 12, 11, {FROM(10, 2, -4)}},
    {"an emptied variable at the end of a chain",
     {OPENS(6), VARIABLE(1, 2, 2), VARIABLE(3, 2, 2), VARIABLE(5, 2, 2), TABLE(1, 2, 3, 2, SAME_OF_2, 4),
      TABLE(3, 2, 5, 2, PAIR(0, 0) | PAIR(0, 1), 4), ALL_ARE(STANDS), IS(4, RULED_OUT), IS(5, IS_OPEN), HOLDS(2), ALL_ARE(IN_CONFLICT),
      DROPS(2), ALL_ARE(STANDS), HOLDS(-1), ALL_ARE(IN_CONFLICT)}, 14, 13, {FROM(11, 3, -6)}},
    {"two tables that no choice fits, and nothing removed",
     {OPENS(4), VARIABLE(1, 2, 2), VARIABLE(3, 2, 2), TABLE(1, 2, 3, 2, SAME_OF_2, 4), TABLE(1, 2, 3, 2, OTHER_OF_2, 4), ALL_ARE(IS_OPEN),
      IS(4, IS_OPEN), HOLDS(1), ALL_ARE(IN_CONFLICT), DROPS(1), ALL_ARE(IS_OPEN), HOLDS(-3), ALL_ARE(IN_CONFLICT)}, 12, 11, {FROM(10, 1, -4)}},
    {"three valves of two positions, no two alike",
     {OPENS(6), VARIABLE(1, 2, 2), VARIABLE(3, 2, 2), VARIABLE(5, 2, 2), TABLE(1, 2, 3, 2, OTHER_OF_2, 4), TABLE(3, 2, 5, 2, OTHER_OF_2, 4),
      TABLE(5, 2, 1, 2, OTHER_OF_2, 4), ALL_ARE(IS_OPEN), HOLDS(6), ALL_ARE(IN_CONFLICT), DROPS(6), ALL_ARE(IS_OPEN)}, 18, 17, {FROM(15, -2, 5)}},
};

/* Plays a move; true if it came out as it was worked out, and a refused one left the board as it was. */
static bool move_agrees(Play *play, const Move *move) {
    Step step = try_step(move->kind, 1, move->value);
    for (unsigned v = 0; v < 2; v++) step.variables[v] = move->variables[v];
    step.pairs = move->pairs;
    if (!play_step(play, &step) || play->last.refusal != move->refusal) return false;
    if (move->refusal != 0) return memcmp(&play->given, &play->library_board, sizeof play->given) == 0 && play->last.added == 0;
    if (asks(move->kind)) return play->last.standing == move->told;
    if (move->kind == EXPLAIN) return play->last.rule == move->told;
    return !gives_variables(move->kind) || (play->last.added == move->told && play->last.place == NO_PLACE);
}

/* True if the moves of a try, and the rows at their end, come out as they were worked out. */
static bool try_agrees(Play *play, const Try *try) {
    play_start(play, 31, true);
    for (unsigned m = 0; m < MOVES && (m == 0 || try->moves[m].kind != OPEN); m++)
        if (!move_agrees(play, &try->moves[m])) return try_wrong(play, try->words, "call", m + 1);
    bool good = play->board.rows == try->rows;
    for (unsigned r = 0; r < TRY_ROWS && try->from + r < try->rows && try->row[r][0] != 0 && good; r++)
        good = try_has_row(play, try->from + r, try->row[r], (unsigned)try->row[r][RULE_PLACE]);
    return good || try_wrong(play, try->words, "rows in use", play->board.rows);
}

/* True if all boards come out as they were worked out. */
bool position_tries_agree(Play *play) {
    for (size_t i = 0; i < sizeof tries / sizeof tries[0]; i++)
        if (!try_agrees(play, &tries[i])) return false;
    return true;
}
