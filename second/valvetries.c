/* Position variables and pair tables by which a call is refused: which refusal comes of each was worked out by hand from document 02's Ticket 13, and
 * is held against the model and the library alike, on a good board and on bad ones, without a row free and with rows to spare. Then the last free row
 * and the last rule. */
#include "positiontries.h"

#include <string.h>

#include "givenboard.h"
#include "tries.h"

enum { FEW_SYMBOLS = 14, SPARE = 3 };

/* What a call is given, and its refusal. Where the second variable is all zeros it is no pair table. */
typedef struct Given {
    Variable variables[2];
    uint64_t pairs;
    unsigned refusal;
} Given;

#define ONE(first, count, number) {{{first, count}, {0, 0}}, 0, number}
#define TWO(first, count, other, others, allowed, number) {{{first, count}, {other, others}}, allowed, number}

/* On the board of 7 symbols. */
static const Given given[] = {
    /* 2: the first symbol is 0 or beyond S, or the last one is beyond S, whatever the count */
    ONE(0, 2, 2), ONE(8, 2, 2), ONE(7, 2, 2), ONE(6, 3, 2), ONE(1, 8, 2), ONE(2, 7, 2), ONE(200, 2, 2), ONE(65535, 2, 2), ONE(65535, 65535, 2),
    ONE(1, 65535, 2), ONE(0, 0, 2), ONE(0, 1, 2), ONE(0, 8, 2), ONE(0, 65535, 2), ONE(8, 0, 2), ONE(8, 1, 2), ONE(65535, 0, 2), ONE(65535, 1, 2),
    /* 2: the last one too large for 16 bits, in which it would be 0 or more again */
    ONE(2, 65535, 2), ONE(3, 65534, 2), ONE(3, 65535, 2), ONE(7, 65535, 2), ONE(7, 65530, 2), ONE(257, 2, 2),
    /* 19: the count; a variable of none or one ends at S or below */
    ONE(7, 1, 19), ONE(7, 0, 19), ONE(1, 0, 19), ONE(1, 1, 19), ONE(3, 1, 19),
    /* 2: of the first variable, of the second, or of both */
    TWO(0, 2, 3, 2, 1, 2), TWO(1, 2, 0, 2, 1, 2), TWO(8, 2, 1, 2, 1, 2), TWO(1, 2, 8, 2, 1, 2), TWO(1, 2, 7, 2, 1, 2), TWO(6, 3, 1, 2, 1, 2),
    TWO(1, 2, 3, 6, 1, 2), TWO(1, 65535, 3, 2, 1, 2), TWO(1, 2, 3, 65535, 1, 2), TWO(65535, 65535, 65535, 65535, 1, 2), TWO(3, 65534, 1, 2, 1, 2),
    TWO(0, 2, 8, 2, 1, 2),
    /* 19: a count of either */
    TWO(1, 2, 3, 1, 1, 19), TWO(1, 1, 3, 2, 1, 19), TWO(1, 0, 3, 2, 1, 19), TWO(1, 2, 3, 0, 1, 19), TWO(1, 2, 7, 1, 1, 19), TWO(1, 1, 3, 1, 1, 19),
    TWO(7, 0, 7, 0, 1, 19), TWO(1, 0, 1, 2, 1, 19),
    /* 19: a symbol of both, all of them, one at either end, or one within the other */
    TWO(1, 2, 1, 2, 1, 19), TWO(1, 2, 2, 2, 1, 19), TWO(2, 2, 1, 2, 1, 19), TWO(1, 4, 2, 2, 1, 19), TWO(2, 2, 1, 4, 1, 19), TWO(1, 7, 1, 7, 1, 19),
    TWO(1, 3, 3, 5, 1, 19), TWO(3, 5, 1, 3, 1, 19), TWO(1, 7, 6, 2, 1, 19), TWO(1, 7, 1, 2, 1, 19), TWO(1, 2, 1, 7, 1, 19),
    /* 8: no bit, or none but ignored ones */
    TWO(1, 2, 3, 2, 0, 8), TWO(3, 2, 1, 2, 0, 8), TWO(1, 2, 3, 2, ~UINT64_C(0x183), 8), TWO(1, 2, 3, 2, UINT64_C(1) << 63, 8),
    TWO(1, 2, 3, 2, 0x4, 8), TWO(1, 2, 3, 2, 0x4000, 8), TWO(1, 2, 3, 5, 0x4060, 8), TWO(1, 5, 6, 2, 0x204, 8), TWO(1, 2, 3, 5, ~UINT64_C(0xF9F), 8),
    /* 2 ahead of 19, of the same variable or of the other one */
    TWO(1, 1, 8, 2, 1, 2), TWO(8, 2, 1, 1, 1, 2), TWO(1, 1, 7, 2, 1, 2), TWO(7, 2, 1, 1, 1, 2), TWO(1, 0, 0, 2, 1, 2), TWO(0, 2, 1, 0, 1, 2),
    TWO(1, 8, 1, 2, 1, 2), TWO(1, 2, 2, 7, 1, 2), TWO(7, 2, 7, 2, 1, 2), TWO(0, 0, 0, 0, 1, 2), TWO(1, 1, 1, 8, 1, 2),
    /* 2 and 19 ahead of 8 */
    TWO(8, 2, 1, 2, 0, 2), TWO(1, 2, 7, 2, 0, 2), TWO(1, 1, 3, 2, 0, 19), TWO(1, 2, 3, 1, 0, 19), TWO(1, 2, 2, 2, 0, 19), TWO(1, 2, 1, 2, 0, 19),
    TWO(1, 1, 3, 2, 0x80, 19),
};

/* On a board of 200 symbols; some are done. */
static const Given wide[] = {
    ONE(1, 8, 19), ONE(193, 8, 19), ONE(194, 8, 2), ONE(1, 9, 19), ONE(1, 200, 19), ONE(1, 201, 2), ONE(2, 200, 2), ONE(200, 1, 19), ONE(200, 0, 19),
    ONE(200, 2, 2), ONE(201, 0, 2), ONE(201, 2, 2), ONE(199, 2, 0), ONE(194, 7, 0), ONE(195, 7, 2), ONE(1, 7, 0), ONE(1, 2, 0), ONE(1, 255, 2),
    ONE(1, 256, 2), ONE(1, 258, 2), ONE(1, 65535, 2), ONE(200, 65337, 2), ONE(200, 65338, 2), ONE(257, 2, 2), ONE(0, 7, 2),
    TWO(1, 8, 100, 2, 1, 19), TWO(100, 2, 1, 8, 1, 19), TWO(1, 8, 194, 8, 1, 2), TWO(194, 8, 1, 8, 1, 2), TWO(1, 7, 8, 7, 1, 0),
    TWO(8, 7, 1, 7, 1, 0), TWO(1, 7, 7, 7, 1, 19), TWO(194, 7, 187, 7, 1, 0), TWO(194, 7, 188, 7, 1, 19), TWO(199, 2, 197, 2, 1, 0),
    TWO(199, 2, 198, 2, 1, 19), TWO(199, 2, 200, 2, 1, 2), TWO(1, 7, 8, 7, UINT64_C(1) << 48, 0), TWO(1, 7, 8, 7, UINT64_C(1) << 49, 8),
    TWO(1, 200, 1, 200, 0, 19), TWO(1, 200, 2, 200, 0, 2), TWO(1, 258, 100, 2, 1, 2), TWO(257, 2, 1, 2, 1, 2),
};

/* Rows that a variable of so many positions adds, from two on. */
static const unsigned rows_of[] = {2, 4, 7, 11, 16, 22};

/* The call that is given so. */
static Step call_of(const Given *it) {
    Step step = {.kind = it->variables[1].first == 0 && it->variables[1].count == 0 && it->pairs == 0 ? POSITIONS : PAIRS, .numbers = TABLE_LENDABLE,
                 .pairs = it->pairs, .noise = 41};
    for (unsigned v = 0; v < 2; v++) step.variables[v] = it->variables[v];
    return step;
}

/* True if the last call was refused so, told no place and no row, and handed back the board that it was given; or was done. */
static bool came_out(const Play *play, unsigned refusal) {
    if (play->last.refusal != refusal || play->library_last.place != NO_PLACE) return false;
    return refusal == 0 || (play->library_last.added == 0 && memcmp(&play->given, &play->library_board, sizeof play->given) == 0);
}

/* Every call by hand on the good board, also where all rules are counted, and 1 for each of them on every bad one. */
static bool given_agree(Play *play) {
    for (size_t i = 0; i < sizeof given / sizeof given[0]; i++) {
        Step step = call_of(&given[i]);
        bool good = given_open(play) && given_refuses(play, step, given[i].refusal) && came_out(play, given[i].refusal);
        try_act(play, SET_RULES, 0, MOST_RULES);
        if (!good || !play_step(play, &step) || !came_out(play, given[i].refusal))
            return try_wrong(play, "positions given", "call", (unsigned)i + 1);
    }
    return true;
}

/* Every call by hand on the board of 200 symbols. */
static bool wide_agree(Play *play) {
    for (size_t i = 0; i < sizeof wide / sizeof wide[0]; i++) {
        Step step = call_of(&wide[i]);
        play_start(play, 32, true);
        if (!try_call(play, OPEN, 0, MOST_SYMBOLS, 0) || !play_step(play, &step) || !came_out(play, wide[i].refusal))
            return try_wrong(play, "positions given of 200 symbols", "call", (unsigned)i + 1);
    }
    return true;
}

/* A call on a board with so many rules counted, over two rows of the caller's, with so many rows lent besides and some numbers more; true if it comes
 * out so. */
static bool fits(Play *play, Step step, unsigned rules, unsigned rows, unsigned more, unsigned refusal) {
    play_start(play, 33 + rows % 2, true);
    bool good = try_call(play, OPEN, 0, FEW_SYMBOLS, 0);
    for (unsigned r = 0; r < 2; r++) try_row(play, (int16_t[ROW_LITERALS]){-1, 14});
    try_act(play, SET_RULES, 0, (int)rules);
    step.numbers = WIDTH * (2 + rows) + more;
    return good && play_step(play, &step) && came_out(play, refusal) && play->board.rows == 2 + (refusal == 0 ? play->last.added : 0);
}

/* 9 for every number of rows lent and of rules counted that is too small for a call which needs so many, and done for the first that is not. */
static bool room_agrees(Play *play, Step step, unsigned rows, unsigned rules) {
    for (unsigned lent = 0; lent < rows; lent++)
        if (!fits(play, step, 2, lent, WIDTH - 1, 9) || !fits(play, step, 2, lent, 0, 9)) return false;
    for (unsigned missing = 1; missing <= rules; missing++)
        if (!fits(play, step, MOST_RULES - rules + missing, rows, 0, 9)) return false;
    return fits(play, step, 2, rows, 0, 0) && fits(play, step, 2, rows, WIDTH - 1, 0) && fits(play, step, 2, rows + SPARE, 0, 0) &&
           fits(play, step, MOST_RULES - rules, rows, 0, 0) && play->board.rules == MOST_RULES && fits(play, step, MOST_RULES, rows - 1, 0, 9) &&
           fits(play, step, MOST_RULES - rules + 1, rows - 1, 0, 9);
}

/* The last free row and the last rule, for variables of every count and tables between variables of every two. */
static bool rooms_agree_by_count(Play *play) {
    for (unsigned its = LEAST_POSITIONS; its <= MOST_POSITIONS; its++) {
        Step step = {.kind = POSITIONS, .variables = {{3, its}}};
        if (!room_agrees(play, step, rows_of[its - LEAST_POSITIONS], 1)) return try_wrong(play, "the last free row, a variable", "of", its);
        for (unsigned others = LEAST_POSITIONS; others <= MOST_POSITIONS; others++) {
            step = (Step){.kind = PAIRS, .variables = {{8, its}, {1, others}}, .pairs = UINT64_MAX};
            if (!room_agrees(play, step, its + others, its + others)) return try_wrong(play, "the last free row, a table", "first of", its);
        }
    }
    return true;
}

/* Rows up to the 2,048th, with more lent: four are free, or three, and the last row is filled or the whole table refused. */
static bool last_rows_agree(Play *play) {
    for (unsigned missing = 0; missing < 2; missing++) {
        Step table = {.kind = PAIRS, .variables = {{1, 2}, {3, 2}}, .pairs = 1, .numbers = TABLE_LENDABLE};
        Step variable = {.kind = POSITIONS, .variables = {{1, 3}}, .numbers = TABLE_LENDABLE};
        for (unsigned i = 0; i < 2; i++) {
            play_start(play, 35, true);
            bool good = try_call(play, OPEN, 0, FEW_SYMBOLS, 0);
            for (unsigned r = 0; r < MOST_ROWS - 4 + missing; r++) try_row(play, (int16_t[ROW_LITERALS]){-1, 14});
            good = good && play_step(play, i == 0 ? &table : &variable) && came_out(play, missing == 0 ? 0 : 9);
            good = good && play->board.rows == (missing == 0 ? MOST_ROWS : MOST_ROWS - 3);
            if (!good) return try_wrong(play, "the last row of all", "missing", missing);
        }
    }
    return true;
}

/* Bytes beyond 1 among the premises of both furnaces, at both signs of a symbol: a refused call hands them back, and one that is done writes them as
 * 1. A variable and then a table, each refused and then done. */
static bool odd_bytes_agree(Play *play) {
    static const Given calls[] = {ONE(1, 1, 19), ONE(1, 2, 0), TWO(1, 2, 3, 2, 0, 8), TWO(1, 2, 3, 2, 1, 0)};
    bool good = true;
    play_start(play, 36, true);
    for (unsigned i = 0; i < 4 && good; i++) {
        Step step = call_of(&calls[i]);
        good = i % 2 == 1 || try_call(play, OPEN, 0, FEW_SYMBOLS, 0);
        for (unsigned n = 0; n < 2 * FURNACES; n++) play_step(play, &(Step){.kind = SET_HELD, .furnace = 1 + n / 2, .place = 8 + n % 2, .value = 7});
        good = good && play_step(play, &step) && came_out(play, calls[i].refusal);
        for (unsigned n = 0; n < 2 * FURNACES; n++) good = good && play->library_board.held[n / 2][8 + n % 2] == (i % 2 == 0 ? 7 : 1);
    }
    return good || try_wrong(play, "bytes beyond 1, variables and tables", "symbol", 5);
}

/* True if all calls come out as they were worked out. */
bool valve_tries_agree(Play *play) {
    return given_agree(play) && wide_agree(play) && rooms_agree_by_count(play) && last_rows_agree(play) && odd_bytes_agree(play);
}
