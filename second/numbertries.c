/* Rule numbers, counts of rules and lengths of the table that the caller chose: which of them make a good board by document 02's Ticket 8, and how
 * many rows they lend, was worked out by hand, or is told here by that ticket's sentence alone. Held against the model and the library alike. */
#include <stdio.h>
#include <string.h>

#include "longtext.h"
#include "ruletries.h"
#include "tries.h"

enum { FEW_ROWS = 3 };

/* Lengths of the table, and the rows that they lend. */
static const struct {
    size_t numbers;
    unsigned rows;
} lengths[] = {{0, 0}, {1, 0}, {8, 0}, {9, 1}, {10, 1}, {16, 1}, {17, 1}, {18, 2}, {26, 2}, {27, 3}, {64, 7}, {71, 7}, {72, 8}, {80, 8}, {81, 9},
               {9 * 2048 - 1, 2047}, {9 * 2048, 2048}, {9 * 2048 + 8, 2048}, {9 * 2049, 2048}};

/* Plays a rule from formula text with so many numbers lent; false where the sides differ or the refusal is another. */
static bool add_rule(Play *play, const char *text, size_t numbers, unsigned refusal) {
    Step step = {.kind = TEXT_RULE, .text = (const uint8_t *)text, .bytes = strlen(text), .standing = strlen(text), .numbers = numbers};
    return play_step(play, &step) && play->last.refusal == refusal;
}

/* Reads a text of so many clauses, each of them a row; false where the sides differ or it is refused. */
static bool read_rows(Play *play, size_t numbers, unsigned rows) {
    char header[24];
    snprintf(header, sizeof header, "p cnf 1 %u\n", rows);
    start_with(header), add("1 0\n", rows);
    Step step = {.kind = READ, .text = long_text, .bytes = long_length, .standing = long_length, .numbers = numbers};
    return play_step(play, &step) && play->last.refusal == 0;
}

/* As many rows fit as the length lends, and no more; with a number too few for the rows in use the board is none. */
static bool length_agrees(Play *play, size_t numbers, unsigned rows) {
    play_start(play, 14, true);
    bool good = try_call(play, OPEN, 0, 1, 0) && read_rows(play, numbers, rows) && add_rule(play, "1", numbers, 9) &&
                add_rule(play, "1=1", numbers, 0) && add_rule(play, "1", numbers, 9) && play->board.rows == rows && play->board.rules == rows + 1;
    Step ask = try_step(ASK, 1, 1);
    for (ask.numbers = numbers; ask.numbers + WIDTH > numbers && good; ask.numbers--) {
        good = play_step(play, &ask) && play->last.refusal == (ask.numbers < WIDTH * rows ? 1 : 0);
        if (ask.numbers == 0) break;
    }
    return good || try_wrong(play, "the rows that a length lends", "numbers", (unsigned)numbers);
}

/* Rule numbers of the first three rows, so many of them in use, under a count: whether the board is good. */
typedef struct Numbers {
    unsigned rules, rows;
    int number[FEW_ROWS];
    bool good;
} Numbers;

static const Numbers by_hand[] = {
    /* no row in use */
    {0, 0, {1, 1, 1}, true}, {32767, 0, {0, 0, 0}, true}, {32768, 0, {1, 1, 1}, false}, {65535, 0, {1, 1, 1}, false},
    /* one row in use */
    {1, 1, {1, 1, 1}, true}, {1, 1, {1, 0, -1}, true}, {2, 1, {1, 1, 1}, true}, {2, 1, {2, 1, 1}, true}, {32767, 1, {1, 1, 1}, true},
    {32767, 1, {32767, 1, 1}, true}, {32766, 1, {32767, 1, 1}, false}, {32768, 1, {1, 1, 1}, false}, {65535, 1, {1, 1, 1}, false},
    {0, 1, {1, 1, 1}, false}, {1, 1, {0, 1, 1}, false}, {1, 1, {-1, 1, 1}, false}, {1, 1, {2, 1, 1}, false}, {32767, 1, {0, 1, 1}, false},
    {32767, 1, {-1, 1, 1}, false}, {32767, 1, {-32768, 1, 1}, false}, {32767, 1, {-32767, 1, 1}, false},
    /* two rows in use */
    {1, 2, {1, 1, 1}, true}, {2, 2, {1, 2, 1}, true}, {3, 2, {1, 3, 1}, true}, {2, 2, {2, 2, 1}, true}, {32767, 2, {32766, 32767, 1}, true},
    {2, 2, {2, 1, 1}, false}, {1, 2, {1, 2, 1}, false}, {3, 2, {3, 2, 1}, false}, {2, 2, {1, 0, 1}, false}, {2, 2, {0, 1, 1}, false},
    {2, 2, {0, 0, 1}, false}, {2, 2, {-1, 1, 1}, false}, {2, 2, {1, -1, 1}, false}, {2, 2, {-2, -1, 1}, false},
    {32767, 2, {32767, 32766, 1}, false},
    /* three rows in use */
    {3, 3, {1, 2, 3}, true}, {3, 3, {1, 1, 1}, true}, {3, 3, {3, 3, 3}, true}, {3, 3, {2, 3, 3}, true}, {300, 3, {44, 257, 300}, true},
    {3, 3, {1, 3, 2}, false}, {3, 3, {2, 1, 3}, false}, {3, 3, {3, 1, 2}, false}, {2, 3, {1, 2, 3}, false}, {300, 3, {257, 256, 300}, false},
    {256, 3, {1, 255, 257}, false},
};

/* The caller writes the numbers, the count and the rows in use. */
static void write_numbers(Play *play, const Numbers *numbers) {
    try_act(play, SET_ROWS, 0, (int)numbers->rows);
    try_act(play, SET_RULES, 0, (int)numbers->rules);
    for (unsigned r = 0; r < FEW_ROWS; r++) try_act(play, SET_NUMBER, WIDTH * r + RULE_PLACE, numbers->number[r]);
}

/* Makes a call over these numbers: 1 if the board is not good, something else if it is. */
static bool call_agrees(Play *play, const Numbers *numbers, Kind kind, unsigned furnace) {
    Step step = try_lent(kind, furnace, 1, 20);
    write_numbers(play, numbers);
    return play_step(play, &step) && (play->last.refusal != 1) == numbers->good;
}

/* Opens a board of few rows: 1 or 2; if 1 then 2; if 2 then 1. */
static bool open_few(Play *play) {
    static const int16_t rows[FEW_ROWS][ROW_LITERALS] = {{1, 2}, {-1, 2}, {1, -2}};
    play_start(play, 15, true);
    bool good = try_call(play, OPEN, 0, 2, 0);
    for (unsigned r = 0; r < FEW_ROWS; r++) try_row(play, rows[r]);
    return good;
}

/* Numbers and counts worked out by hand, for every call but open; for those that name a furnace, for a number that is none's as well, where 1 is
 * ahead of 16. */
static bool few_rows_agree(Play *play) {
    for (unsigned i = 0; i < sizeof by_hand / sizeof by_hand[0]; i++) {
        bool good = open_few(play);
        for (Kind kind = RULE; kind < CALLS; kind++)
            for (unsigned furnace = 1; furnace <= (names_furnace(kind) ? 3 : 1); furnace++)
                good = good && call_agrees(play, &by_hand[i], kind, furnace);
        if (!good) return try_wrong(play, "rule numbers worked out by hand", "board", i + 1);
    }
    return true;
}

/* True if the numbers are from 1 to the count, which is at most 32,767, and none is below the one before it. */
static bool numbers_are_good(const Numbers *numbers) {
    bool good = numbers->rules <= 32767;
    for (unsigned r = 0; r < numbers->rows; r++) {
        int least = r == 0 ? 1 : numbers->number[r - 1];
        good = good && numbers->number[r] >= 1 && numbers->number[r] >= least && numbers->number[r] <= (int)numbers->rules;
    }
    return good;
}

/* All numbers of up to three rows, from a list, under all counts of a list; the calls take turns. Where the later numbers are the first of the list,
 * fewer rows are tried as well, so that each of theirs comes once. */
static bool all_numbers_agree(Play *play) {
    static const int some[] = {-32768, -1, 0, 1, 2, 3, 256, 32766, 32767};
    static const unsigned counts[] = {0, 1, 2, 3, 256, 32766, 32767, 32768, 65535};
    enum { SOME = 9, ALL = SOME * SOME * SOME };
    unsigned turn = 0;
    bool good = open_few(play);
    for (unsigned i = 0; i < SOME * ALL; i++) {
        unsigned first = i % SOME, second = i / SOME % SOME, third = i / SOME / SOME % SOME;
        Numbers numbers = {.rules = counts[i / ALL], .number = {some[first], some[second], some[third]}};
        for (numbers.rows = third == 0 ? second == 0 ? 0 : 2 : 3; numbers.rows <= FEW_ROWS && good; numbers.rows++) {
            numbers.good = numbers_are_good(&numbers);
            good = call_agrees(play, &numbers, (Kind)(RULE + turn % (CALLS - RULE)), 1 + turn % FURNACES);
            turn++;
        }
    }
    return good || try_wrong(play, "all rule numbers of three rows", "call", turn);
}

/* True if all numbers and lengths come out as they were worked out. */
bool number_tries_agree(Play *play) {
    for (size_t i = 0; i < sizeof lengths / sizeof lengths[0]; i++)
        if (!length_agrees(play, lengths[i].numbers, lengths[i].rows)) return false;
    return few_rows_agree(play) && all_numbers_agree(play);
}
