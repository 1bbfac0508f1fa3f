/* The boards to try of document 01, with ask by symbol and its old answer as document 02's Ticket 11 has them, and the places of Ticket 1: what they
 * say of each, held against the model and the library alike. The first rule of a board has number 1, by Ticket 8. */
#include "document.h"

#include "tries.h"

/* A rule to try: its bytes, the refusal and its place, and the rows. */
typedef struct Try {
    const char *words;
    const char *bytes;
    size_t length;
    unsigned refusal;
    size_t place;
    unsigned rows;
    int16_t row[3][ROW_LITERALS];
} Try;

/* The longest formula with another end: its last symbol's two bytes, the bytes given, the refusal and its place. */
typedef struct End {
    const char *words;
    uint8_t kind, number;
    size_t length;
    unsigned refusal;
    size_t place;
} End;

/* 32,768 symbols at depth 16 and the 32,767 kinds above them. */
enum { LONGEST = 98303 };

#define BYTES(text) text, sizeof text - 1
#define NOTS_5 "\x11\x11\x11\x11\x11"
#define SEVEN_OR "\x13\x13\x13\x13\x13\x13\x13\x10\x01\x10\x02\x10\x03\x10\x04\x10\x05\x10\x06\x10\x07\x10\x08"

static const Try tries[] = {
    {"1 and not 1", BYTES("\x12\x10\x01\x11\x10\x01"), 8, NO_PLACE, 0, {{0}}},
    {"1 or not 1", BYTES("\x13\x10\x01\x11\x10\x01"), 0, NO_PLACE, 0, {{0}}},
    {"(1 implies 2) and (1 or 2)", BYTES("\x12\x14\x10\x01\x10\x02\x13\x10\x01\x10\x02"), 0, NO_PLACE, 1, {{2}}},
    {"1 same 2", BYTES("\x15\x10\x01\x10\x02"), 0, NO_PLACE, 2, {{1, -2}, {-1, 2}}},
    {"(1 or 2) and (not 1 or 3)", BYTES("\x12\x13\x10\x01\x10\x02\x13\x11\x10\x01\x10\x03"), 0, NO_PLACE, 3, {{1, 2}, {-1, 3}, {2, 3}}},
    {"1 or (1 and 2)", BYTES("\x13\x10\x01\x12\x10\x01\x10\x02"), 0, NO_PLACE, 1, {{1}}},
    {"fifteen nots and 1", BYTES(NOTS_5 NOTS_5 NOTS_5 "\x10\x01"), 0, NO_PLACE, 1, {{-1}}},
    {"sixteen nots", BYTES(NOTS_5 NOTS_5 NOTS_5 "\x11"), 5, 16, 0, {{0}}},
    {"eight symbols", BYTES(SEVEN_OR), 0, NO_PLACE, 1, {{1, 2, 3, 4, 5, 6, 7, 8}}},
    {"nine symbols", BYTES("\x13" SEVEN_OR "\x10\x09"), 7, NO_PLACE, 0, {{0}}},
    {"1 implies a symbol without its number", BYTES("\x14\x10\x01\x10"), 3, 4, 0, {{0}}},
    {"1 implies nothing", BYTES("\x14\x10\x01"), 3, 3, 0, {{0}}},
    {"1 and an unknown kind", BYTES("\x12\x10\x01\x99"), 4, 3, 0, {{0}}},
    {"1 or symbol 0", BYTES("\x13\x10\x01\x10\x00"), 2, 4, 0, {{0}}},
    {"1 and a byte too many", BYTES("\x10\x01\x10"), 6, 2, 0, {{0}}},
    {"1 and a formula too many", BYTES("\x10\x01\x11\x10\x02"), 6, 2, 0, {{0}}},
    {"no bytes at all", BYTES(""), 3, 0, 0, {{0}}},
};

static const End ends[] = {
    {"the longest formula", 0x10, 1, LONGEST, 0, NO_PLACE},
    {"the longest formula, its last symbol beyond S", 0x10, 10, LONGEST, 2, LONGEST - 1},
    {"the longest formula without its last byte", 0x10, 1, LONGEST - 1, 3, LONGEST - 1},
    {"the longest formula without its last symbol", 0x10, 1, LONGEST - 2, 3, LONGEST - 2},
    {"the longest formula, its last kind unknown", 0x16, 1, LONGEST, 4, LONGEST - 2},
    {"the longest formula with not for its last symbol", 0x11, 1, LONGEST, 5, LONGEST - 1},
    {"the longest formula and a byte too many", 0x10, 1, LONGEST + 1, 6, LONGEST},
};

/* Says which board the documents and the program disagree on. */
static bool wrong(const Play *play, const char *words) {
    return try_wrong(play, words, "furnace", 1);
}

/* Plays one call for furnace 1; false where the sides differ or the refusal is another. */
static bool make(Play *play, Kind kind, int value, unsigned refusal) {
    return try_call(play, kind, 1, value, refusal);
}

/* Plays one rule with so many numbers lent; false where the sides differ, or the refusal or its place is another. */
static bool make_rule(Play *play, const void *bytes, size_t length, size_t numbers, unsigned refusal, size_t place) {
    Step step = {.kind = RULE, .numbers = numbers, .formula = bytes, .bytes = length, .standing = length};
    return play_step(play, &step) && play->last.refusal == refusal && play->last.place == place;
}

/* Plays one rule that is done. */
static bool add_rule(Play *play, const char *bytes, size_t length) {
    return make_rule(play, bytes, length, TABLE_LENDABLE, 0, NO_PLACE);
}

/* Plays both calls that ask; true if ask answers so, and the call for the whole board as given after it. */
static bool ask_both(Play *play, int literal, unsigned standing, unsigned whole) {
    return make(play, ASK, literal, 0) && play->last.standing == standing && make(play, ASK_WHOLE, literal, 0) && play->last.standing == whole;
}

/* The same where there is no conflict: both answer alike. */
static bool ask(Play *play, int literal, unsigned standing) {
    return ask_both(play, literal, standing, standing);
}

/* Tries one rule: its rows, then just the rows it needs, then one number less. */
static bool try_rule(Play *play, const Try *try) {
    size_t needed = WIDTH * try->rows;
    play_start(play, 1, true);
    bool good = make(play, OPEN, 9, 0) && make_rule(play, try->bytes, try->length, TABLE_LENDABLE, try->refusal, try->place) &&
                play->board.rows == try->rows && play->board.rules == (try->refusal == 0 ? 1 : 0);
    for (unsigned r = 0; r < try->rows; r++) good = good && try_has_row(play, r, try->row[r], 1);
    good = good && make(play, OPEN, 9, 0) && make_rule(play, try->bytes, try->length, needed, try->refusal, try->place) &&
           make(play, OPEN, 9, 0) && (needed == 0 || make_rule(play, try->bytes, try->length, needed - 1, 9, NO_PLACE));
    return good || wrong(play, try->words);
}

/* Writes the formula that has symbols at the given depth and "and" everywhere above; returns its length. */
static size_t write_full(uint8_t *bytes, unsigned depth) {
    if (depth == 1) {
        bytes[0] = 0x10;
        bytes[1] = 1;
        return 2;
    }
    bytes[0] = 0x12;
    size_t first = 1 + write_full(bytes + 1, depth - 1);
    return first + write_full(bytes + first, depth - 1);
}

/* Tries the longest formula with one end: places that need more than 16 bits. */
static bool try_end(Play *play, const End *end) {
    static uint8_t bytes[LONGEST + 1];
    bool longest = write_full(bytes, DEEPEST) == LONGEST;
    bytes[LONGEST - 2] = end->kind;
    bytes[LONGEST - 1] = end->number;
    play_start(play, 6, true);
    bool good = longest && make(play, OPEN, 9, 0) && make_rule(play, bytes, end->length, TABLE_LENDABLE, end->refusal, end->place);
    return good || wrong(play, end->words);
}

/* A board that is not good gives 1 and no place, whatever the formula is. */
static bool try_bad_board(Play *play) {
    play_start(play, 7, true);
    bool good = make(play, OPEN, 0, 2) && make_rule(play, BYTES("\x12\x10\x01\x99"), TABLE_LENDABLE, 1, NO_PLACE);
    return good || wrong(play, "an unknown kind, and no board");
}

/* Two rules that say 2 only together, then both in one. */
static bool try_together(Play *play) {
    play_start(play, 2, true);
    bool good = make(play, OPEN, 2, 0) && add_rule(play, BYTES("\x14\x10\x01\x10\x02")) &&
                add_rule(play, BYTES("\x14\x11\x10\x01\x10\x02")) && ask(play, 2, IS_OPEN) &&
                add_rule(play, BYTES("\x12\x14\x10\x01\x10\x02\x14\x11\x10\x01\x10\x02")) &&
                ask(play, 2, STANDS) && make(play, EXPLAIN, 2, 0) && play->last.rank == 1 && play->last.rule == 3;
    return good || wrong(play, "1 implies 2, not 1 implies 2");
}

/* A circle does not hold itself up. */
static bool try_circle(Play *play) {
    play_start(play, 3, true);
    bool good = make(play, OPEN, 2, 0) && add_rule(play, BYTES("\x14\x10\x01\x10\x02")) &&
                add_rule(play, BYTES("\x14\x10\x02\x10\x01")) && make(play, HOLD, 1, 0) &&
                ask(play, 2, STANDS) && make(play, WITHDRAW, 1, 0) && ask(play, 1, IS_OPEN) && ask(play, 2, IS_OPEN);
    return good || wrong(play, "a circle");
}

/* Both signs held: the other symbols are open, and in conflict by the old answer. */
static bool try_both_signs(Play *play) {
    play_start(play, 4, true);
    bool good = make(play, OPEN, 3, 0) && make(play, HOLD, 3, 0) && make(play, HOLD, -3, 0) && make(play, SETTLE, 0, 0) &&
                play->ours.labels[GUARD + 2] == 3 && ask_both(play, 3, IN_CONFLICT, IN_CONFLICT) && ask_both(play, -3, IN_CONFLICT, IN_CONFLICT) &&
                ask_both(play, 1, IS_OPEN, IN_CONFLICT) && ask_both(play, -2, IS_OPEN, IN_CONFLICT) && make(play, BLAME, 0, 0) &&
                try_marked(play, (int[]){3, -3}, 2);
    return good || wrong(play, "hold 3 and -3");
}

/* The printed journal, line by line, with line 11 as Ticket 11 changes it: 4 is open, and in conflict by the old answer. */
static bool try_printed(Play *play) {
    play_start(play, 22, true);
    bool good = make(play, OPEN, 4, 0) && add_rule(play, BYTES("\x14\x10\x01\x10\x02")) && play->board.rows == 1 &&
                add_rule(play, BYTES("\x14\x12\x10\x02\x10\x03\x10\x04")) && play->board.rows == 2 && make(play, HOLD, 1, 0) &&
                make(play, HOLD, 3, 0) && ask(play, 4, STANDS) && make(play, EXPLAIN, 4, 0) && play->last.rank == 2 && play->last.row == 1 &&
                try_has_row(play, 1, (int16_t[ROW_LITERALS]){-2, -3, 4}, 2) && make(play, WITHDRAW, 1, 0) && ask(play, 4, IS_OPEN) &&
                make(play, HOLD, -3, 0) && ask_both(play, 4, IS_OPEN, IN_CONFLICT);
    return good || wrong(play, "the printed journal");
}

/* The lowest number, asked and in a row in use; and the counts at the ends. */
static bool try_counts(Play *play) {
    play_start(play, 5, true);
    bool good = make(play, OPEN, 0, 2) && make(play, OPEN, 201, 2) && make(play, OPEN, 200, 0) && make(play, ASK, -32768, 2) &&
                make(play, ASK_WHOLE, -32768, 2);
    try_row(play, (int16_t[ROW_LITERALS]){-32768});
    good = good && make(play, ASK, 1, 1) && make(play, ASK, -32768, 1) && make(play, ASK_WHOLE, 1, 1) && make(play, ASK_WHOLE, -32768, 1);
    return good || wrong(play, "-32768, S of 0, 200 and 201");
}

/* Tries the longest formula with every end. */
static bool try_longest(Play *play) {
    bool good = true;
    for (size_t i = 0; i < sizeof ends / sizeof ends[0]; i++) good = good && try_end(play, &ends[i]);
    return good;
}

/* True if all boards to try, and all places, come out as the documents say. */
bool document_agrees(Play *play) {
    bool good = try_together(play) && try_circle(play) && try_both_signs(play) && try_printed(play) && try_counts(play) && try_bad_board(play) &&
                try_longest(play);
    for (size_t i = 0; i < sizeof tries / sizeof tries[0]; i++) good = good && try_rule(play, &tries[i]);
    return good;
}
