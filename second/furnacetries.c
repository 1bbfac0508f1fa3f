/* Boards of two furnaces: what document 02's Ticket 6 says of each was worked out by hand, and is held against the model and the library alike. */
#include "furnacetries.h"

#include "tries.h"

enum { TRY_ROWS = 2, MOVES = 32, MARKED = 2, NUMBERS_OF_FURNACES = 256 };

/* A call: the furnace it names and its literal, or the count for open; then the refusal, the answer to a call that asks or the label that a settle
 * gives symbol S, and the premises that a ground or a blame marks. */
typedef struct Move {
    Kind kind;
    unsigned furnace;
    int value;
    unsigned refusal, answer;
    int marked[MARKED];
} Move;

/* A board, and calls on it until one that is all zeros. */
typedef struct Try {
    const char *words;
    unsigned symbols;
    int16_t row[TRY_ROWS][ROW_LITERALS];
    Move moves[MOVES];
} Try;

static const Try tries[] = {
    {"a premise of one furnace, then of both, then of the other", 2, {{-1, 2}},
     {{HOLD, 1, 1, 0, 0, {0}}, {SETTLE, 1, 0, 0, 1, {0}}, {SETTLE, 2, 0, 0, 0, {0}}, {ASK, 1, 2, 0, STANDS, {0}}, {ASK, 2, 2, 0, IS_OPEN, {0}},
      {ASK, 2, 1, 0, IS_OPEN, {0}}, {EXPLAIN, 1, 2, 0, 0, {0}}, {EXPLAIN, 2, 2, 12, 0, {0}}, {GROUND, 1, 2, 0, 0, {1}},
      {GROUND, 2, 2, 12, 0, {0}}, {WITHDRAW, 2, 1, 11, 0, {0}}, {HOLD, 1, 1, 10, 0, {0}}, {HOLD, 2, 1, 0, 0, {0}}, {HOLD, 2, 1, 10, 0, {0}},
      {GROUND, 2, 2, 0, 0, {1}}, {WITHDRAW, 1, 1, 0, 0, {0}}, {WITHDRAW, 1, 1, 11, 0, {0}}, {ASK, 1, 2, 0, IS_OPEN, {0}},
      {ASK, 2, 2, 0, STANDS, {0}}, {GROUND, 1, 1, 12, 0, {0}}, {GROUND, 2, 1, 0, 0, {1}}, {WITHDRAW, 2, 1, 0, 0, {0}},
      {ASK, 2, 2, 0, IS_OPEN, {0}}}},
    {"the opposite held for the other furnace", 3, {{0}},
     {{HOLD, 1, 3, 0, 0, {0}}, {HOLD, 2, -3, 0, 0, {0}}, {SETTLE, 1, 0, 0, 1, {0}}, {SETTLE, 2, 0, 0, 2, {0}}, {ASK, 1, 3, 0, STANDS, {0}},
      {ASK, 2, 3, 0, RULED_OUT, {0}}, {BLAME, 1, 0, 12, 0, {0}}, {BLAME, 2, 0, 12, 0, {0}}, {HOLD, 1, -3, 0, 0, {0}}, {SETTLE, 1, 0, 0, 3, {0}},
      {SETTLE, 2, 0, 0, 2, {0}}, {ASK, 1, 3, 0, IN_CONFLICT, {0}}, {ASK, 2, 3, 0, RULED_OUT, {0}}, {ASK, 1, 1, 0, IS_OPEN, {0}},
      {ASK_WHOLE, 1, 1, 0, IN_CONFLICT, {0}}, {ASK_WHOLE, 2, 1, 0, IS_OPEN, {0}}, {ASK_WHOLE, 2, -3, 0, STANDS, {0}}, {BLAME, 1, 0, 0, 0, {3, -3}},
      {BLAME, 2, 0, 12, 0, {0}}, {WITHDRAW, 2, -3, 0, 0, {0}}, {ASK, 1, -3, 0, IN_CONFLICT, {0}}, {ASK_WHOLE, 1, 1, 0, IN_CONFLICT, {0}},
      {ASK, 2, 3, 0, IS_OPEN, {0}}, {ASK_WHOLE, 2, 3, 0, IS_OPEN, {0}}, {HOLD, 2, -3, 0, 0, {0}}, {WITHDRAW, 1, 3, 0, 0, {0}},
      {ASK, 1, -3, 0, STANDS, {0}}, {ASK, 2, -3, 0, STANDS, {0}}, {ASK_WHOLE, 1, -3, 0, STANDS, {0}}}},
    {"premises of both furnaces that together would lead on", 3, {{-1, -2, 3}},
     {{HOLD, 1, 1, 0, 0, {0}}, {HOLD, 2, 2, 0, 0, {0}}, {ASK, 1, 3, 0, IS_OPEN, {0}}, {ASK, 2, 3, 0, IS_OPEN, {0}}, {HOLD, 2, 1, 0, 0, {0}},
      {ASK, 1, 3, 0, IS_OPEN, {0}}, {ASK, 2, 3, 0, STANDS, {0}}, {GROUND, 2, 3, 0, 0, {1, 2}}, {GROUND, 1, 3, 12, 0, {0}}}},
    {"rules that are in conflict for both furnaces", 2, {{1}, {-1}},
     {{BLAME, 1, 0, 0, 0, {0}}, {BLAME, 2, 0, 0, 0, {0}}, {HOLD, 2, 2, 0, 0, {0}}, {ASK, 1, 2, 0, IS_OPEN, {0}}, {ASK, 2, 2, 0, STANDS, {0}},
      {ASK, 1, 1, 0, IN_CONFLICT, {0}}, {ASK, 2, -1, 0, IN_CONFLICT, {0}}, {ASK_WHOLE, 1, 2, 0, IN_CONFLICT, {0}},
      {ASK_WHOLE, 2, 2, 0, IN_CONFLICT, {0}}, {BLAME, 1, 0, 0, 0, {0}}, {BLAME, 2, 0, 0, 0, {0}}}},
    {"the last places of the one set and the first of the other", 200, {{0}},
     {{HOLD, 1, -200, 0, 0, {0}}, {ASK, 2, 1, 0, IS_OPEN, {0}}, {WITHDRAW, 2, 1, 11, 0, {0}}, {HOLD, 2, 1, 0, 0, {0}},
      {ASK, 1, 1, 0, IS_OPEN, {0}}, {ASK, 2, -200, 0, IS_OPEN, {0}}, {HOLD, 2, -200, 0, 0, {0}}, {HOLD, 1, 1, 0, 0, {0}},
      {WITHDRAW, 1, -200, 0, 0, {0}}, {ASK, 2, 200, 0, RULED_OUT, {0}}, {WITHDRAW, 2, 1, 0, 0, {0}}, {ASK, 1, 1, 0, STANDS, {0}},
      {ASK, 1, 200, 0, IS_OPEN, {0}}}},
    {"16 ahead of 2, 10, 11 and 12", 2, {{0}},
     {{HOLD, 1, 1, 0, 0, {0}}, {HOLD, 2, 1, 0, 0, {0}}, {HOLD, 0, 1, 16, 0, {0}}, {HOLD, 3, 3, 16, 0, {0}}, {WITHDRAW, 3, 2, 16, 0, {0}},
      {WITHDRAW, 255, 1, 16, 0, {0}}, {ASK, 0, 0, 16, 0, {0}}, {ASK, 2, 0, 2, 0, {0}}, {ASK_WHOLE, 3, 0, 16, 0, {0}},
      {ASK_WHOLE, 1, 3, 2, 0, {0}}, {EXPLAIN, 3, -32768, 16, 0, {0}},
      {EXPLAIN, 1, -32768, 2, 0, {0}}, {GROUND, 128, 2, 16, 0, {0}}, {BLAME, 254, 0, 16, 0, {0}}, {SETTLE, 129, 0, 16, 0, {0}}}},
    {"opening, done and refused, over premises of both", 2, {{0}},
     {{HOLD, 1, 1, 0, 0, {0}}, {HOLD, 2, 2, 0, 0, {0}}, {OPEN, 0, 2, 0, 0, {0}}, {WITHDRAW, 1, 1, 11, 0, {0}}, {WITHDRAW, 2, 2, 11, 0, {0}},
      {HOLD, 1, 2, 0, 0, {0}}, {HOLD, 2, 1, 0, 0, {0}}, {OPEN, 0, 201, 2, 0, {0}}, {ASK, 1, 1, 1, 0, {0}}, {ASK, 3, 1, 1, 0, {0}},
      {ASK_WHOLE, 2, 1, 1, 0, {0}}, {ASK_WHOLE, 0, 0, 1, 0, {0}}, {OPEN, 0, 1, 0, 0, {0}}, {ASK, 1, 1, 0, IS_OPEN, {0}},
      {ASK, 2, 1, 0, IS_OPEN, {0}}, {HOLD, 1, 2, 2, 0, {0}}}},
};

/* Makes a call with so many places of each table to write; false where the sides differ or the refusal is another. */
static bool make(Play *play, Kind kind, unsigned furnace, int value, size_t places, unsigned refusal) {
    Step step = try_lent(kind, furnace, value, places);
    return play_step(play, &step) && play->last.refusal == refusal;
}

/* Opens the board of a try, with its rows. */
static bool set_up(Play *play, unsigned symbols, const int16_t row[TRY_ROWS][ROW_LITERALS]) {
    play_start(play, 9, true);
    bool good = try_call(play, OPEN, 0, (int)symbols, 0);
    for (unsigned r = 0; r < TRY_ROWS && row[r][0] != 0; r++) try_row(play, row[r]);
    return good;
}

/* The caller writes a byte into a furnace's premises. */
static void set_held(Play *play, unsigned furnace, int literal, int byte) {
    Step step = {.kind = SET_HELD, .furnace = furnace, .place = place_of(literal), .value = byte};
    play_step(play, &step);
}

/* Plays a call of a try; true if it came out as it was worked out. */
static bool move_agrees(Play *play, const Move *move) {
    if (!try_call(play, move->kind, move->furnace, move->value, move->refusal)) return false;
    if (move->refusal != 0) return true;
    if (asks(move->kind)) return play->last.standing == move->answer;
    if (move->kind == SETTLE) return play->ours.labels[GUARD + play->board.symbols - 1] == move->answer;
    return (move->kind != GROUND && move->kind != BLAME) || try_marked(play, move->marked, MARKED);
}

/* True if all calls of a try come out as they were worked out. */
static bool try_agrees(Play *play, const Try *try) {
    if (!set_up(play, try->symbols, try->row)) return try_wrong(play, try->words, "call", 0);
    for (unsigned m = 0; m < MOVES; m++) {
        const Move *move = &try->moves[m];
        if (move->kind == OPEN && move->value == 0) break;
        if (!move_agrees(play, move)) return try_wrong(play, try->words, "call", m + 1);
    }
    return true;
}

/* Every number of a furnace, for every call that names one: 16 but for 1 and 2, with good literals and tables, with bad literals, and with tables too
 * short. */
static bool numbers_agree(Play *play) {
    static const int16_t rows[TRY_ROWS][ROW_LITERALS] = {{-1, 2}};
    for (unsigned n = 0; n < NUMBERS_OF_FURNACES; n++) {
        bool good = set_up(play, 2, rows), is = n == 1 || n == 2;
        for (Kind kind = HOLD; kind <= LEAST; kind++) {
            bool literal = gives_literal(kind), writes = kind == SETTLE || kind == GROUND || kind == BLAME;
            unsigned nothing = kind == LEAST ? 11 : kind == EXPLAIN || kind == GROUND || kind == BLAME ? 12 : 0; /* 1 was held, and withdrawn */
            good = good && make(play, kind, n, 1, 4, is ? nothing : 16) && (!literal || make(play, kind, n, 3, 4, is ? 2 : 16)) &&
                   (!writes || make(play, kind, n, 1, 1, is ? 13 : 16));
        }
        if (!good) return try_wrong(play, "every call that names a furnace", "furnace", n);
    }
    return true;
}

/* A premise of a symbol beyond S, of either furnace: 1 for every call but open, whichever furnace it names. */
static bool beyond_agrees(Play *play) {
    static const int16_t no_rows[TRY_ROWS][ROW_LITERALS];
    static const int beyond[] = {3, -3, 200, -200};
    for (unsigned f = 1; f <= FURNACES; f++) {
        bool good = set_up(play, 2, no_rows);
        for (unsigned i = 0; i < 4; i++) {
            set_held(play, f, beyond[i], 9);
            for (Kind kind = RULE; kind < CALLS; kind++)
                for (unsigned named = 0; named <= 3; named++) good = good && make(play, kind, named, 1, 20, 1);
            set_held(play, f, beyond[i], 0);
        }
        good = good && try_call(play, ASK, f, 1, 0) && try_call(play, ASK, 3 - f, 1, 0);
        set_held(play, f, 3, 1);
        good = good && try_call(play, OPEN, 0, 2, 0) && try_call(play, ASK, f, 1, 0);
        if (!good) return try_wrong(play, "a premise beyond S", "furnace", f);
    }
    return true;
}

/* Bytes beyond 1 in both sets: a refused call hands them back, and each that is done writes them as 1, those of the other furnace too. */
static bool odd_bytes_agree(Play *play) {
    static const int16_t no_rows[TRY_ROWS][ROW_LITERALS];
    static const Kind kinds[] = {RULE, TEXT_RULE, READ, HOLD, WITHDRAW};
    for (unsigned i = 0; i < FURNACES * 5; i++) {
        unsigned f = 1 + i % FURNACES;
        Kind kind = kinds[i / FURNACES];
        bool good = set_up(play, 2, no_rows);
        for (unsigned n = 1; n <= FURNACES; n++) set_held(play, n, 2, 7), set_held(play, n, -2, 255);
        good = good && try_call(play, HOLD, f, 2, 10) && play->library_board.held[0][2] == 7 && play->library_board.held[1][2] == 7 &&
               try_call(play, WITHDRAW, f, 1, 11) && try_call(play, ASK, f, 2, 0) && make(play, kind, f, kind == HOLD ? 1 : 2, 0, 0) &&
               play->library_board.held[2 - f][2] == 1 && play->library_board.held[2 - f][3] == 1;
        if (!good) return try_wrong(play, "bytes beyond 1", "furnace", f);
    }
    return true;
}

/* True if all boards of two furnaces come out as they were worked out. */
bool furnace_tries_agree(Play *play) {
    for (size_t i = 0; i < sizeof tries / sizeof tries[0]; i++)
        if (!try_agrees(play, &tries[i])) return false;
    return numbers_agree(play) && beyond_agrees(play) && odd_bytes_agree(play);
}
