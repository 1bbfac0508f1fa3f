/* The boards to try of document 01 with their rules spelt as text: the rows, the refusals, and what follows from them, held against the model and the
 * library alike. */
#include <string.h>

#include "spelttrials.h"
#include "tries.h"

/* A rule to try: its text, the refusal, and the rows. */
typedef struct Try {
    const char *text;
    unsigned refusal, rows;
    int16_t row[4][ROW_LITERALS];
} Try;

static const Try tries[] = {
    {"1&-1", 8, 0, {{0}}},
    {"1|-1", 0, 0, {{0}}},
    {"(1>2)&(1|2)", 0, 1, {{2}}},
    {"1=2", 0, 2, {{1, -2}, {-1, 2}}},
    {"(1|2)&(-1|3)", 0, 3, {{1, 2}, {-1, 3}, {2, 3}}},
    {"1|(1&2)", 0, 1, {{1}}},
    {"(1>2)&(-1>2)", 0, 1, {{2}}},
    {"---------------1", 0, 1, {{-1}}},
    {"1>2", 0, 1, {{-1, 2}}},
    {"(1>2)>3", 0, 2, {{1, 3}, {-2, 3}}},
    {"1>(2>3)", 0, 1, {{-1, -2, 3}}},
    {"(2&3)>4", 0, 1, {{-2, -3, 4}}},
    {"-(1=2)", 0, 2, {{1, 2}, {-1, -2}}},
    {"1&2&3&4", 0, 4, {{1}, {2}, {3}, {4}}},
    {"4|3|-2|1", 0, 1, {{1, -2, 3, 4}}},
    {"(1&2)|3", 0, 2, {{1, 3}, {2, 3}}},
    {"1&(2|3)", 0, 2, {{1}, {2, 3}}},
    {"1|2|3|4|5|6|7|8", 0, 1, {{1, 2, 3, 4, 5, 6, 7, 8}}},
    {"1|2|3|4|5|6|7|8|9", 7, 0, {{0}}},
    {"(1&-1)|(2&-2&3&4&5&6&7&8&9)", 7, 0, {{0}}},
};

/* Adds a rule from its text with so many numbers lent; false where the sides differ, or the refusal is another or has a place. */
static bool add(Play *play, const char *text, size_t numbers, unsigned refusal) {
    return spelt_text_rule(play, (const uint8_t *)text, strlen(text), strlen(text), numbers, false) && spelt_gave(play, refusal, NO_PLACE, 0);
}

/* Plays a call for furnace 1 that has to be done. */
static bool make(Play *play, Kind kind, int literal) {
    return try_call(play, kind, 1, literal, 0);
}

/* Tries one rule: its rows, then just the rows it needs, then one number less. */
static bool try_rule(Play *play, const Try *try) {
    size_t needed = WIDTH * try->rows;
    play_start(play, 1, true);
    bool good = spelt_open(play, 9) && add(play, try->text, TABLE_LENDABLE, try->refusal) && play->board.rows == try->rows &&
                play->board.rules == (try->refusal == 0 ? 1 : 0);
    for (unsigned r = 0; r < try->rows; r++) good = good && try_has_row(play, r, try->row[r], 1);
    good = good && spelt_open(play, 9) && add(play, try->text, needed, try->refusal) && spelt_open(play, 9) &&
           (needed == 0 || add(play, try->text, needed - 1, 9));
    return good || spelt_wrong(play, "a board to try, its rule as text", (const uint8_t *)try->text, strlen(try->text));
}

/* The printed journal, with text for its rules: the second premise lets 4 stand by row 1, and without the first one it is open; with -3 held too it
 * is open still, by Ticket 11, and in conflict by the old answer. */
static bool try_journal(Play *play) {
    play_start(play, 2, true);
    bool good = spelt_open(play, 4) && add(play, "1>2", TABLE_LENDABLE, 0) && add(play, " (2 & 3) > 4", TABLE_LENDABLE, 0) && make(play, HOLD, 1) &&
                make(play, HOLD, 3) && make(play, ASK, 4) && play->last.standing == STANDS && make(play, EXPLAIN, 4) && play->last.rank == 2 &&
                play->last.row == 1 && play->last.rule == 2;
    good = good && make(play, WITHDRAW, 1) && make(play, ASK, 4) && play->last.standing == IS_OPEN && make(play, HOLD, -3) && make(play, ASK, 4) &&
           play->last.standing == IS_OPEN && make(play, ASK_WHOLE, 4) && play->last.standing == IN_CONFLICT;
    return good || spelt_wrong(play, "the printed journal, its rules as text", (const uint8_t *)"1>2, (2&3)>4", 12);
}

/* True if all boards come out as document 01 says. */
bool boards_spelt_agree(Play *play) {
    bool good = try_journal(play);
    for (size_t i = 0; i < sizeof tries / sizeof tries[0]; i++) good = good && try_rule(play, &tries[i]);
    return good;
}
