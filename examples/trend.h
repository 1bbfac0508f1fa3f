/* What the trend screen's two files share: the plant's symbols and the hours of the shift, the screen, and the words for both. */
#ifndef TREND_H
#define TREND_H

#include "tupahineka.h"

#include <stdbool.h>

/* ---- The plant ---- */

/* The symbols by number: what instruments report first, then what the rules conclude. Both furnaces have all of them. */
enum symbol {
    TC_3_HIGH = 1, TC_4_HIGH, TC_7_HIGH, TC_8_HIGH, TC_9_LOW, PYROMETER_NORMAL,
    DAMPER_OPEN, DAMPER_SHUT, VALVE_CYCLING, GAS_FLOW_HIGH, OXYGEN_LOW,
    CROWN_HOT, OVERFIRED, TRIM_GAS, ADD_GAS, ZONE_3_HOT, HOT_SPOT_SHIFTED, DRAUGHT_GOOD, FLAME_REDUCING,
    LEFT_CHOKED, RIGHT_CHOKED, BURN_OFF_DUE, VALVE_STUCK, BOOST_ON,
    SYMBOLS = BOOST_ON,
    FIRST_CONCLUSION = CROWN_HOT
};

extern const char *const names[SYMBOLS + 1];

/* Minutes since the shift began at 22:00. */
#define AT(hour, minute) (((hour) + 2) % 24 * 60 + (minute))

/* When the shift ends, and when which furnace's TC-3 is struck off: the March case. */
enum { SHIFT_ENDS = AT(6, 0), STRUCK_OFF = AT(3, 10), STRUCK_FURNACE = 1 };

/* ---- The screen ---- */

enum {
    ROWS = 64, NUMBERS = ROWS * TUP_ROW_WIDTH, PLACES = 2 * SYMBOLS,
    MOST_RULES = 64, MOST_BARS = 256, MOST_CONFLICTS = 32, MOST_NEEDS = 8, ROOM = 768
};

/* A line of text being put together. */
typedef struct words {
    size_t length;
    char text[ROOM];
} words;

/* A symbol's mark and why it stands, from one minute to another. */
typedef struct mark {
    int symbol, from, to;
    uint8_t label; /* as the board's labels: 0 open, 1 up, 2 ruled out, 3 in conflict */
    bool held;
    words why;
} mark;

/* A conflict of a furnace from one minute to another, or a stage of it where another reading changed it, and when the conflict began; the readings to
 * blame, the least to withdraw, and what that was chosen from; the board's answer for each symbol, and whether what stands by that answer stands on a
 * reading to blame. */
typedef struct conflict {
    int began, from, to;
    words blame, least, choice;
    uint8_t answers[SYMBOLS + 1];
    bool on_blame[SYMBOLS + 1];
} conflict;

/* What settling writes. */
typedef struct settling {
    uint8_t labels[SYMBOLS];
    uint16_t ranks[PLACES], supports[PLACES];
} settling;

/* A furnace: its marks as they stand, and what the chart will show of it. */
typedef struct furnace {
    uint8_t number; /* as the board counts them, from 1 */
    settling settled;
    mark marks[SYMBOLS + 1];
    mark bars[MOST_BARS];
    conflict conflicts[MOST_CONFLICTS];
    int16_t may_strike[TUP_MOST_CANDIDATES]; /* the readings that it holds, the newest first: those that the foreman may strike off */
    int bar_count, conflict_count, may_strike_count;
    bool in_conflict;
} furnace;

/* A rule that the board has accepted: its sentence, and its rows in the table. */
typedef struct kept_rule {
    const char *sentence;
    int first_row, rows;
} kept_rule;

/* Checks of one kind. */
typedef struct tally {
    int made, failed;
} tally;

/* The board with the table and the stacks lent to it, its rules by their numbers, and the furnaces that run them. */
typedef struct screen {
    tup_board board;
    int16_t table[NUMBERS];
    tup_stacks stacks; /* nothing is tried in this shift: they stay empty */
    kept_rule rules[MOST_RULES + 1]; /* rules are numbered from 1 */
    furnace furnaces[TUP_FURNACES];
    words needs[MOST_NEEDS]; /* what the shift desk was told that marks need, a line each */
    int need_count, rules_refused, readings_refused;
    tally grounds, blames, others, sentences, unmoved, sets, answers, leasts;
} screen;

/* Gives up with a reason. */
_Noreturn void stop(const char *reason);

/* Puts more text at the end of a line. A line cut short could hide a premise, so one that does not fit is an end. */
void say(words *line, const char *format, ...);

/* The time of day of a minute of the shift. */
words clock_at(int minute);

/* Whether a mark was up until this minute and then gone, with no other bar in its lane taking over. */
bool went_down_at(const furnace *f, const mark *bar, int minute);

/* Whether any mark of the furnace went up, went down or changed its ground at this minute. */
bool moved_at(const furnace *f, int minute);

/* Draws the shift to a file; false if it could not be written. */
bool write_chart(const char *path, const screen *s);

#endif
