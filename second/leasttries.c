/* Boards to Ticket 12, "What is the least we must withdraw?": which of the candidates have to go was worked out by hand, for each board with the
 * candidates in the order given and turned round, and is held against the model and the library alike, for each furnace beside the other. */
#include "leasttries.h"

#include <string.h>

#include "settries.h"
#include "tries.h"

enum { RULES = 6, HELD = 14, LINKS = MOST_SYMBOLS - 1, NOT_AGAIN = 1 << 20 /* noise by which a call is not made again */ };

/* A board; what is held for one furnace and for the other; candidates of the first until one that is 0; the refusal, and the set told for them in the
 * order given and turned round. */
typedef struct Try {
    const char *words;
    unsigned symbols;
    const char *rules[RULES];
    int held[FURNACES][HELD];
    int16_t candidates[MOST_CANDIDATES];
    unsigned refusal, set, turned;
} Try;

#define FIRST_12 1, 2, 3, 4, 5, 6, 7, 8, 9, 10, 11, 12
#define STAYS 18, NONE, NONE

static const Try tries[] = {
    /* both signs held */
    {"both signs held", 3, {NULL}, {{3, -3}}, {3, -3}, 0, 1, 1},
    {"both signs held, one of them a candidate", 3, {NULL}, {{3, -3}}, {-3}, 0, 1, 1},
    {"both signs held, and two before them", 3, {NULL}, {{1, 2, 3, -3}}, {1, 2, 3, -3}, 0, 4, 1},
    {"both signs held, and neither a candidate", 3, {NULL}, {{1, 3, -3}}, {1}, STAYS},
    {"both signs of the last symbol of all", 200, {NULL}, {{200, -200}}, {200, -200}, 0, 1, 1},
    {"both signs of the only symbol", 1, {NULL}, {{1, -1}}, {-1, 1}, 0, 1, 1},
    {"one sign held, the opposite no candidate", 2, {NULL}, {{1, -1, 2}}, {1, 2}, 0, 1, 2},
    /* separate conflicts */
    {"two separate conflicts", 2, {NULL}, {{1, -1, 2, -2}}, {1, -1, 2, -2}, 0, 5, 5},
    {"two separate conflicts by rules", 4, {"1>-2", "3>-4"}, {{1, 2, 3, 4}}, {4, 1, 3, 2}, 0, 3, 3},
    {"two separate conflicts, and one candidate for each", 4, {"1>-2", "3>-4"}, {{1, 2, 3, 4}}, {2, 3}, 0, 3, 3},
    {"two separate conflicts, candidates for one", 4, {"1>-2", "3>-4"}, {{1, 2, 3, 4}}, {1, 2}, STAYS},
    {"three separate conflicts", 6, {"1>-2", "3>-4", "5>-6"}, {{1, 2, 3, 4, 5, 6}}, {1, 2, 3, 4, 5, 6}, 0, 21, 21},
    {"five separate conflicts, and two that stay", 7, {NULL}, {{1, -1, 2, -2, 3, -3, 4, -4, 5, -5, 6, 7}},
     {6, 7, 1, -1, 2, -2, 3, -3, 4, -4, 5, -5}, 0, 1364, 341},
    {"six separate conflicts, side by side", 6, {NULL}, {{1, -1, 2, -2, 3, -3, 4, -4, 5, -5, 6, -6}},
     {1, -1, 2, -2, 3, -3, 4, -4, 5, -5, 6, -6}, 0, 1365, 1365},
    {"six separate conflicts, half by half", 6, {NULL}, {{1, -1, 2, -2, 3, -3, 4, -4, 5, -5, 6, -6}},
     {1, 2, 3, 4, 5, 6, -1, -2, -3, -4, -5, -6}, 0, 63, 63},
    /* one premise that ends several */
    {"one premise that ends both", 3, {"1>-2", "1>-3"}, {{1, 2, 3}}, {2, 3, 1}, 0, 4, 1},
    {"one premise that would end both, no candidate", 3, {"1>-2", "1>-3"}, {{1, 2, 3}}, {2, 3}, 0, 3, 3},
    {"one premise that ends five", 6, {"1>(-2&-3&-4&-5&-6)"}, {{1, 2, 3, 4, 5, 6}}, {6, 5, 4, 3, 2, 1}, 0, 32, 1},
    {"one premise that two rows share", 5, {"-1|-2|-3", "-3|-4|-5"}, {{1, 2, 3, 4, 5}}, {1, 2, 3, 4, 5}, 0, 4, 4},
    {"the same, no candidate", 5, {"-1|-2|-3", "-3|-4|-5"}, {{1, 2, 3, 4, 5}}, {1, 2, 4, 5}, 0, 5, 5},
    /* the rules alone */
    {"the rules alone in conflict", 3, {"1", "-1"}, {{2}}, {2}, STAYS},
    {"the rules alone in conflict, and no candidates", 3, {"1", "-1"}, {{0}}, {0}, STAYS},
    {"the rules alone in conflict, and no candidates of one held", 3, {"1", "-1"}, {{2}}, {0}, STAYS},
    {"the rules alone in conflict, and both signs held", 3, {"1", "-1"}, {{2, -2}}, {2, -2}, STAYS},
    {"the rules alone in conflict through a chain", 3, {"1", "1>2", "2>3", "-3"}, {{1, 3}}, {1, 3}, STAYS},
    {"a premise against a rule", 2, {"-1"}, {{1}}, {1}, 0, 1, 1},
    /* the premise that would have to go is no candidate */
    {"one premise in conflict alone, no candidate", 3, {"1>2", "1>-2"}, {{1, 3}}, {3}, STAYS},
    {"one premise in conflict alone, a candidate", 3, {"1>2", "1>-2"}, {{1, 3}}, {3, 1}, 0, 2, 1},
    {"two premises in conflict, others candidates", 4, {"1>-2"}, {{1, 2, 3, 4}}, {3, 4}, STAYS},
    {"a conflict, and no candidates", 2, {"1>-2"}, {{1, 2}}, {0}, STAYS},
    /* no conflict */
    {"no conflict", 3, {"1>2"}, {{1, 3}}, {1, 3}, 0, 0, 0},
    {"no conflict, and no candidates", 3, {"1>2"}, {{1, 3}}, {0}, 0, 0, 0},
    {"no conflict, nothing held and no rows", 1, {NULL}, {{0}}, {0}, 0, 0, 0},
    {"no conflict, and 12 candidates", 13, {"1>13"}, {{FIRST_12}}, {FIRST_12}, 0, 0, 0},
    {"no conflict by the rounds, though no assignment is left", 2, {"1|2", "1|-2", "-1|2", "-1|-2"}, {{0}}, {0}, 0, 0, 0},
    {"a conflict by a premise, though no assignment is left without it", 2, {"1|2", "1|-2", "-1|2", "-1|-2"}, {{1}}, {1}, 0, 1, 1},
    /* the other furnace */
    {"no conflict here, one there", 3, {"1>2"}, {{1}, {1, -1}}, {1}, 0, 0, 0},
    {"no conflict here, one there, and no candidates", 3, {"1>2"}, {{1}, {1, -1}}, {0}, 0, 0, 0},
    {"a conflict here, none there", 3, {"1>2", "3>-2"}, {{1, 3}, {1}}, {3, 1}, 0, 1, 1},
    {"a conflict here, nothing held there", 3, {"1>2", "3>-2"}, {{1, 3}}, {1, 3}, 0, 1, 1},
    {"conflicts here and there, of other symbols", 4, {NULL}, {{1, -1}, {2, -2}}, {1, -1}, 0, 1, 1},
    {"premises of the two that would clash", 3, {"1>-2"}, {{1}, {2}}, {1}, 0, 0, 0},
    {"the same premises, and one conflict more there", 4, {"1>-2", "3>-4"}, {{1, 2}, {1, 2, 3, 4}}, {2, 1}, 0, 1, 1},
    {"the same premises, and one conflict more here", 4, {"1>-2", "3>-4"}, {{1, 2, 3, 4}, {1, 2}}, {2, 1, 3}, 0, 5, 3},
    /* equal sizes, and size before number */
    {"9 against 6", 4, {"1>-2", "1>-3", "4>-2", "4>-3"}, {{1, 2, 3, 4}}, {1, 2, 3, 4}, 0, 6, 6},
    {"9 against 6, the others", 4, {"1>-2", "1>-3", "4>-2", "4>-3"}, {{1, 2, 3, 4}}, {2, 1, 4, 3}, 0, 6, 6},
    {"3 against 12", 4, {"1>-2", "1>-3", "4>-2", "4>-3"}, {{1, 2, 3, 4}}, {1, 4, 2, 3}, 0, 3, 3},
    {"5 against 10", 4, {"1>-2", "1>-3", "4>-2", "4>-3"}, {{1, 2, 3, 4}}, {1, 2, 4, 3}, 0, 5, 5},
    {"any two of three clash", 3, {"1>-2", "1>-3", "2>-3"}, {{1, 2, 3}}, {1, 2, 3}, 0, 3, 3},
    {"five in a circle, each against the next", 5, {"1>-2", "2>-3", "3>-4", "4>-5", "5>-1"}, {{1, 2, 3, 4, 5}}, {1, 2, 3, 4, 5}, 0, 11, 11},
    {"2048 before 3", 12, {"12>-1", "12>-2"}, {{FIRST_12}}, {FIRST_12}, 0, 2048, 1},
    {"2048 before all others", 12, {"12>(-1&-2&-3&-4&-5&-6)", "12>(-7&-8&-9&-10&-11)"}, {{FIRST_12}}, {FIRST_12}, 0, 2048, 1},
    {"the one in most conflicts stays", 7, {"1>-2", "1>-3", "1>-4", "2>-5", "3>-6", "4>-7"}, {{1, 2, 3, 4, 5, 6, 7}}, {1, 2, 3, 4, 5, 6, 7}, 0, 14,
     56},
    /* 12 candidates */
    {"12 candidates, all of them needed", 12, {"-1&-2&-3&-4&-5&-6", "-7&-8&-9&-10&-11&-12"}, {{FIRST_12}}, {FIRST_12}, 0, 4095, 4095},
    {"12 candidates, one and its opposite both go", 11, {"1>(8&9)", "-1>(8&9)", "8>-9"}, {{1, -1, 2, -2, 3, -3, 4, 5, 6, 7, 10, 11}},
     {1, -1, 2, -2, 3, -3, 4, 5, 6, 7, 10, 11}, 0, 23, 3392},
    {"12 candidates, and two others in conflict", 14, {"13>-14"}, {{FIRST_12, 13, 14}}, {FIRST_12}, STAYS},
    {"12 candidates, and the rules alone in conflict", 14, {"13", "-13"}, {{FIRST_12}}, {FIRST_12}, STAYS},
    /* many symbols, and chains */
    {"a conflict of all symbols", 6, {"1=2", "2=3", "3=4", "4=5", "5=6"}, {{1, -6}}, {1, -6}, 0, 1, 1},
    {"a conflict of all symbols, one against two", 6, {"1=2", "2=3", "3=4", "4=5", "5=6"}, {{1, 6, -3}}, {1, 6, -3}, 0, 4, 1},
    {"a conflict through a chain", 5, {"1>2", "2>3", "3>4", "5>-4"}, {{1, 5}}, {5, 1}, 0, 1, 1},
    {"a chain with a premise inside", 5, {"1>2", "2>3", "3>4", "5>-4"}, {{1, 2, 5}}, {1, 2, 5}, 0, 4, 1},
    {"a chain with a premise inside, its end no candidate", 5, {"1>2", "2>3", "3>4", "5>-4"}, {{1, 2, 5}}, {1, 2}, 0, 3, 3},
    {"a chain with a premise inside, its beginning alone", 5, {"1>2", "2>3", "3>4", "5>-4"}, {{1, 2, 5}}, {1}, STAYS},
    {"the last symbols of all", 200, {"199>-200", "-1>200"}, {{199, 200, -1}}, {-1, 199, 200}, 0, 2, 2},
    /* a candidate and its opposite */
    {"a candidate, its opposite, and one that needs neither", 3, {"1>2", "-1>2", "2>-3"}, {{1, -1, 3}}, {1, -1, 3}, 0, 5, 3},
    {"a candidate and its opposite, and both go", 5, {"1>(2&3)", "2>-3", "-1>(4&5)", "4>-5"}, {{1, -1}}, {1, -1}, 0, 3, 3},
    {"a candidate and its opposite, one in conflict alone", 3, {"-1>(2&3)", "2>-3"}, {{1, -1}}, {1, -1}, 0, 2, 1},
    /* held, and derived as well */
    {"a premise that is derived as well, and the end", 3, {"1>2", "2>3"}, {{1, 2, -3}}, {2, -3}, 0, 2, 1},
    {"a premise that is derived as well, alone", 3, {"1>2", "2>3"}, {{1, 2, -3}}, {2}, STAYS},
    {"a premise that is derived as well, and what it is derived from", 3, {"1>2", "2>3"}, {{1, 2, -3}}, {1, 2}, 0, 3, 3},
    {"all three of these", 3, {"1>2", "2>3"}, {{1, 2, -3}}, {1, 2, -3}, 0, 4, 1},
    {"a premise that a rule says as well", 2, {"1", "1>2"}, {{1, -2}}, {1, -2}, 0, 2, 1},
    /* rows of many literals */
    {"a row whose literals are all ruled out", 3, {"1|2|3"}, {{-1, -2, -3}}, {-1, -2, -3}, 0, 1, 1},
    {"a row of 8 literals, one candidate", 8, {"1|2|3|4|5|6|7|8"}, {{-1, -2, -3, -4, -5, -6, -7, -8}}, {-8}, 0, 1, 1},
};

/* True if the call is refused so for the candidates, or tells the set. Those of 12 candidates or more and of full tables are counted, since they come
 * up seldom otherwise. */
static bool tells(Play *play, unsigned furnace, const int16_t *candidates, unsigned count, uint64_t noise, unsigned refusal, unsigned set) {
    Step step = try_least(furnace, candidates, count, noise);
    bool seldom = count >= MOST_CANDIDATES || play->board.rows == MOST_ROWS;
    if (!(seldom ? try_counted(play, &step) : play_step(play, &step))) return false;
    return play->last.refusal == refusal && play->last.set == set;
}

/* True if it is so in either order; turned round the candidates stay so. */
static bool tells_both(Play *play, unsigned furnace, int16_t *candidates, unsigned refusal, unsigned set, unsigned turned) {
    unsigned count = 0;
    while (count < MOST_CANDIDATES && candidates[count] != 0) count++;
    bool good = tells(play, furnace, candidates, count, 0, refusal, set);
    turn_round(candidates, count, NULL, 0);
    return good && tells(play, furnace, candidates, count, 1, refusal, turned);
}

/* True if a board's answers are those that were worked out, whichever of the furnaces is furnace 1. */
static bool try_agrees(Play *play, const Try *try) {
    for (unsigned f = 1; f <= FURNACES; f++) {
        int16_t candidates[MOST_CANDIDATES];
        memcpy(candidates, try->candidates, sizeof candidates);
        play_start(play, 25, true);
        bool good = try_open(play, try->symbols, try->rules, RULES) && try_hold(play, f, try->held[0], HELD) &&
                    try_hold(play, 3 - f, try->held[1], HELD) && tells_both(play, f, candidates, try->refusal, try->set, try->turned);
        if (!good) return try_wrong(play, try->words, "furnace", f);
    }
    return true;
}

/* Twelve premises, and any so many of them clash, one to six, whichever they are: so one fewer may stay, and the last ones do. Of four and more there
 * are more conflicts than a search would care to keep. */
static bool any_of_12_agree(Play *play) {
    static const int held[] = {FIRST_12};
    static const int16_t candidates[] = {FIRST_12};
    static uint16_t sets[ALL_SETS];
    for (unsigned size = 1; size <= 6; size++) {
        unsigned furnace = 1 + size % FURNACES;
        play_start(play, 26, true);
        bool good = try_call(play, OPEN, 0, MOST_CANDIDATES, 0) && try_any_of_12(play, size, 0, sets) > 0 &&
                    try_hold(play, furnace, held, MOST_CANDIDATES) &&
                    tells(play, furnace, candidates, MOST_CANDIDATES, NOT_AGAIN, 0, (1u << (MOST_CANDIDATES + 1 - size)) - 1);
        if (!good) return try_wrong(play, "so many of 12 premises clash, whichever they are", "of them", size);
    }
    return true;
}

/* Thirteen premises, all of them candidates, in conflict or not: one too many. */
static bool thirteen_agree(Play *play) {
    static const int held[] = {FIRST_12, 13, -13};
    static const int16_t candidates[] = {FIRST_12, 13};
    for (unsigned i = 0; i < FURNACES * 2; i++) {
        unsigned furnace = 1 + i % FURNACES;
        play_start(play, 29, true);
        bool good = try_call(play, OPEN, 0, MOST_CANDIDATES + 1, 0) && try_hold(play, furnace, held, MOST_CANDIDATES + 1 + i / FURNACES) &&
                    tells(play, furnace, candidates, MOST_CANDIDATES + 1, 0, 17, NONE) &&
                    tells(play, furnace, candidates + 1, MOST_CANDIDATES, NOT_AGAIN, 0, i / FURNACES == 0 ? 0 : 1u << (MOST_CANDIDATES - 1));
        if (!good) return try_wrong(play, "13 candidates, all of them held", "furnace", furnace);
    }
    return true;
}

/* A full table by whose first row and last one 1 and 2 clash, or 1 and 200. */
static bool full_table_agrees(Play *play) {
    static const int16_t ends[2][ROW_LITERALS] = {{-2, -199}, {-199, -200}};
    static const int held[2][3] = {{1, 2, 3}, {1, 200, 3}};
    for (unsigned i = 0; i < 2; i++) {
        int16_t candidates[MOST_CANDIDATES] = {3, (int16_t)held[i][0], (int16_t)held[i][1]};
        play_start(play, 27, true);
        if (!try_full_table(play, ends[i]) || !try_hold(play, 1 + i, held[i], 3) || !tells_both(play, 1 + i, candidates, 0, 2, 1))
            return try_wrong(play, "a full table in conflict", "last row", i + 1);
    }
    return true;
}

/* The longest chain, from 1 to 200, with both ends held against each other, and 100 in the middle: of 1 and 100 both have to go, -200 would be
 * enough. */
static bool chain_agrees(Play *play) {
    static const int held[] = {1, 100, -MOST_SYMBOLS};
    for (unsigned f = 1; f <= FURNACES; f++) {
        play_start(play, 28, true);
        bool good = try_call(play, OPEN, 0, MOST_SYMBOLS, 0) && try_hold(play, f, held, 3);
        for (int s = 1; s <= LINKS; s++) try_row(play, (int16_t[ROW_LITERALS]){(int16_t)-s, (int16_t)(s + 1)});
        good = good && tells_both(play, f, (int16_t[MOST_CANDIDATES]){1, 100, -MOST_SYMBOLS}, 0, 4, 1) &&
               tells_both(play, f, (int16_t[MOST_CANDIDATES]){1, 100}, 0, 3, 3) && tells_both(play, f, (int16_t[MOST_CANDIDATES]){100}, STAYS) &&
               tells_both(play, f, (int16_t[MOST_CANDIDATES]){1}, STAYS) && tells_both(play, 3 - f, (int16_t[MOST_CANDIDATES]){0}, 0, 0, 0);
        if (!good) return try_wrong(play, "the longest chain, in conflict", "furnace", f);
    }
    return true;
}

/* True if all answers are those that were worked out. */
bool least_tries_agree(Play *play) {
    for (size_t i = 0; i < sizeof tries / sizeof tries[0]; i++)
        if (!try_agrees(play, &tries[i])) return false;
    return any_of_12_agree(play) && thirteen_agree(play) && full_table_agrees(play) && chain_agrees(play);
}
