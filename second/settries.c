/* Boards to Ticket 10, "The shift desk's smallest sets": which sets of candidates are listed for a literal was worked out by hand, and is held
 * against the model and the library alike; with the candidates in the order given and turned round, and with each sort of room. */
#include "settries.h"

#include <stdlib.h>
#include <string.h>

#include "tries.h"

enum { RULES = 5, HELD = 2, LISTED = 4, LONGEST_LIST = 924, MANY_PLACES = 65536 };

/* A board, what is held for each furnace, a literal to explain, candidates until one that is 0, and the sets listed, so many of them. */
typedef struct Try {
    const char *words;
    unsigned symbols;
    const char *rules[RULES];
    int held[FURNACES][HELD];
    int literal;
    int16_t candidates[MOST_CANDIDATES];
    unsigned listed;
    uint16_t sets[LISTED];
} Try;

#define NOTHING_HELD {{0}, {0}}
#define FIRST_12 {1, 2, 3, 4, 5, 6, 7, 8, 9, 10, 11, 12}

static const Try tries[] = {
    {"two ways to one mark", 3, {"1>3", "2>3"}, NOTHING_HELD, 3, {1, 2}, 2, {1, 2}},
    {"two ways to one mark, and a row from both", 3, {"(1&2)>3", "1>3", "2>3"}, NOTHING_HELD, 3, {1, 2}, 2, {1, 2}},
    {"two together, or a third alone", 4, {"(1&2)>4", "3>4"}, NOTHING_HELD, 4, {1, 2, 3}, 2, {4, 3}},
    {"any two of three", 4, {"(1&2)>4", "(1&3)>4", "(2&3)>4"}, NOTHING_HELD, 4, {1, 2, 3}, 3, {3, 5, 6}},
    {"sets of three sizes", 7, {"(1&2&3)>7", "(4&5)>7", "6>7"}, NOTHING_HELD, 7, {1, 2, 3, 4, 5, 6}, 3, {32, 24, 7}},
    {"each literal of a chain", 4, {"1>2", "2>3", "3>4"}, NOTHING_HELD, 4, {1, 2, 3}, 3, {1, 2, 4}},
    {"rules against the order of the chain", 6, {"5>6", "4>5", "3>4", "2>3", "1>2"}, NOTHING_HELD, 6, {1, -6}, 1, {1}},
    {"back along a chain", 3, {"1>2", "2>3"}, NOTHING_HELD, -1, {-3, -2, 3}, 2, {1, 2}},
    {"two ways that share a candidate", 5, {"(1&2)>4", "(2&3)>4", "4>5"}, NOTHING_HELD, 5, {1, 2, 3}, 2, {3, 6}},
    {"a way whose candidates are not all given", 5, {"(1&2)>4", "(2&3)>4", "4>5"}, NOTHING_HELD, 5, {1, 3}, 0, {0}},
    {"a row of 8 literals", 8, {"(1&2&3&4&5&6&7)>8"}, NOTHING_HELD, 8, {1, 2, 3, 4, 5, 6, 7}, 1, {127}},
    {"a row of 8 literals, one of them not given", 8, {"(1&2&3&4&5&6&7)>8"}, NOTHING_HELD, 8, {1, 2, 3, 4, 5, 6, -7}, 0, {0}},
    {"two symbols the same", 2, {"1=2"}, NOTHING_HELD, 2, {1, -1, 2}, 2, {1, 4}},
    {"a circle", 3, {"1>2", "2>3", "3>1"}, NOTHING_HELD, 1, {2, 3, -3}, 2, {1, 2}},
    {"the last symbols of all", 200, {"-200>199"}, NOTHING_HELD, 199, {200, -200, -199}, 1, {2}},
    {"the last literal of all", 200, {"199>-200", "(1&198)>-200"}, NOTHING_HELD, -200, {1, 199, 198}, 2, {2, 5}},
    /* a candidate and its opposite */
    {"a candidate and its opposite, each a way", 2, {"1>2", "-1>2"}, NOTHING_HELD, 2, {1, -1}, 2, {1, 2}},
    {"the same as one rule, which needs nothing", 2, {"(1>2)&(-1>2)"}, NOTHING_HELD, 2, {1, -1}, 1, {0}},
    {"a candidate and its opposite, together the only way", 4, {"1>2", "-1>3", "(2&3)>4"}, NOTHING_HELD, 4, {1, -1}, 0, {0}},
    {"the same of the last symbol", 200, {"200>1", "-200>2", "(1&2)>3"}, NOTHING_HELD, 3, {200, -200}, 0, {0}},
    {"a candidate, its opposite, and another way", 4, {"1>2", "-1>3", "(2&3)>4"}, NOTHING_HELD, 4, {1, -1, 2}, 1, {6}},
    /* a mark that needs nothing, and one that cannot be had */
    {"a mark that needs nothing", 3, {"2", "2>3"}, NOTHING_HELD, 3, {1, 3, -3}, 1, {0}},
    {"a mark that needs nothing, and no candidates", 2, {"1", "1>2"}, NOTHING_HELD, 2, {0}, 1, {0}},
    {"a mark that cannot be had", 3, {"1>2"}, NOTHING_HELD, 3, {1, 2, -1, -2}, 0, {0}},
    {"a mark that cannot be had without candidates", 2, {"1>2"}, NOTHING_HELD, 2, {0}, 0, {0}},
    {"a mark that the rules rule out", 2, {"-2", "1>2"}, NOTHING_HELD, 2, {1, 2, -1}, 0, {0}},
    {"no rows", 2, {NULL}, NOTHING_HELD, 2, {1, -1, -2}, 0, {0}},
    {"no rows and no candidates", 2, {NULL}, NOTHING_HELD, 2, {0}, 0, {0}},
    /* the literal itself */
    {"the literal itself, and no rows", 2, {NULL}, NOTHING_HELD, 2, {1, 2, -2}, 1, {2}},
    {"the literal itself, and a way to it", 2, {"1>2"}, NOTHING_HELD, 2, {2, 1}, 2, {1, 2}},
    {"the literal itself, which is in conflict alone", 2, {"2>1", "2>-1"}, NOTHING_HELD, 2, {2, 1, -1}, 0, {0}},
    {"the literal itself, which needs nothing", 2, {"2"}, NOTHING_HELD, 2, {2, -2}, 1, {0}},
    /* conflicts */
    {"a set in conflict", 3, {"(1&2)>3", "1>-2"}, NOTHING_HELD, 3, {1, 2}, 0, {0}},
    {"a set in conflict, and one without", 4, {"(1&2)>3", "1>-2", "(1&4)>3"}, NOTHING_HELD, 3, {1, 2, 4}, 1, {5}},
    {"one candidate that is in conflict", 2, {"1>2", "1>-2"}, NOTHING_HELD, 2, {1}, 0, {0}},
    {"one candidate that is in conflict, by its opposite", 2, {"1>2", "1>-2"}, NOTHING_HELD, -1, {1, 2, -2}, 2, {2, 4}},
    {"one in conflict that derives it, and one without", 3, {"1>2", "1>-2", "3>2"}, NOTHING_HELD, 2, {1, 3}, 1, {2}},
    {"one in conflict that derives it, inside every other", 4, {"1>2", "1>-2", "(1&3)>2", "(1&4)>2"}, NOTHING_HELD, 2, {1, 3, 4}, 0, {0}},
    {"two sets that are in conflict together", 3, {"1>3", "2>3", "1>-2"}, NOTHING_HELD, 3, {1, 2}, 2, {1, 2}},
    {"a conflict in a later round than the mark", 4, {"1>2", "1>3", "3>4", "4>-1"}, NOTHING_HELD, 2, {1}, 0, {0}},
    {"a conflict in an earlier round than the mark", 4, {"1>2", "1>-2", "2>3", "3>4"}, NOTHING_HELD, 4, {1, 3}, 1, {2}},
    {"a conflict of symbols that do not lead there", 5, {"1>2", "(1&3)>4", "(1&3)>-4", "3>5"}, NOTHING_HELD, 2, {1, 3, 5}, 1, {1}},
    {"the rules alone in conflict", 3, {"1", "-1", "3>2"}, NOTHING_HELD, 2, {2, 3}, 0, {0}},
    {"the rules alone derive it in conflict", 2, {"1", "-1"}, NOTHING_HELD, 1, {1, 2, -1}, 0, {0}},
    {"the rules alone derive it in conflict, and no candidates", 2, {"1", "-1"}, NOTHING_HELD, -1, {0}, 0, {0}},
    /* what is held on the board */
    {"premises that lead there already", 3, {"(1&2)>3"}, {{1, 2}, {2, 1}}, 3, {1, 2}, 1, {3}},
    {"premises that a candidate would only have to join", 3, {"(1&2)>3"}, {{1}, {1}}, 3, {2}, 0, {0}},
    {"premises of the two furnaces that together lead there", 3, {"(1&2)>3"}, {{1}, {2}}, 3, {3, -3}, 1, {1}},
    {"premises in conflict", 3, {"1>3"}, {{2, -2}, {3, -3}}, 3, {1}, 1, {1}},
    {"premises in conflict with a candidate", 3, {"1>3"}, {{-1}, {-1}}, 3, {1, -1}, 1, {1}},
    {"the mark held for both", 3, {"1>3"}, {{3}, {3}}, 3, {1, 2}, 1, {1}},
    {"the mark's opposite held for both", 3, {"1>3"}, {{-3}, {-3}}, 3, {1, 2}, 1, {1}},
    {"the mark held for both, and no candidates", 3, {"1>3"}, {{3}, {1}}, 3, {0}, 0, {0}},
    /* 12 candidates */
    {"12 candidates, six to a way", 13, {"(1&2&3&4&5&6)>13", "(7&8&9&10&11&12)>13"}, NOTHING_HELD, 13, FIRST_12, 2, {63, 4032}},
    {"12 candidates, all of them needed", 15, {"(1&2&3&4&5&6)>13", "(7&8&9&10&11&12)>14", "(13&14)>15"}, NOTHING_HELD, 15, FIRST_12, 1, {4095}},
    {"12 candidates, the last one or the first ones", 13, {"12>13", "(1&2)>13", "(1&3&4)>13"}, NOTHING_HELD, 13, FIRST_12, 3, {2048, 3, 13}},
    {"12 candidates, none of them a way", 14, {"13>14"}, NOTHING_HELD, 14, FIRST_12, 0, {0}},
    {"12 candidates, and none needed", 13, {"12", "12>13"}, NOTHING_HELD, 13, FIRST_12, 1, {0}},
};

/* A call for the smallest sets of so many candidates, with room for so many. */
static Step smallest_step(int literal, const int16_t *candidates, unsigned count, size_t room) {
    return (Step){.kind = SMALLEST, .value = literal, .numbers = TABLE_LENDABLE, .candidates = candidates, .bytes = count, .standing = count,
                  .lent = {room}, .noise = 7 + count + room};
}

/* True if the call is done and lists these sets, so many, where there is room for them, and is refused where there is not. */
static bool lists(Play *play, int literal, const int16_t *candidates, unsigned count, const uint16_t *sets, unsigned listed, size_t room) {
    Step step = smallest_step(literal, candidates, count, room);
    bool fits = room >= listed;
    if (!(count == MOST_CANDIDATES ? try_counted(play, &step) : play_step(play, &step))) return false;
    return play->last.refusal == (fits ? 0 : 13) && play->last.listed == (fits ? listed : 0) &&
           (!fits || memcmp(play->theirs.sets + GUARD, sets, listed * sizeof sets[0]) == 0);
}

/* True if these sets are listed with just the room for them, one place fewer, none, and more. */
static bool lists_in_rooms(Play *play, int literal, const int16_t *candidates, unsigned count, const uint16_t *sets, unsigned listed) {
    size_t rooms[] = {listed, listed > 0 ? listed - 1 : 0, 0, listed + 1, ALL_SETS, MANY_PLACES};
    bool good = true;
    for (size_t i = 0; i < sizeof rooms / sizeof rooms[0]; i++) good = good && lists(play, literal, candidates, count, sets, listed, rooms[i]);
    return good;
}

/* Opens the board, with its rules and premises. */
static bool set_up(Play *play, const Try *try) {
    play_start(play, 18, true);
    return try_open(play, try->symbols, try->rules, RULES) && try_hold(play, 1, try->held[0], HELD) && try_hold(play, 2, try->held[1], HELD);
}

/* Which of two sets comes first: the smaller one, and of equal size the one with the smaller number. */
static int by_size(const void *first, const void *second) {
    unsigned a = *(const uint16_t *)first, b = *(const uint16_t *)second, more = set_size(a), fewer = set_size(b);
    return more != fewer ? (more > fewer) - (more < fewer) : (a > b) - (a < b);
}

/* Turns candidates and sets round: the last candidate is the first then, and so with the bits of the sets. */
void turn_round(int16_t *candidates, unsigned count, uint16_t *sets, unsigned listed) {
    int16_t given[MOST_CANDIDATES];
    memcpy(given, candidates, count * sizeof given[0]);
    for (unsigned i = 0; i < count; i++) candidates[i] = given[count - 1 - i];
    for (unsigned n = 0; n < listed; n++) {
        unsigned turned = 0;
        for (unsigned i = 0; i < count; i++) turned |= (sets[n] >> i & 1u) << (count - 1 - i);
        sets[n] = (uint16_t)turned;
    }
    if (listed > 0) qsort(sets, listed, sizeof sets[0], by_size);
}

/* True if a board's list is the one that was worked out, with the candidates in either order. */
static bool try_agrees(Play *play, const Try *try) {
    int16_t candidates[MOST_CANDIDATES];
    uint16_t sets[LISTED];
    unsigned count = 0;
    memcpy(candidates, try->candidates, sizeof candidates);
    memcpy(sets, try->sets, sizeof sets);
    while (count < MOST_CANDIDATES && candidates[count] != 0) count++;
    bool good = set_up(play, try) && lists_in_rooms(play, try->literal, candidates, count, sets, try->listed);
    turn_round(candidates, count, sets, try->listed);
    return good && lists_in_rooms(play, try->literal, candidates, count, sets, try->listed);
}

/* Any one of 12 candidates, any two, and any six: there is no longer list than that of any six, 924 sets, since of more than these some would be
 * inside others. */
static bool any_of_12_agree(Play *play) {
    static const int16_t candidates[] = FIRST_12;
    static uint16_t sets[LONGEST_LIST];
    static const unsigned sizes[] = {1, 2, 6}, lengths[] = {12, 66, LONGEST_LIST};
    for (unsigned i = 0; i < 3; i++) {
        play_start(play, 19, true);
        bool good = try_call(play, OPEN, 0, MOST_CANDIDATES + 1, 0) && try_any_of_12(play, sizes[i], MOST_CANDIDATES + 1, sets) == lengths[i];
        for (size_t room = lengths[i] + 1; room + 2 > lengths[i] && good; room--)
            good = lists(play, MOST_CANDIDATES + 1, candidates, MOST_CANDIDATES, sets, lengths[i], room);
        if (!good) return try_wrong(play, "so many of 12 candidates, whichever they are", "of them", sizes[i]);
    }
    return true;
}

/* A full table whose last row leads from 199 and 2 to 200, or from 199 to -200. */
static bool full_table_agrees(Play *play) {
    static const int16_t ends[2][ROW_LITERALS] = {{-2, -199, 200}, {-199, -200}};
    static const int16_t candidates[] = {4, 1, 3, 2, 199};
    static const uint16_t sets[2][2] = {{10, 24}, {2, 16}};
    for (unsigned i = 0; i < 2; i++) {
        play_start(play, 21, true);
        bool good = try_full_table(play, ends[i]) && lists_in_rooms(play, i == 0 ? MOST_SYMBOLS : -MOST_SYMBOLS, candidates, 5, sets[i], 2);
        if (!good) return try_wrong(play, "a full table", "last row", i + 1);
    }
    return true;
}

/* True if all lists are those that were worked out. */
bool set_tries_agree(Play *play) {
    for (size_t i = 0; i < sizeof tries / sizeof tries[0]; i++)
        if (!try_agrees(play, &tries[i])) return try_wrong(play, tries[i].words, "board", (unsigned)i + 1);
    return any_of_12_agree(play) && full_table_agrees(play);
}
