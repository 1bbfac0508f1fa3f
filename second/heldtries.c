/* Furnaces and candidates by which the least to withdraw is refused: which refusal comes of each, or which set, was worked out by hand from document
 * 02's Ticket 12, each refusal alone and each ahead of those that come after it, and is held against the model and the library alike, on a good board
 * and on bad ones. */
#include "givenboard.h"
#include "leasttries.h"
#include "tries.h"

/* What a call is given: the furnace, candidates, so many of them, and numbers standing after these; then the refusal and the set. */
typedef struct Given {
    unsigned furnace, count;
    int16_t candidates[GIVEN];
    unsigned refusal, set;
} Given;

/* Furnace 1 holds 1, -3 and 4: by 1 there is 3, in conflict with -3. Furnace 2 holds every literal. */
static const int held_by_1[] = {1, -3, 4}, held_by_2[] = {ALL_BUT_7, 7, -7};

static const Given given[] = {
    /* done; at the last -6 and -7 have to go, and of each other symbol one: the first given, since -1 to -5 may all stay */
    {1, 2, {1, -3}, 0, 1}, {1, 2, {-3, 1}, 0, 1}, {1, 3, {4, 1, -3}, 0, 2}, {1, 3, {4, -3, 1}, 0, 2}, {1, 1, {1}, 0, 1}, {1, 1, {-3}, 0, 1},
    {1, 2, {4, -3}, 0, 2}, {2, 12, {1, -1, 2, -2, 3, -3, 4, -4, 5, -5, -6, -7}, 0, 3413},
    /* numbers after the candidates are none of them */
    {1, 2, {1, -3, 1}, 0, 1}, {1, 2, {1, -3, 0}, 0, 1}, {1, 2, {1, -3, 8}, 0, 1}, {1, 1, {-3, 2}, 0, 1}, {1, 0, {1, -3}, 18, NONE},
    {1, 1, {4, 1}, 18, NONE}, {2, 12, {1, -1, 2, -2, 3, -3, 4, -4, 5, -5, -6, -7, -7}, 0, 3413}, {1, 0, {-32768}, 18, NONE},
    /* 16 */
    {0, 2, {1, -3}, 16, NONE}, {3, 2, {1, -3}, 16, NONE}, {4, 2, {1, -3}, 16, NONE}, {128, 1, {1}, 16, NONE}, {129, 1, {1}, 16, NONE},
    {254, 1, {1}, 16, NONE}, {255, 2, {1, -3}, 16, NONE}, {0, 0, {0}, 16, NONE}, {255, 0, {0}, 16, NONE},
    /* 2 */
    {1, 1, {0}, 2, NONE}, {1, 1, {8}, 2, NONE}, {1, 1, {-8}, 2, NONE}, {2, 1, {-32768}, 2, NONE}, {2, 1, {32767}, 2, NONE}, {2, 1, {-32767}, 2, NONE},
    {1, 2, {1, 0}, 2, NONE}, {1, 2, {0, 1}, 2, NONE}, {1, 3, {1, 8, -3}, 2, NONE}, {1, 3, {1, -3, -8}, 2, NONE}, {1, 2, {257, -3}, 2, NONE},
    {1, 2, {-255, -3}, 2, NONE}, {2, 12, {8, 1, -1, 2, -2, 3, -3, 4, -4, 5, -6, -7}, 2, NONE},
    {2, 12, {1, -1, 2, -2, 3, -3, 4, -4, 5, -5, -6, 8}, 2, NONE},
    /* 17: one repeated, or more than 12, all of them held */
    {1, 2, {1, 1}, 17, NONE}, {1, 2, {-3, -3}, 17, NONE}, {1, 3, {1, -3, 1}, 17, NONE}, {1, 3, {1, 1, -3}, 17, NONE}, {1, 3, {1, -3, -3}, 17, NONE},
    {2, 12, {1, -1, 2, -2, 3, -3, 4, -4, 5, -5, -6, 1}, 17, NONE}, {2, 13, {ALL_BUT_7, 7}, 17, NONE}, {2, 13, {-7, ALL_BUT_7}, 17, NONE},
    {2, 14, {ALL_BUT_7, 7, -7}, 17, NONE},
    /* 11, where the others would end the conflict */
    {1, 2, {1, 2}, 11, NONE}, {1, 2, {2, 1}, 11, NONE}, {1, 2, {-3, 3}, 11, NONE}, {1, 3, {1, -3, -4}, 11, NONE}, {1, 3, {1, -1, -3}, 11, NONE},
    {1, 3, {7, 1, -3}, 11, NONE}, {1, 12, {1, -3, 4, -1, 2, -2, 3, -4, 5, -5, 6, -6}, 11, NONE},
    /* 18 */
    {1, 1, {4}, 18, NONE}, {1, 0, {0}, 18, NONE}, {2, 0, {0}, 18, NONE}, {2, 1, {1}, 18, NONE}, {2, 12, {ALL_BUT_7}, 18, NONE},
    /* 16 ahead of 2, 17, 11 and 18 */
    {0, 1, {0}, 16, NONE}, {3, 2, {1, 8}, 16, NONE}, {255, 1, {-32768}, 16, NONE}, {0, 2, {1, 1}, 16, NONE}, {3, 13, {ALL_BUT_7, 7}, 16, NONE},
    {255, 13, {ALL_BUT_7, 8}, 16, NONE}, {0, 1, {2}, 16, NONE}, {3, 1, {4}, 16, NONE}, {255, 3, {2, 2, 8}, 16, NONE},
    /* 2 ahead of 17 */
    {1, 3, {1, 1, 8}, 2, NONE}, {1, 3, {0, 1, 1}, 2, NONE}, {1, 2, {8, 8}, 2, NONE}, {1, 2, {0, 0}, 2, NONE}, {2, 13, {ALL_BUT_7, 8}, 2, NONE},
    {2, 13, {ALL_BUT_7, 0}, 2, NONE}, {2, 13, {0, ALL_BUT_7}, 2, NONE}, {2, 14, {ALL_BUT_7, 7, -32768}, 2, NONE}, {1, 13, {ALL_BUT_7, -8}, 2, NONE},
    /* 2 ahead of 11 and 18 */
    {1, 2, {2, 8}, 2, NONE}, {1, 2, {8, 2}, 2, NONE}, {1, 2, {4, 8}, 2, NONE}, {1, 2, {0, 4}, 2, NONE}, {2, 2, {1, 8}, 2, NONE},
    /* 17 ahead of 11 and 18 */
    {1, 2, {2, 2}, 17, NONE}, {1, 3, {2, 1, 2}, 17, NONE}, {1, 3, {1, 1, 2}, 17, NONE}, {1, 3, {2, 1, 1}, 17, NONE},
    {1, 13, {ALL_BUT_7, 7}, 17, NONE}, {1, 14, {ALL_BUT_7, 7, -7}, 17, NONE}, {1, 2, {4, 4}, 17, NONE}, {2, 13, {ALL_BUT_7, 1}, 17, NONE},
    {2, 2, {7, 7}, 17, NONE},
    /* 11 ahead of 18 */
    {1, 1, {2}, 11, NONE}, {1, 1, {-1}, 11, NONE}, {1, 1, {3}, 11, NONE}, {1, 2, {4, 2}, 11, NONE}, {1, 2, {2, 4}, 11, NONE},
    {1, 2, {4, -4}, 11, NONE}, {1, 12, {4, -1, 2, -2, 3, -4, 5, -5, 6, -6, 7, -7}, 11, NONE},
};

/* Furnace 1 holds 1 and 4, and is in no conflict; furnace 2 holds 1 and -3, and is in one. */
static const int calm_held_by_1[] = {1, 4}, calm_held_by_2[] = {1, -3};

static const Given calm[] = {
    {1, 0, {0}, 0, 0}, {1, 2, {4, 1}, 0, 0}, {1, 1, {-3}, 11, NONE}, {1, 2, {1, 2}, 11, NONE}, {1, 2, {4, 4}, 17, NONE}, {1, 1, {8}, 2, NONE},
    {0, 1, {4}, 16, NONE}, {2, 2, {1, -3}, 0, 1}, {2, 1, {4}, 11, NONE}, {2, 0, {0}, 18, NONE},
};

/* Premises of each furnace, so many, and calls, so many. */
typedef struct Calls {
    const char *words;
    const int *held[FURNACES];
    unsigned held_count[FURNACES];
    const Given *given;
    size_t count;
} Calls;

static const Calls all_calls[] = {
    {"candidates to withdraw in conflict", {held_by_1, held_by_2}, {3, 2 * GIVEN_SYMBOLS}, given, sizeof given / sizeof given[0]},
    {"candidates to withdraw without one", {calm_held_by_1, calm_held_by_2}, {2, 2}, calm, sizeof calm / sizeof calm[0]},
};

/* Every call by hand on the good board, and 1 for each of them on every bad one. */
static bool calls_agree(Play *play, const Calls *calls) {
    for (size_t i = 0; i < calls->count; i++) {
        const Given *it = &calls->given[i];
        Step step = try_least(it->furnace, it->candidates, it->count, it->count);
        step.standing = GIVEN;
        bool good = given_open(play) && try_hold(play, 1, calls->held[0], calls->held_count[0]) &&
                    try_hold(play, 2, calls->held[1], calls->held_count[1]) && given_refuses(play, step, it->refusal) && play->last.set == it->set;
        if (!good) return try_wrong(play, calls->words, "call", (unsigned)i + 1);
    }
    return true;
}

/* True if all calls come out as they were worked out. */
bool held_tries_agree(Play *play) {
    return calls_agree(play, &all_calls[0]) && calls_agree(play, &all_calls[1]);
}
