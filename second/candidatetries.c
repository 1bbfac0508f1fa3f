/* Candidates, literals and rooms by which a list of smallest sets is refused: which refusal comes of each was worked out by hand from document 02's
 * Ticket 10, and is held against the model and the library alike, on a good board and on bad ones. Then a great many candidates, for the least to
 * withdraw too. */
#include "settries.h"

#include "givenboard.h"
#include "tries.h"

/* What a call is given: the literal, candidates, so many of them, numbers standing after these, and the room; then the refusal. */
typedef struct Given {
    int literal;
    unsigned count;
    int16_t candidates[GIVEN];
    size_t room;
    unsigned refusal;
} Given;

static const Given given[] = {
    /* the list has the sets 1 and 2, or just one of them, or none */
    {3, 2, {1, 2}, 2, 0}, {3, 2, {1, 2}, 3, 0}, {3, 2, {1, 2}, 1, 13}, {3, 2, {1, 2}, 0, 13}, {3, 1, {2}, 1, 0}, {3, 1, {2}, 0, 13},
    {3, 1, {4}, 0, 0}, {3, 0, {0}, 0, 0}, {3, 2, {1, -1}, 1, 0}, {3, 2, {1, -1}, 0, 13}, {-3, 2, {3, -3}, 1, 0}, {7, 2, {7, -7}, 1, 0},
    {-7, 12, {ALL_BUT_7}, 0, 0}, {-7, 12, {-7, 7, ALL_BUT_7}, 1, 0}, {-7, 12, {-7, 7, ALL_BUT_7}, 0, 13},
    /* numbers after the candidates are none of them */
    {3, 2, {1, 2, 1}, 2, 0}, {3, 2, {1, 2, 0}, 2, 0}, {3, 2, {1, 2, 8}, 2, 0}, {3, 0, {-32768}, 0, 0}, {-7, 12, {ALL_BUT_7, -7}, 0, 0},
    {-7, 12, {ALL_BUT_7, 1, 0}, 0, 0},
    /* 2: the literal */
    {0, 2, {1, 2}, 2, 2}, {8, 2, {1, 2}, 2, 2}, {-8, 2, {1, 2}, 2, 2}, {200, 2, {1, 2}, 2, 2}, {-32767, 2, {1, 2}, 2, 2}, {32767, 2, {1, 2}, 2, 2},
    {-32768, 2, {1, 2}, 2, 2}, {0, 0, {0}, 0, 2}, {8, 0, {0}, 4096, 2}, {259, 2, {1, 2}, 2, 2}, {-253, 2, {1, 2}, 2, 2},
    /* 2: a candidate */
    {3, 1, {0}, 1, 2}, {3, 1, {8}, 1, 2}, {3, 1, {-8}, 1, 2}, {3, 1, {-32768}, 1, 2}, {3, 1, {32767}, 1, 2}, {3, 1, {-32767}, 1, 2},
    {3, 2, {0, 1}, 4, 2}, {3, 2, {1, 0}, 4, 2}, {3, 3, {1, 8, 2}, 4, 2}, {3, 3, {257, 1, 2}, 4, 2}, {3, 12, {ALL_BUT_7}, 1, 13},
    {3, 12, {8, ALL_BUT_7}, 4096, 2}, {3, 12, {1, -1, 2, -2, 3, -3, 4, -4, 5, -5, 6, 8}, 4096, 2},
    /* 17: one repeated, or more than 12 */
    {3, 2, {1, 1}, 4, 17}, {3, 2, {-7, -7}, 4, 17}, {3, 3, {1, 2, 1}, 4, 17}, {3, 3, {1, 2, 2}, 4, 17}, {3, 3, {1, 1, 2}, 4, 17},
    {3, 5, {1, -1, 2, -2, 1}, 32, 17}, {7, 12, {1, -1, 2, -2, 3, -3, 4, -4, 5, -5, 6, 1}, 4096, 17}, {3, 13, {ALL_BUT_7, 7}, 4096, 17},
    {3, 14, {ALL_BUT_7, 7, -7}, 4096, 17}, {3, 13, {ALL_BUT_7, 1}, 4096, 17}, {3, 13, {ALL_BUT_7, -6}, 4096, 17},
    /* 2 ahead of 17 */
    {8, 2, {1, 1}, 4, 2}, {3, 3, {1, 1, 8}, 4, 2}, {3, 3, {0, 1, 1}, 4, 2}, {3, 2, {8, 8}, 4, 2}, {3, 2, {0, 0}, 4, 2},
    {0, 13, {ALL_BUT_7, 7}, 4096, 2}, {3, 13, {ALL_BUT_7, 8}, 4096, 2}, {3, 13, {ALL_BUT_7, 0}, 4096, 2},
    {3, 14, {ALL_BUT_7, 7, -32768}, 4096, 2}, {3, 13, {0, ALL_BUT_7}, 4096, 2},
    /* 2 and 17 ahead of 13 */
    {8, 2, {1, 2}, 0, 2}, {3, 3, {1, 2, 8}, 0, 2}, {3, 3, {1, 2, 8}, 1, 2}, {3, 3, {1, 2, 1}, 0, 17}, {3, 3, {1, 2, 2}, 1, 17},
    {3, 13, {ALL_BUT_7, 7}, 0, 17}, {3, 13, {ALL_BUT_7, 8}, 0, 2},
};

/* Every call by hand on the good board, and 1 for each of them on every bad one. */
static bool given_agree(Play *play) {
    for (size_t i = 0; i < sizeof given / sizeof given[0]; i++) {
        const Given *it = &given[i];
        Step step = {.kind = SMALLEST, .value = it->literal, .candidates = it->candidates, .bytes = it->count, .standing = GIVEN, .lent = {it->room},
                     .noise = 11 + it->count};
        if (!given_open(play) || !given_refuses(play, step, it->refusal)) return try_wrong(play, "candidates given", "call", (unsigned)i + 1);
    }
    return true;
}

/* Makes a call of a great many candidates, for furnace 1 or for a literal; false where the sides differ or the refusal is another. */
static bool many_refused(Play *play, Kind kind, const int16_t *candidates, size_t count, int literal, unsigned refusal) {
    Step step = {.kind = kind, .furnace = 1, .value = literal, .numbers = TABLE_LENDABLE, .candidates = candidates, .bytes = count, .standing = count,
                 .lent = {ALL_SETS}, .noise = 12 + count};
    return play_step(play, &step) && play->last.refusal == refusal;
}

/* Calls of so many candidates: 17, and 2 where the literal, the first or the last of them is none. To withdraw them 11 would be due as well. */
static bool count_agrees(Play *play, Kind kind, int16_t *candidates, size_t count) {
    int16_t first = candidates[0], last = candidates[count - 1];
    bool good = given_open(play) && many_refused(play, kind, candidates, count, 3, 17);
    if (gives_literal(kind)) good = good && many_refused(play, kind, candidates, count, 0, 2);
    candidates[count - 1] = GIVEN_SYMBOLS + 1;
    good = good && many_refused(play, kind, candidates, count, 3, 2);
    candidates[count - 1] = last;
    candidates[0] = 0;
    good = good && many_refused(play, kind, candidates, count, 3, 2);
    candidates[0] = first;
    return good;
}

/* More candidates than 12, up to more than 16 bits can count, the first 12 of them all different, for both calls that are given some. */
static bool many_agree(Play *play) {
    static const size_t counts[] = {13, 14, 24, 32, 255, 256, 257, 268, 269, 4096, 4108, 32768, 65535, 65536, 65537, 65548, 65549};
    static const int16_t first[] = {ALL_BUT_7};
    static int16_t candidates[CANDIDATES_LENDABLE];
    for (size_t i = 0; i < CANDIDATES_LENDABLE; i++) candidates[i] = first[i % MOST_CANDIDATES];
    for (size_t i = 0; i < sizeof counts / sizeof counts[0]; i++)
        if (!count_agrees(play, SMALLEST, candidates, counts[i]) || !count_agrees(play, LEAST, candidates, counts[i]))
            return try_wrong(play, "a great many candidates", "candidates", (unsigned)counts[i]);
    return true;
}

/* True if all calls come out as they were worked out. */
bool candidate_tries_agree(Play *play) {
    return given_agree(play) && many_agree(play);
}
