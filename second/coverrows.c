/* Counts of what came up in the rounds of settled boards, row by row: what goes wrong where rows are found by their literals. */
#include "cover.h"

/* Cases, each of which has to come up; a board is counted once for each. */
enum {
    SINGLE_GIVES, SINGLE_HELD, SINGLE_RULED_OUT, ROWS_ALONE, IN_32_ROWS, SEVERAL_GIVE, GIVES_LATER_AGAIN, GIVES_ALL_AT_ONCE, GIVEN_THEN_RULED_OUT,
    TWO_AT_ONCE, NONE_LEFT_NOTHING_GIVEN, ROW_AFTER, ROW_BEFORE, ROW_OF_8, PLUS_200, MINUS_200, ROW_0, ROW_2047, RANK_2_IN_2048, RANK_20_IN_2048,
    CASES
};

static const char *const case_words[CASES] = {
    "a row of one literal gives it", "a row of one literal that is held", "a row of one literal, ruled out", "a rank of 2 or more, nothing held",
    "a literal ruled out in 32 rows or more", "several rows give one rank", "a row gives, and more in a later round",
    "a row gives several literals in a round", "a row gives, ruled out in a later round", "two literals of it ruled out at once",
    "no literal left, and none given", "a row after the one it waits for", "a row before the one it waits for", "a row of 8 literals gives",
    "200 given by a row", "-200 given by a row", "row 0 is a support", "row 2,047 is a support", "2,048 rows and a rank of 2 or more",
    "2,048 rows and a rank of 20 or more"};

static unsigned long cases[CASES];

/* A row of a settled board: the ranks of its literals and of their opposites. */
typedef struct Ranked {
    unsigned length, rank[ROW_LITERALS], opposite[ROW_LITERALS];
} Ranked;

/* The row with its ranks. */
static Ranked ranked(const int16_t *row, const uint16_t *ranks) {
    Ranked it = {0};
    for (; it.length < ROW_LITERALS && row[it.length] != 0; it.length++) {
        it.rank[it.length] = ranks[place_of(row[it.length])];
        it.opposite[it.length] = ranks[place_of(-row[it.length])];
    }
    return it;
}

/* True if the row gave literal i its rank. */
static bool gave(const Ranked *it, unsigned i) {
    if (it->rank[i] == 0 || it->rank[i] == NONE) return false;
    for (unsigned j = 0; j < it->length; j++)
        if (j != i && it->opposite[j] >= it->rank[i]) return false;
    return true;
}

/* Notes what a literal that the row gave is a case of. */
static void note_given(const Ranked *it, unsigned i, bool seen[CASES]) {
    unsigned last = 0;
    for (unsigned j = 0; j < it->length; j++) last += j != i && it->opposite[j] + 1 == it->rank[i];
    seen[SINGLE_GIVES] |= it->length == 1;
    seen[ROW_OF_8] |= it->length == ROW_LITERALS;
    seen[TWO_AT_ONCE] |= last > 1;
    seen[GIVEN_THEN_RULED_OUT] |= it->opposite[i] != NONE && it->opposite[i] >= it->rank[i];
    for (unsigned j = 0; j < i; j++) {
        seen[GIVES_ALL_AT_ONCE] |= gave(it, j) && it->rank[j] == it->rank[i];
        seen[GIVES_LATER_AGAIN] |= gave(it, j) && it->rank[j] != it->rank[i];
    }
}

/* Notes the cases of one row. */
static void note_row(const Ranked *it, bool seen[CASES]) {
    unsigned given = 0, left = 0;
    for (unsigned i = 0; i < it->length; i++) {
        left += it->opposite[i] == NONE;
        if (!gave(it, i)) continue;
        given++;
        note_given(it, i, seen);
    }
    seen[SINGLE_HELD] |= it->length == 1 && it->rank[0] == 0;
    seen[SINGLE_RULED_OUT] |= it->length == 1 && left == 0;
    seen[NONE_LEFT_NOTHING_GIVEN] |= it->length > 1 && left == 0 && given == 0;
}

/* Notes whether the support of a place stands after or before that of a literal whose rank it waits for. */
static void note_order(const Play *play, unsigned place, bool seen[CASES]) {
    const uint16_t *ranks = play->ours.ranks + GUARD, *supports = play->ours.supports + GUARD;
    const int16_t *row = play->ours.table + GUARD + WIDTH * supports[place];
    for (unsigned i = 0; i < ROW_LITERALS && row[i] != 0; i++) {
        unsigned waited = place_of(-row[i]);
        if (place_of(row[i]) == place || supports[waited] == NONE || ranks[waited] + 1 != ranks[place]) continue;
        seen[ROW_AFTER] |= supports[place] > supports[waited];
        seen[ROW_BEFORE] |= supports[place] < supports[waited];
    }
}

/* Notes the cases of one derived literal, by its place: how many rows have it, and how many gave it its rank. */
static void note_place(const Play *play, unsigned place, unsigned having, unsigned giving, bool seen[CASES]) {
    unsigned rank = play->ours.ranks[GUARD + place], support = play->ours.supports[GUARD + place];
    seen[IN_32_ROWS] |= having >= 32 && play->ours.ranks[GUARD + place_of(-literal_at(place))] != NONE;
    if (support == NONE) return;
    seen[SEVERAL_GIVE] |= giving > 1;
    seen[PLUS_200] |= literal_at(place) == MOST_SYMBOLS;
    seen[MINUS_200] |= literal_at(place) == -MOST_SYMBOLS;
    seen[ROW_0] |= support == 0;
    seen[ROW_2047] |= support == MOST_ROWS - 1;
    seen[RANK_2_IN_2048] |= play->board.rows == MOST_ROWS && rank >= 2;
    seen[RANK_20_IN_2048] |= play->board.rows == MOST_ROWS && rank >= 20;
    note_order(play, place, seen);
}

/* Counts the cases of a board that was settled for a furnace. */
void cover_rows(const Play *play, unsigned furnace) {
    const Board *board = &play->board;
    unsigned having[PLACES] = {0}, giving[PLACES] = {0};
    bool seen[CASES] = {false}, second = false;
    for (unsigned r = 0; r < board->rows; r++) {
        const int16_t *row = play->ours.table + GUARD + WIDTH * r;
        Ranked it = ranked(row, play->ours.ranks + GUARD);
        note_row(&it, seen);
        for (unsigned i = 0; i < it.length; i++) having[place_of(row[i])]++, giving[place_of(row[i])] += gave(&it, i);
    }
    for (unsigned p = 0; p < 2 * board->symbols; p++) {
        note_place(play, p, having[p], giving[p], seen);
        second |= play->ours.ranks[GUARD + p] == 2;
    }
    seen[ROWS_ALONE] = second && !held_before(play, furnace);
    for (unsigned c = 0; c < CASES; c++) cases[c] += seen[c];
}

const Part rows_part = {.cases = {"boards settled with", case_words, cases, CASES, 42}};
