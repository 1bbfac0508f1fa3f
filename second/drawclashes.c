/* Rows of the caller's, and premises for them, by which a furnace is in conflict in several ways at once: literals of the last symbols of the board
 * are held, and each clash is a row that is ruled out whole by a few of them, or two rows that lead from a few to a mark and to its opposite. One of
 * the few has to go, so that the least to withdraw is to be chosen among what many clashes share. On some boards one premise is in most clashes; on
 * others the clashes take the premises by turns and share none as long as there are more, so that the conflicts are separate. */
#include "drawclashes.h"

#include <stdlib.h>

enum { MOST_PREMISES = 18, MANY_PREMISES = 13, MOST_CLASHING = 4 };

/* The premises, one for each of these symbols; the symbols below them are for marks. The first premise is the hub, if there is one; by turns the next
 * one is taken. */
typedef struct Clashes {
    int premise[MOST_PREMISES];
    unsigned count, marks, next;
    bool hub, by_turns;
} Clashes;

/* Adds a row of so many literals, in the order of their symbols. */
static void add_sorted(Draft *draft, const int *literals, unsigned count) {
    Step *step = add_own_row(draft);
    for (unsigned n = 0; n < count; n++) {
        unsigned at = n;
        for (; at > 0 && abs(step->row[at - 1]) > abs(literals[n]); at--) step->row[at] = step->row[at - 1];
        step->row[at] = (int16_t)literals[n];
    }
}

/* Draws so many different premises, and lists their opposites. */
static void draw_opposites(Draft *draft, Clashes *clashes, int *opposites, unsigned count) {
    bool taken[MOST_PREMISES] = {false};
    for (unsigned n = 0; n < count; n++) {
        unsigned i = clashes->by_turns ? clashes->next++ % clashes->count : random_below(&draft->random, clashes->count);
        if (n == 0 && clashes->hub && random_chance(&draft->random, 85)) i = 0;
        while (taken[i]) i = (i + 1) % clashes->count;
        taken[i] = true;
        opposites[n] = -clashes->premise[i];
    }
}

/* Adds a clash of one premise with itself: rows to two marks that clash. Where it is not held nothing rules it out. Now and then its opposite clashes
 * with itself as well, and is held. */
static void add_clash_alone(Draft *draft, const Clashes *clashes, int opposite) {
    int mark = (int)random_between(&draft->random, 1, clashes->marks), other = mark % (int)clashes->marks + 1;
    bool both = random_chance(&draft->random, 30);
    add_sorted(draft, (int[]){-mark, -other}, 2);
    for (int sign = 1; sign >= (both ? -1 : 1); sign -= 2) {
        add_sorted(draft, (int[]){sign * opposite, mark}, 2);
        add_sorted(draft, (int[]){sign * opposite, other}, 2);
    }
    if (both) add_step(draft, HOLD)->value = opposite;
}

/* Adds a clash of a few premises with each other: of all but one to a mark, and of that one to its opposite, now and then by way of another mark. */
static void add_clash_by_mark(Draft *draft, const Clashes *clashes, int *opposites, unsigned count) {
    int mark = (int)random_between(&draft->random, 1, clashes->marks) * (random_chance(&draft->random, 50) ? 1 : -1), last = opposites[count - 1];
    int other = mark > 0 ? mark % (int)clashes->marks + 1 : mark;
    opposites[count - 1] = mark;
    add_sorted(draft, opposites, count);
    if (other != mark) add_sorted(draft, (int[]){-mark, other}, 2);
    add_sorted(draft, (int[]){last, -other}, 2);
}

/* Adds a clash of a few premises: by marks, or as a row of their opposites. */
static void add_clash(Draft *draft, Clashes *clashes) {
    static const unsigned weights[MOST_CLASHING] = {8, 60, 24, 8};
    int opposites[MOST_CLASHING];
    unsigned count = 1 + random_weighted(&draft->random, weights, MOST_CLASHING);
    if (count > clashes->count) count = clashes->count;
    draw_opposites(draft, clashes, opposites, count);
    bool by_marks = random_chance(&draft->random, count == 1 ? 70 : 40);
    if (by_marks && count == 1 && clashes->marks > 1) add_clash_alone(draft, clashes, opposites[0]);
    else if (by_marks && count > 1 && clashes->marks > 0) add_clash_by_mark(draft, clashes, opposites, count);
    else add_sorted(draft, opposites, count);
}

/* Holds a premise for the favoured furnace, seldom not; now and then its opposite as well, or either of them for the other furnace. */
static void hold_premise(Draft *draft, int literal) {
    static const unsigned chances[FURNACES][2] = {{96, 6}, {45, 8}};
    for (unsigned i = 0; i < FURNACES * 2; i++) {
        if (!random_chance(&draft->random, chances[i / 2][i % 2])) continue;
        Step *step = add_step(draft, HOLD);
        step->furnace = i / 2 == 0 ? draft->favoured : 3 - draft->favoured;
        step->value = i % 2 == 0 ? literal : -literal;
    }
}

/* Adds so many clashes, a few rows more that lead from premise to premise, and holds the premises. Of the rows alone few boards are in conflict. */
void add_clashes(Draft *draft, unsigned rows) {
    Random *random = &draft->random;
    unsigned most = draft->symbols < MOST_PREMISES ? draft->symbols : MOST_PREMISES, sort = random_below(random, 100);
    unsigned least = most < 4 ? 1 : most < MANY_PREMISES || random_chance(random, 60) ? 3 : MANY_PREMISES;
    Clashes clashes = {.count = random_between(random, least, most), .hub = sort < 30, .by_turns = sort >= 60};
    clashes.marks = draft->symbols - clashes.count;
    for (unsigned i = 0; i < clashes.count; i++)
        clashes.premise[i] = (int)(draft->symbols - i) * (random_chance(random, 70) ? 1 : -1);
    for (unsigned r = 0; r < rows; r++) {
        add_clash(draft, &clashes);
        if (clashes.count < 2 || !random_chance(random, 12)) continue;
        int pair[2];
        draw_opposites(draft, &clashes, pair, 2);
        pair[1] = -pair[1];
        add_sorted(draft, pair, 2);
    }
    if (clashes.marks > 0 && random_chance(random, 5)) add_sorted(draft, (int[]){1}, 1), add_sorted(draft, (int[]){-1}, 1);
    for (unsigned i = 0; i < clashes.count; i++) hold_premise(draft, clashes.premise[i]);
}
