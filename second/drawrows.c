/* Rows of the caller's, and premises for them, that are hard to find by their literals: a few symbols, the last ones of the board, in rows of one
 * literal and more; of any signs, so that rows are ruled out whole, or of one + each; one literal in most of the rows; rows repeated. A full table
 * has such rows in front and at its end, and between them a chain that is repeated link by link, or rows that nothing reaches. */
#include "drawrows.h"

#include <stdlib.h>
#include <string.h>

#include "drawfurnace.h"

/* The symbols of such rows, the literal that most of them have or 0, and whether each has one + only. */
typedef struct Knot {
    unsigned low, high;
    int hub;
    bool one_plus;
} Knot;

/* A literal of the knot, of either sign. */
static int knot_literal(Draft *draft, const Knot *knot) {
    int symbol = (int)random_between(&draft->random, knot->low, knot->high);
    return random_chance(&draft->random, 50) ? symbol : -symbol;
}

/* Adds a row of the knot. */
static void add_knot_row(Draft *draft, const Knot *knot) {
    Random *random = &draft->random;
    Step *step = add_own_row(draft);
    unsigned range = knot->high - knot->low + 1, most = random_chance(random, 70) ? 3 : ROW_LITERALS, used = 0;
    unsigned length = random_chance(random, 12) ? 1 : random_between(random, 2, most);
    if (length > range) length = range;
    unsigned plus = random_below(random, length);
    int hub = random_chance(random, 85) ? knot->hub : 0;
    for (unsigned s = knot->low; s <= knot->high && used < length; s++) {
        bool is_hub = (unsigned)abs(hub) == s;
        if (!is_hub && random_below(random, knot->high - s + 1) >= length - used) continue;
        bool positive = knot->one_plus ? used == plus : random_chance(random, 50);
        step->row[used++] = (int16_t)(is_hub ? hub : positive ? (int)s : -(int)s);
    }
}

/* Adds a row between those of the knot in a full table: a link of the chain, or with no chain a row that no premise reaches. */
static void add_filling(Draft *draft, unsigned row, unsigned links) {
    Step *step = add_own_row(draft);
    unsigned from = links != 0 ? 1 + row % links : random_between(&draft->random, 1, 100);
    step->row[0] = (int16_t)-(int)from;
    step->row[1] = (int16_t)(from + 1);
}

/* Adds a row: of the knot, as one of the ten before it, or in the middle of a full table. */
static void add_knot_or_filling(Draft *draft, const Knot *knot, unsigned row, unsigned rows, unsigned links) {
    unsigned edge = 10;
    if (rows == MOST_ROWS && row >= edge && row < rows - edge) {
        add_filling(draft, row, links);
    } else if (row >= edge && random_chance(&draft->random, 15)) {
        const Step *before = &draft->steps[draft->count - 1 - random_below(&draft->random, edge)];
        int16_t again[ROW_LITERALS];
        memcpy(again, before->row, sizeof again);
        memcpy(add_own_row(draft)->row, again, sizeof again);
    } else {
        add_knot_row(draft, knot);
    }
}

/* Adds so many rows, and holds up to four literals of them; with a chain its first as well. */
void add_knot(Draft *draft, unsigned rows) {
    Random *random = &draft->random;
    unsigned symbols = draft->symbols, range = symbols < 3 ? symbols : random_between(random, 2, symbols < 9 ? symbols : 9);
    Knot knot = {.low = symbols - range + 1, .high = symbols, .one_plus = random_chance(random, 30)};
    unsigned links = rows == MOST_ROWS && random_chance(random, 60) ? random_between(random, 5, 40) : 0;
    if (random_chance(random, 30)) knot.hub = knot_literal(draft, &knot);
    for (unsigned r = 0; r < rows; r++) add_knot_or_filling(draft, &knot, r, rows, links);
    if (links != 0) add_hold(draft, 1);
    for (unsigned n = random_below(random, 5); n > 0; n--) add_hold(draft, knot_literal(draft, &knot));
}
