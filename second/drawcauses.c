/* Rows of the caller's, and premises for them, by which a mark has many causes: of the last symbols of the board, the very last one is the mark, and
 * rows lead to it from one other or several of them. On some boards all rows do, from as many causes each, so that there are many smallest sets; on
 * others some rows lead from cause to cause, and some keep causes apart: held together these are in conflict. */
#include "drawcauses.h"

#include "drawfurnace.h"

enum { MOST_CAUSES = 12, LONGEST = 5 };

/* The symbols of the causes, the mark, which of the causes lead to it by being false, and from how many causes all rows lead to it; 0 where not all
 * are alike. */
typedef struct Causes {
    unsigned low, high;
    int mark;
    unsigned turned, alike;
} Causes;

/* The literal of a cause that leads to the mark; now and then the opposite one. */
static int cause_literal(Draft *draft, const Causes *causes, unsigned symbol) {
    bool turned = causes->turned >> (symbol - causes->low) & 1;
    return turned == random_chance(&draft->random, causes->alike > 0 ? 97 : 90) ? -(int)symbol : (int)symbol;
}

/* Adds a row: from so many causes to the mark, to one of them, or with no end. */
static void add_cause(Draft *draft, const Causes *causes) {
    enum { TO_MARK = 60, TO_CAUSE = 82 };
    static const unsigned weights[LONGEST] = {12, 40, 28, 14, 6};
    Random *random = &draft->random;
    Step *step = add_own_row(draft);
    unsigned range = causes->high - causes->low + 1, length = 1 + random_weighted(random, weights, LONGEST), sort = random_below(random, 100);
    unsigned used = 0;
    if (causes->alike > 0) length = causes->alike, sort = 0;
    if (length > range) length = range;
    unsigned to = sort < TO_MARK ? length : random_below(random, length);
    for (unsigned s = causes->low; s <= causes->high && used < length; s++) {
        if (random_below(random, causes->high - s + 1) >= length - used) continue;
        int literal = cause_literal(draft, causes, s);
        step->row[used] = (int16_t)(sort < TO_CAUSE && used == to ? literal : -literal);
        used++;
    }
    if (sort < TO_MARK) step->row[used] = (int16_t)causes->mark;
}

/* Adds so many rows, and holds up to four causes. */
void add_causes(Draft *draft, unsigned rows) {
    Random *random = &draft->random;
    unsigned symbols = draft->symbols, most = symbols - 1 < MOST_CAUSES ? symbols - 1 : MOST_CAUSES;
    unsigned range = random_between(random, most < 6 || random_chance(random, 10) ? 1 : 6, most);
    Causes causes = {.low = symbols - range, .high = symbols - 1, .turned = random_chance(random, 50) ? 0 : random_below(random, 1u << range)};
    causes.mark = random_chance(random, 70) ? (int)symbols : -(int)symbols;
    if (random_chance(random, 40)) causes.alike = random_between(random, 2, LONGEST - 1);
    for (unsigned r = 0; r < rows; r++) add_cause(draft, &causes);
    for (unsigned n = random_below(random, 5); n > 0; n--) {
        unsigned symbol = random_between(random, causes.low, causes.high);
        add_hold(draft, cause_literal(draft, &causes, symbol));
    }
}
