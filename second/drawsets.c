/* Drawing the steps of a sequence that list the smallest sets of candidates: a literal to explain, and candidates that matter for it. Ways lead back
 * from the literal along the rows in use; premises, opposites, the literal itself and others come between. Now and then the candidates or the literal
 * are at fault, several of them at once. */
#include "drawsets.h"

#include "draw.h"
#include "drawhand.h"

enum { WAYS_BACK = 2, MOST_WAYS = 12, MOST_MORE = 8 };

/* A premise of either furnace, or any literal where there are none. */
static int draw_held(Draft *draft, const Play *play) {
    unsigned count = 0, taken = 0;
    for (unsigned i = 0; i < FURNACES * PLACES; i++)
        if (premises_of(&play->board, 1 + i / PLACES)[i % PLACES] && random_below(&draft->random, ++count) == 0) taken = i % PLACES;
    return count == 0 ? draw_literal(draft, play) : literal_at(taken);
}

/* One of the rows in use that have the literal; NULL where there is none. */
static const int16_t *row_with(Draft *draft, const Play *play, int literal) {
    const int16_t *taken = NULL;
    unsigned count = 0;
    for (unsigned r = 0; r < play->board.rows && r < MOST_ROWS; r++) {
        const int16_t *row = play->ours.table + GUARD + WIDTH * r;
        bool has = false;
        for (unsigned i = 0; i < ROW_LITERALS && row[i] != 0; i++) has |= row[i] == literal;
        if (has && random_below(&draft->random, ++count) == 0) taken = row;
    }
    return taken;
}

/* Takes a way to the literal: what one of its rows waits for, the opposites of the other literals; now and then a way to one of them instead. A
 * literal without a row is taken itself. */
static void take_way(Draft *draft, const Play *play, Hand *hand, int literal, unsigned further) {
    const int16_t *row = row_with(draft, play, literal);
    if (row == NULL) hand_take(hand, literal);
    for (unsigned i = 0; row != NULL && i < ROW_LITERALS && row[i] != 0; i++) {
        if (row[i] == literal) continue;
        if (further > 0 && random_chance(&draft->random, 30)) take_way(draft, play, hand, -row[i], further - 1);
        else hand_take(hand, -row[i]);
    }
}

/* A candidate more: the literal itself or its opposite, the opposite of one taken, a premise, what some row waits for or has, or any literal. */
static int draw_another(Draft *draft, const Play *play, const Hand *hand, int literal) {
    Random *random = &draft->random;
    unsigned sort = random_below(random, 100);
    if (sort < 8) return literal;
    if (sort < 14) return -literal;
    if (sort < 30 && hand->count > 0) return -hand->candidates[random_below(random, hand->count)];
    if (sort < 45) return draw_held(draft, play);
    if (sort < 65) return -draw_of_rows(draft, play, false);
    return sort < 80 ? draw_of_rows(draft, play, false) : draw_literal(draft, play);
}

/* Takes ways to the literal or the premises of a furnace, and others; or ways first of all, and then only what some row waits for, mostly where there
 * are to be many. */
static void take_all(Draft *draft, const Play *play, Hand *hand, int literal, bool many) {
    Random *random = &draft->random;
    bool ways_only = random_chance(random, many ? 75 : 25);
    if (!ways_only && random_chance(random, 25)) hand_take_premises(play, hand, 1 + random_below(random, FURNACES));
    for (unsigned n = ways_only ? MOST_WAYS : random_below(random, 4); n > 0; n--) take_way(draft, play, hand, literal, ways_only ? 0 : WAYS_BACK);
    for (unsigned tries = 0; tries < 60 && hand->count < hand->wanted; tries++)
        hand_take(hand, ways_only ? -draw_of_rows(draft, play, false) : draw_another(draft, play, hand, literal));
}

/* Lets the candidates or the literal be at fault now and then; where something is already, other things more often. */
static void spoil_hand(Draft *draft, const Play *play, Hand *hand, Step *step) {
    hand_faults(draft, play, hand, step);
    if (!random_chance(&draft->random, step->faults > 0 || hand->count == 0 ? 15 : 4)) return;
    step->value = draw_bad_literal(&draft->random, symbols_of(draft, play));
    step->faults++;
}

/* Lends the places for sets: as many as the list needs, one fewer, none, or more, up to all that there can be and beyond what 16 bits can count. A
 * list that is refused needs none. */
static void draw_places(Draft *draft, const Play *play, Step *step) {
    static uint16_t sets[ALL_SETS];
    Random *random = &draft->random;
    unsigned sort = random_below(random, 100), due = 0;
    if (sort < 58) {
        const int16_t *table = play->ours.table + GUARD;
        due = model_smallest(&play->board, table, TABLE_LENDABLE, step->candidates, step->bytes, step->value, sets, ALL_SETS).listed;
    }
    size_t all = step->bytes <= MOST_CANDIDATES ? (size_t)1 << step->bytes : ALL_SETS, room = ALL_SETS;
    if (sort < 28) room = due;
    else if (sort < 42) room = due > 0 ? due - 1 : 0;
    else if (sort < 58) room = sort < 48 ? 0 : due + random_between(random, 1, MOST_MORE);
    else if (sort < 85) room = sort < 70 ? all : random_below(random, 40);
    else if (sort > 93) room = sort > 96 ? 65536 + random_below(random, 4) : ALL_SETS + random_below(random, 40);
    step->faults += room < due;
    step->lent[0] = room;
}

/* A literal to explain: mostly one of the rows in use, and then often the last of its row, where causes have their mark. */
static int draw_explained(Draft *draft, const Play *play, bool many) {
    bool last = random_chance(&draft->random, many ? 90 : 60);
    return random_chance(&draft->random, many ? 95 : 75) ? draw_of_rows(draft, play, last) : draw_literal(draft, play);
}

/* Fills in a step that lists the smallest sets, of few candidates mostly, or of many. */
void draw_smallest(Draft *draft, const Play *play, Step *step, bool many) {
    static const unsigned weights[2][HANDS] = {{5, 6, 12, 18, 18, 15, 10, 6, 3, 1, 1, 0, 1, 6}, {0, 0, 0, 0, 0, 16, 24, 24, 18, 9, 3, 1, 5}};
    static Hand hand;
    step->value = draw_explained(draft, play, many);
    hand_start(draft, play, &hand, weights[many], symbols_of(draft, play));
    take_all(draft, play, &hand, step->value, many);
    hand_shuffle(&draft->random, &hand);
    hand_fill(draft, play, &hand);
    spoil_hand(draft, play, &hand, step);
    hand_keep(draft, play, &hand, step);
    if (step->kind == SMALLEST) draw_places(draft, play, step);
}
