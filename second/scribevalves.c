/* Lines of desk about valves: entered, and joined by pair tables; counts that no valve has, marks that are not as many as they should be. */
#include <string.h>

#include "scribe.h"

/* A count of positions: 2 to 5 mostly, now and then one that no valve has. */
static unsigned draw_positions(Random *random) {
    static const unsigned wrong[] = {0, 1, 8, 9, 40000, 65538};
    if (random_chance(random, 6)) return wrong[random_below(random, 6)];
    return random_chance(random, 85) ? random_between(random, 2, 4) : random_between(random, 5, 7);
}

/* A valve on the board, if it fits: mostly next to those that were entered. */
static Variable draw_valve(Scribe *scribe) {
    Random *random = &scribe->random;
    unsigned symbols = scribe_symbols(scribe), count = draw_positions(random), first = random_between(random, 1, symbols);
    const Variable *last = scribe->valve_count > 0 ? &scribe->valves[scribe->valve_count - 1] : NULL;
    if (random_chance(random, 80)) first = last != NULL ? last->first + last->count : 1;
    if (first > symbols) first = random_between(random, 1, symbols);
    while (count > 2 && count <= 7 && first + count - 1 > symbols && random_chance(random, 90)) count--;
    if (count == 2 && first == symbols && symbols > 1 && random_chance(random, 90)) first--;
    return (Variable){.first = first, .count = count};
}

/* Keeps a valve; of its positions one leans. */
static void keep_valve(Scribe *scribe, Variable valve) {
    unsigned taken = random_below(&scribe->random, valve.count);
    for (unsigned i = 0; i < valve.count; i++) scribe->leaning[valve.first + i] = i == taken;
    scribe->valves[scribe->valve_count++] = valve;
}

/* True if there are valves to join, and no room behind the last one. */
static bool is_full_of_valves(const Scribe *scribe) {
    const Variable *last = scribe->valve_count > 1 ? &scribe->valves[scribe->valve_count - 1] : NULL;
    return last != NULL && last->first + last->count > scribe->desk->board.symbols;
}

/* Draws a line that enters a valve; one that is good is known from then on. Where there is no room for more, it mostly joins two instead. */
void draw_valve_line(Scribe *scribe) {
    if (is_full_of_valves(scribe) && random_chance(&scribe->random, 80)) {
        draw_pairs_line(scribe);
        return;
    }
    Variable valve = draw_valve(scribe);
    start_words(scribe, "valve");
    add_symbol(scribe, valve.first);
    add_number(scribe, valve.count);
    bool good = variable_is_on_board(&valve, scribe->desk->board.symbols) && variable_has_positions(&valve);
    if (good && scribe->valve_count < MOST_VALVES) keep_valve(scribe, valve);
}

/* Adds a word of marks for a position: mostly the pair is allowed of which both lean, and the others every so often. */
static void add_marks(Scribe *scribe, unsigned position, unsigned first, unsigned marks, unsigned allowed) {
    char word[WORD_ROOM];
    for (unsigned j = 0; j < marks; j++) {
        bool lean = first + j <= MOST_SYMBOLS && position <= MOST_SYMBOLS && scribe->leaning[position] && scribe->leaning[first + j];
        word[j] = random_chance(&scribe->random, lean && allowed > 0 ? 95 : allowed) ? '1' : '0';
    }
    word[marks] = 0;
    if (random_chance(&scribe->random, 1)) word[random_below(&scribe->random, marks)] = random_chance(&scribe->random, 50) ? '2' : 'x';
    add_word(scribe, word);
}

/* Chooses two valves that were entered, mostly two that share no symbol. */
static void choose_entered(Scribe *scribe, Variable both[2]) {
    unsigned tries = random_chance(&scribe->random, 92) ? 8 : 1;
    do {
        both[0] = scribe->valves[random_below(&scribe->random, scribe->valve_count)];
        both[1] = scribe->valves[random_below(&scribe->random, scribe->valve_count)];
    } while (--tries > 0 && variables_share(both));
}

/* Draws a line that joins two valves: mostly two that were entered; as long as there are none, mostly one that enters a valve. */
void draw_pairs_line(Scribe *scribe) {
    Random *random = &scribe->random;
    if (scribe->desk->board.symbols > 0 && scribe->valve_count < 2 && random_chance(random, 80)) {
        draw_valve_line(scribe);
        return;
    }
    Variable both[2] = {draw_valve(scribe), draw_valve(scribe)};
    if (scribe->valve_count > 1 && random_chance(random, 85)) choose_entered(scribe, both);
    start_words(scribe, "pairs");
    for (unsigned i = 0; i < 2; i++) {
        add_symbol(scribe, both[i].first);
        add_number(scribe, both[i].count);
    }
    unsigned words = both[0].count <= 9 ? both[0].count : 3, marks = both[1].count <= 9 && both[1].count > 0 ? both[1].count : 3;
    if (random_chance(random, 4)) words += random_chance(random, 50) ? 1 : words > 0 ? (unsigned)-1 : 0;
    if (random_chance(random, 3)) marks++;
    unsigned allowed = random_chance(random, 5) ? 0 : random_between(random, 25, 90);
    for (unsigned i = 0; i < words; i++) add_marks(scribe, both[0].first + i, both[1].first, marks, allowed);
}
