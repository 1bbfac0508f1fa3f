/* Random scripts for desk: an open that is good, names, rules and premises, then lines of any kind. */
#include "scripts.h"

/* Lines that nothing is answered to, beside those that lines begin with. */
enum { QUIET = LINES, SORTS_OF_LINES };

/* How often each kind of line comes: as long as no board is open, at first, among valves at first, and later. */
enum { NO_BOARD, AT_FIRST, VALVES_AT_FIRST, LATER, TIMES };
static const unsigned weights[TIMES][SORTS_OF_LINES] = {
    [NO_BOARD] = {[L_NAME] = 3, [L_RULE] = 3, [L_VALVE] = 2, [L_PAIRS] = 2, [L_FURNACE] = 2, [L_HOLD] = 2, [L_DROP] = 2, [L_PUSH] = 2, [L_POP] = 2,
                  [L_ASK] = 2, [L_WHY] = 2, [L_GROUND] = 2, [L_MARKS] = 2, [L_BLAME] = 2, [L_LEAST] = 2, [L_SETS] = 2, [L_ROWS] = 2, [L_CNF] = 2,
                  [L_ECHO] = 2, [L_HELP] = 1, [L_OTHER] = 1, [QUIET] = 1},
    [AT_FIRST] = {[L_NAME] = 20, [L_RULE] = 48, [L_VALVE] = 2, [L_PAIRS] = 1, [L_FURNACE] = 1, [L_HOLD] = 26, [L_PUSH] = 7, [L_ECHO] = 2,
                  [L_OTHER] = 1, [QUIET] = 2},
    [VALVES_AT_FIRST] = {[L_NAME] = 12, [L_RULE] = 10, [L_VALVE] = 30, [L_PAIRS] = 30, [L_FURNACE] = 1, [L_HOLD] = 12, [L_PUSH] = 5, [L_ECHO] = 1,
                         [QUIET] = 1},
    [LATER] = {[L_OPEN] = 2, [L_NAME] = 7, [L_RULE] = 16, [L_VALVE] = 2, [L_PAIRS] = 3, [L_FURNACE] = 5, [L_HOLD] = 12, [L_DROP] = 8, [L_PUSH] = 7,
               [L_POP] = 6, [L_ASK] = 12, [L_WHY] = 24, [L_GROUND] = 8, [L_MARKS] = 6, [L_BLAME] = 6, [L_LEAST] = 9, [L_SETS] = 6, [L_ROWS] = 2,
               [L_CNF] = 1, [L_ECHO] = 5, [L_HELP] = 1, [L_OTHER] = 2, [QUIET] = 4}};

/* Starts an input. */
void start_scribe(Scribe *scribe, Desk *desk, FILE *in, Random random) {
    scribe->random = random;
    scribe->desk = desk;
    scribe->in = in;
    scribe->valve_count = 0;
    scribe->blanks = 5;
    scribe->freed[0] = 0;
    for (unsigned s = 0; s <= MOST_SYMBOLS; s++) scribe->leaning[s] = random_chance(&scribe->random, 70);
}

/* Draws a line of the time. */
static void draw_at(Scribe *scribe, unsigned time) {
    unsigned sort = random_weighted(&scribe->random, weights[time], SORTS_OF_LINES);
    if (sort == QUIET) draw_quiet_line(scribe);
    else draw_line(scribe, sort);
}

/* Writes lines ahead of the first open, so that refusal 1 comes up. */
void write_before_open(Scribe *scribe) {
    for (unsigned n = random_between(&scribe->random, 10, 60); n > 0; n--) {
        draw_at(scribe, NO_BOARD);
        give_line(scribe, false);
    }
}

/* S of a script: 3 to 30 mostly, and every few one of the smallest or any; with valves at least as many as three of them have. */
static unsigned draw_symbols(Random *random, bool valves) {
    unsigned sort = random_below(random, 100);
    if (valves) return random_between(random, 9, 30);
    if (sort < 60) return random_between(random, 3, 12);
    if (sort < 92) return random_between(random, 8, 30);
    return sort < 96 ? random_between(random, 1, 2) : random_between(random, 31, MOST_SYMBOLS);
}

/* Writes the open that a script begins with. */
static void write_open(Scribe *scribe, bool valves) {
    for (unsigned s = 0; s <= MOST_SYMBOLS; s++) scribe->leaning[s] = random_chance(&scribe->random, 70);
    scribe->blanks = random_chance(&scribe->random, 60) ? 0 : random_between(&scribe->random, 1, 40);
    scribe->valve_count = 0;
    start_words(scribe, "open");
    add_number(scribe, draw_symbols(&scribe->random, valves));
    join_words(scribe);
    give_line(scribe, false);
}

/* Writes a script of 5 to 40 lines: about half of it sets a board up. */
void write_random_script(Scribe *scribe) {
    Random *random = &scribe->random;
    unsigned lines = random_between(random, random_chance(random, 20) ? 4 : 16, 39), first = random_chance(random, 20) ? VALVES_AT_FIRST : AT_FIRST;
    write_open(scribe, first == VALVES_AT_FIRST);
    for (unsigned i = 0; i < lines; i++) {
        draw_at(scribe, 2 * i < lines ? first : LATER);
        give_line(scribe, false);
    }
}

/* Writes a last line, which has no line feed. */
void write_last_line(Scribe *scribe) {
    draw_at(scribe, LATER);
    give_line(scribe, true);
}
