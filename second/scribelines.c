/* Lines of every other kind for desk, and those that nothing is answered to. */
#include "scribe.h"

/* Draws a line that opens a board, mostly a small one; every few are refused. */
static void draw_open(Scribe *scribe) {
    static const unsigned refused[] = {0, 201, 256, 257, 32768, 65537};
    Random *random = &scribe->random;
    start_words(scribe, "open");
    add_number(scribe, random_chance(random, 60) ? refused[random_below(random, 6)] : random_between(random, 3, 30));
}

/* Draws a line that works a furnace. */
static void draw_furnace(Scribe *scribe) {
    static const unsigned refused[] = {0, 3, 4, 257, 65537};
    Random *random = &scribe->random;
    start_words(scribe, "furnace");
    add_number(scribe, random_chance(random, 12) ? refused[random_below(random, 5)] : random_chance(random, 60) ? 1 : 2);
}

/* Draws a line with one literal: to be held mostly one that leans and is not held yet, to be dropped mostly one that is held. */
static void draw_premise(Scribe *scribe, unsigned line) {
    Random *random = &scribe->random;
    bool drops = line == L_DROP;
    start_words(scribe, line_word(line));
    if (drops ? random_chance(random, 85) : random_chance(random, 5)) add_literal(scribe, held_literal(scribe));
    else if (random_chance(random, 12)) add_literal(scribe, -derived_literal(scribe));
    else add_literal(scribe, leaning_or_not(scribe));
}

/* Draws a line with one literal that is to be told of. */
static void draw_told(Scribe *scribe, unsigned line) {
    start_words(scribe, line_word(line));
    add_literal(scribe, told_literal(scribe));
}

/* How many literals to give: few mostly, as many as may be now and then, one more, many more. */
static unsigned draw_count(Random *random) {
    unsigned sort = random_below(random, 1000);
    if (sort < 850) return random_between(random, 1, 5);
    if (sort < 960) return random_between(random, 6, 8);
    if (sort < 970) return random_between(random, 9, MOST_CANDIDATES);
    return sort < 990 ? MOST_CANDIDATES + 1 : random_between(random, 14, 120);
}

/* Adds literals, each once as far as some are found; every few times one of them again. Too many of them are any. */
static void add_choices(Scribe *scribe, unsigned held) {
    Random *random = &scribe->random;
    bool given[PLACES] = {false};
    unsigned count = draw_count(random);
    int literal = 0;
    if (count > MOST_CANDIDATES) held = 10;
    for (unsigned tries = 3 * count; tries > 0 && count > 0; tries--) {
        literal = random_chance(random, held) ? held_literal(scribe) : leaning_or_not(scribe);
        if (given[place_of(literal)]) continue;
        given[place_of(literal)] = true;
        add_literal(scribe, literal);
        count--;
    }
    if (random_chance(random, 5)) add_literal(scribe, literal);
}

/* Draws a line that asks for the least to drop: of all, or mostly of literals that are held. */
static void draw_least(Scribe *scribe) {
    start_words(scribe, "least");
    if (random_chance(&scribe->random, 65)) add_choices(scribe, random_chance(&scribe->random, 85) ? 100 : 80);
}

/* Draws a line that asks for the smallest sets. */
static void draw_sets(Scribe *scribe) {
    start_words(scribe, "sets");
    add_literal(scribe, random_chance(&scribe->random, 80) ? derived_literal(scribe) : leaning_or_not(scribe));
    if (random_chance(&scribe->random, 92)) add_choices(scribe, 65);
}

/* Draws a line about the echo, which is off more often than on. */
static void draw_echo(Scribe *scribe) {
    start_words(scribe, "echo");
    add_word(scribe, random_chance(&scribe->random, 35) ? "on" : "off");
}

/* Draws the words of a line. */
static void draw_words(Scribe *scribe, unsigned line) {
    switch (line) {
    case L_OPEN: draw_open(scribe); break;
    case L_NAME: draw_name_line(scribe); break;
    case L_VALVE: draw_valve_line(scribe); break;
    case L_PAIRS: draw_pairs_line(scribe); break;
    case L_FURNACE: draw_furnace(scribe); break;
    case L_HOLD: case L_DROP: case L_PUSH: draw_premise(scribe, line); break;
    case L_ASK: case L_WHY: case L_GROUND: draw_told(scribe, line); break;
    case L_LEAST: draw_least(scribe); break;
    case L_SETS: draw_sets(scribe); break;
    case L_ECHO: draw_echo(scribe); break;
    default: start_words(scribe, line_word(line)); /* pop, marks, blame, rows, cnf */
    }
}

/* Draws a line of a kind, now and then with something wrong. `help` always has a word too many: what it prints without is not fixed. */
void draw_line(Scribe *scribe, unsigned line) {
    if (line == L_OTHER) {
        draw_other_line(scribe);
    } else if (line == L_RULE) {
        draw_rule_line(scribe);
    } else {
        draw_words(scribe, line);
        if (line == L_HELP) add_word(scribe, "me");
        else if (random_chance(&scribe->random, 10)) spoil_words(scribe);
        join_words(scribe);
    }
    if (line != L_HELP && random_chance(&scribe->random, 2)) spoil_bytes(scribe);
    if (random_below(&scribe->random, 1000) < 6) make_long(scribe);
}

/* Draws a line that nothing is answered to. */
void draw_quiet_line(Scribe *scribe) {
    static const char *const starts[] = {"", "   ", "#", "# ", "  # ", "#rule 1 > ", "##"};
    unsigned sort = random_below(&scribe->random, 7);
    scribe->length = 0;
    put_text(scribe, starts[sort]);
    for (unsigned n = sort < 2 ? 0 : random_below(&scribe->random, 30); n > 0; n--)
        put_byte(scribe, random_chance(&scribe->random, 90) ? random_between(&scribe->random, ' ', '~') : random_below(&scribe->random, 256));
}
