/* Literals for the lines of desk: those that lean, that are held, that are derived, mostly with a large rank. */
#include "scribe.h"

/* S, or some number where no board is open. */
unsigned scribe_symbols(const Scribe *scribe) {
    return scribe->desk->board.symbols == 0 ? FREE_BOARD : scribe->desk->board.symbols;
}

/* A literal of any symbol, mostly the one that leans. */
int leaning_or_not(Scribe *scribe) {
    unsigned symbol = random_between(&scribe->random, 1, scribe_symbols(scribe));
    return scribe->leaning[symbol] == random_chance(&scribe->random, 92) ? (int)symbol : -(int)symbol;
}

/* A derived literal: of three tried the one with the largest rank; where none is found, any. */
int derived_literal(Scribe *scribe) {
    const Desk *desk = scribe->desk;
    Findings found = propagate(&desk->board, desk->furnace, desk->table);
    unsigned places[PLACES], count = 0;
    for (unsigned p = 0; p < 2 * desk->board.symbols; p++)
        if (derived(&found, p)) places[count++] = p;
    if (count == 0) return leaning_or_not(scribe);
    unsigned best = places[random_below(&scribe->random, count)];
    for (unsigned tries = 0; tries < 2; tries++) {
        unsigned other = places[random_below(&scribe->random, count)];
        if (found.rank[other] > found.rank[best]) best = other;
    }
    return literal_at(best);
}

/* A literal that the furnace holds, or any where it holds none. */
int held_literal(Scribe *scribe) {
    const bool *premises = premises_of(&scribe->desk->board, scribe->desk->furnace);
    unsigned count = 0;
    int literal = 0;
    for (unsigned p = 0; p < 2 * scribe->desk->board.symbols; p++)
        if (premises[p] && random_below(&scribe->random, ++count) == 0) literal = literal_at(p);
    return count == 0 ? leaning_or_not(scribe) : literal;
}

/* A literal that leans, mostly of a symbol that neither literal of is derived. */
int fresh_literal(Scribe *scribe) {
    const Desk *desk = scribe->desk;
    Findings found = propagate(&desk->board, desk->furnace, desk->table);
    int literal = leaning_or_not(scribe);
    for (unsigned tries = 0; tries < 4 && (derived(&found, place_of(literal)) || derived(&found, place_of(-literal))); tries++)
        literal = leaning_or_not(scribe);
    return literal;
}

/* A literal to be told of: mostly one that is derived, or its opposite. */
int told_literal(Scribe *scribe) {
    unsigned sort = random_below(&scribe->random, 100);
    if (sort < 15) return leaning_or_not(scribe);
    return sort < 75 ? derived_literal(scribe) : -derived_literal(scribe);
}
