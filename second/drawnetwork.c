/* Drawing networks: variables on separate symbols, in any order of these, with and without symbols between them; tables of many sorts, several
 * between the same two and both ways round; and the order in which all are entered. */
#include <string.h>

#include "network.h"

/* Sorts of tables: any pairs, one partner for each position, the same position never, the second's not below the first's, or one pair only. */
enum { ANY_PAIRS, ONE_PARTNER, NEVER_THE_SAME, NOT_BELOW, ONE_PAIR, SORTS };

/* The bit of a pair. */
static uint64_t pair_bit(unsigned i, unsigned j) {
    return UINT64_C(1) << (7 * i + j);
}

/* True if a table of a sort allows the pair. */
static bool draw_allowed(Random *random, unsigned sort, unsigned i, unsigned j, unsigned shift, unsigned density) {
    switch (sort) {
    case ANY_PAIRS: return random_chance(random, density);
    case ONE_PARTNER: return j == (i * (1 + shift) + shift) % MOST_POSITIONS;
    case NEVER_THE_SAME: return i != j;
    case NOT_BELOW: return i <= j;
    default: return false;
    }
}

/* The pairs that a table allows, one at least; every other time with noise in the bits that are ignored. */
uint64_t draw_pairs_of(Random *random, const Variable both[2]) {
    static const unsigned weights[SORTS] = {60, 10, 10, 18, 2};
    unsigned sort = random_weighted(random, weights, SORTS), density = random_between(random, 20, 95), shift = random_below(random, 3);
    uint64_t pairs = 0, inside = 0, noise = random_next(random);
    for (unsigned i = 0; i < both[0].count; i++)
        for (unsigned j = 0; j < both[1].count; j++) {
            inside |= pair_bit(i, j);
            if (draw_allowed(random, sort, i, j, shift, density)) pairs |= pair_bit(i, j);
        }
    if (pairs == 0) pairs = pair_bit(random_below(random, both[0].count), random_below(random, both[1].count));
    return random_chance(random, 50) ? pairs | (noise & ~inside) : pairs;
}

/* Puts variables on symbols, two at least, as many as are wanted and fit; S is 4 at least. Then they are all moved up by some of the symbols left,
 * and every other time by all of them. */
static void draw_variables(Random *random, unsigned symbols, unsigned wanted, Network *network) {
    unsigned next = 1, most = random_chance(random, 65) ? MOST_POSITIONS : random_between(random, LEAST_POSITIONS, 4);
    for (network->variables = 0; network->variables < wanted && next + 1 <= symbols; network->variables++) {
        unsigned room = symbols - next + 1 - (network->variables == 0 ? LEAST_POSITIONS : 0), high = room < most ? room : most;
        Variable *its = &network->variable[network->variables];
        *its = (Variable){next, random_between(random, LEAST_POSITIONS, high)};
        next = its->first + its->count;
        if (network->variables > 0 && random_chance(random, 15)) next += random_between(random, 1, 3);
    }
    unsigned last = network->variable[network->variables - 1].first + network->variable[network->variables - 1].count - 1, up = symbols - last;
    if (random_chance(random, 50)) up = random_below(random, up + 1);
    for (unsigned v = 0; v < network->variables; v++) network->variable[v].first += up;
}

/* Puts the variables in any order. */
static void shuffle_variables(Random *random, Network *network) {
    for (unsigned v = network->variables; v > 1; v--) {
        unsigned at = random_below(random, v);
        Variable kept = network->variable[at];
        network->variable[at] = network->variable[v - 1];
        network->variable[v - 1] = kept;
    }
}

/* Draws one table: between two neighbours in the list, the same two as another table, either way round, or any two. */
static void draw_link(Random *random, Network *network, unsigned number) {
    Link *link = &network->link[number];
    unsigned sort = random_below(random, 100), variables = network->variables;
    link->ends[0] = sort < 50 ? number % variables : random_below(random, variables);
    link->ends[1] = (link->ends[0] + (sort < 50 ? 1 : random_between(random, 1, variables - 1))) % variables;
    if (sort >= 85 && number > 0) memcpy(link->ends, network->link[random_below(random, number)].ends, sizeof link->ends);
    if (random_chance(random, 40)) {
        unsigned kept = link->ends[0];
        link->ends[0] = link->ends[1];
        link->ends[1] = kept;
    }
    link->pairs = draw_pairs_of(random, (Variable[]){network->variable[link->ends[0]], network->variable[link->ends[1]]});
}

/* The step that enters a variable, or a table where the number is past these; all of the clause table is lent. */
static Step entering(const Network *network, unsigned number) {
    Step step = {.kind = number < network->variables ? POSITIONS : PAIRS, .numbers = TABLE_LENDABLE};
    if (step.kind == POSITIONS) {
        step.variables[0] = network->variable[number];
        return step;
    }
    const Link *link = &network->link[number - network->variables];
    for (unsigned side = 0; side < 2; side++) step.variables[side] = network->variable[link->ends[side]];
    step.pairs = link->pairs;
    return step;
}

/* Puts all into the order in which they are entered: the variables first, the tables first, or any. */
static void draw_order(Random *random, Network *network) {
    unsigned all = network->variables + network->links, sort = random_below(random, 4), order[MOST_ENTERED];
    bool entered[MOST_VARIABLES] = {false};
    for (unsigned n = 0; n < all; n++) order[n] = sort == 1 ? (n + network->variables) % all : n;
    for (unsigned n = all; n > 1 && sort > 1; n--) {
        unsigned at = random_below(random, n), kept = order[at];
        order[at] = order[n - 1];
        order[n - 1] = kept;
    }
    network->early = false;
    for (unsigned n = 0; n < all; n++) {
        network->steps[n] = entering(network, order[n]);
        if (order[n] < network->variables) entered[order[n]] = true;
        else for (unsigned side = 0; side < 2; side++) network->early |= !entered[network->link[order[n] - network->variables].ends[side]];
    }
}

/* Draws a network on a board of so many symbols, 4 at least. */
void draw_network(Random *random, unsigned symbols, Network *network) {
    network->symbols = symbols;
    draw_variables(random, symbols, random_between(random, 2, random_chance(random, 50) ? 5 : MOST_VARIABLES), network);
    shuffle_variables(random, network);
    unsigned least = random_chance(random, 92) ? network->variables - 1 : 0, most = random_chance(random, 75) ? network->variables : MOST_LINKS;
    network->links = random_between(random, least, most);
    for (unsigned t = 0; t < network->links; t++) draw_link(random, network, t);
    draw_order(random, network);
}
