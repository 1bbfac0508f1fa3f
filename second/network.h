/* Networks of position variables, as document 02's Ticket 13 speaks of them: each variable entered once, no two on the same symbol, and pair tables
 * between them. And what is left of their positions, worked out on the positions themselves, without a clause. */
#ifndef NETWORK_H
#define NETWORK_H

#include "random.h"
#include "steps.h"

enum { MOST_VARIABLES = 8, MOST_LINKS = 18, MOST_ENTERED = MOST_VARIABLES + MOST_LINKS };

/* A pair table between two of the variables, by their numbers. */
typedef struct Link {
    unsigned ends[2];
    uint64_t pairs;
} Link;

/* The steps enter the variables and the tables, in an order of their own: a table may come ahead of its variables. */
typedef struct Network {
    unsigned symbols, variables, links;
    Variable variable[MOST_VARIABLES];
    Link link[MOST_LINKS];
    bool early; /* some table comes ahead of one of its variables */
    Step steps[MOST_ENTERED];
} Network;

/* What is left of each variable, a bit for each position; and of each position the step of the repetition that removed it, 0 for a premise, NONE
 * where it is left, and on which side of a table it had no partner then. */
typedef struct Removal {
    bool emptied;
    unsigned left[MOST_VARIABLES], step[MOST_VARIABLES][MOST_POSITIONS];
    bool lacking[MOST_VARIABLES][MOST_POSITIONS][2];
} Removal;

/* A furnace that is looked at: its premises, what is left of its positions now, and was before the last premise came or, with one fewer, went; and
 * what is left of the other furnace's. */
typedef struct Seen {
    unsigned furnace;
    bool fewer;
    const bool *premises;
    const Removal *now, *before, *other;
} Seen;

/* drawnetwork.c */
uint64_t draw_pairs_of(Random *random, const Variable both[2]);
void draw_network(Random *random, unsigned symbols, Network *network);

/* removal.c */
bool has_partner(const Network *network, const Link *link, unsigned side, unsigned position, const unsigned left[MOST_VARIABLES]);
Removal remove_positions(const Network *network, const bool premises[PLACES]);

/* arcs.c */
bool arcs_agree(Play *play, uint64_t seed);

/* byformula.c */
bool positions_by_formula_agree(Play *play, uint64_t seed);

#endif
