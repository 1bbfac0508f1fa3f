/* "removing positions without an allowed partner, repeated until none is left to remove", on the positions of each variable as a set of bits. */
#include "network.h"

/* True if the position, of the table's first variable or of its second, has a partner among what is left that the table allows. */
bool has_partner(const Network *network, const Link *link, unsigned side, unsigned position, const unsigned left[MOST_VARIABLES]) {
    unsigned other = link->ends[1 - side];
    for (unsigned k = 0; k < network->variable[other].count; k++) {
        bool allowed = side == 0 ? pair_is_allowed(link->pairs, position, k) : pair_is_allowed(link->pairs, k, position);
        if (allowed && (left[other] >> k & 1) != 0) return true;
    }
    return false;
}

/* Takes one position out of a variable, in a step of the repetition. */
static void take_out(Removal *removal, unsigned variable, unsigned position, unsigned step) {
    if ((removal->left[variable] >> position & 1) == 0) return;
    removal->left[variable] &= ~(1u << position);
    removal->step[variable][position] = step;
}

/* "A premise +s removes the variable's other positions, -s its own, and holding both empties it." */
static void remove_by_premises(const Network *network, const bool premises[PLACES], Removal *removal) {
    for (unsigned v = 0; v < network->variables; v++) {
        const Variable *its = &network->variable[v];
        for (unsigned i = 0; i < its->count; i++) {
            int symbol = (int)(its->first + i);
            if (premises[place_of(-symbol)]) take_out(removal, v, i, 0);
            for (unsigned k = 0; k < its->count; k++)
                if (k != i && premises[place_of(symbol)]) take_out(removal, v, k, 0);
        }
    }
}

/* Notes on which sides of which tables a position that is left has no partner; says whether on any. */
static bool note_lacking(const Network *network, Removal *removal, const unsigned left[MOST_VARIABLES], unsigned variable, unsigned position) {
    bool *lacking = removal->lacking[variable][position];
    for (unsigned t = 0; t < network->links; t++)
        for (unsigned side = 0; side < 2; side++)
            if (network->link[t].ends[side] == variable) lacking[side] |= !has_partner(network, &network->link[t], side, position, left);
    return lacking[0] || lacking[1];
}

/* One step of the repetition: all positions go that have no partner among those left ahead of it. Says whether any does. */
static bool remove_once(const Network *network, Removal *removal, unsigned step) {
    unsigned left[MOST_VARIABLES];
    bool any = false;
    for (unsigned v = 0; v < network->variables; v++) left[v] = removal->left[v];
    for (unsigned v = 0; v < network->variables; v++)
        for (unsigned i = 0; i < network->variable[v].count; i++) {
            if ((left[v] >> i & 1) == 0 || !note_lacking(network, removal, left, v, i)) continue;
            take_out(removal, v, i, step);
            any = true;
        }
    return any;
}

/* What is left of the variables with these premises. */
Removal remove_positions(const Network *network, const bool premises[PLACES]) {
    Removal removal = {0};
    for (unsigned v = 0; v < network->variables; v++) {
        removal.left[v] = (1u << network->variable[v].count) - 1;
        for (unsigned i = 0; i < MOST_POSITIONS; i++) removal.step[v][i] = NONE;
    }
    remove_by_premises(network, premises, &removal);
    for (unsigned step = 1; remove_once(network, &removal, step);) step++;
    for (unsigned v = 0; v < network->variables; v++) removal.emptied |= removal.left[v] == 0;
    return removal;
}
