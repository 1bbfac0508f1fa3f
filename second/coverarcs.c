/* Counts of the networks on which positions were removed: what they were like, what was left of them and how it came about, and what a premise more
 * or fewer did to it. */
#include <stdio.h>

#include "cover.h"

enum { STEPS = 6, FEW_VARIABLES = 5 };

/* Cases, each of which has to come up. Those up to SYMBOL_200 are of networks, the others of a furnace that was looked at. */
enum {
    TWO_VARIABLES, EIGHT_VARIABLES, NO_TABLES, SEVERAL_TABLES, BOTH_WAYS_ROUND, TABLE_EARLY, HIGHER_FIRST, NO_PARTNER_FIRST, NO_PARTNER_SECOND,
    SYMBOLS_BETWEEN, LAST_SYMBOL, SYMBOL_200,
    EMPTIED, EMPTIED_BY_PREMISES, EMPTIED_BY_TABLES, EMPTIED_LATER, NOT_EMPTIED, NOTHING_REMOVED, REMOVED_BY_TABLES, REMOVED_LATER, BY_SECOND_SIDE,
    BY_FIRST_SIDE, FIXED_BY_REMOVAL, FIXED_LATER, FIXED_ALL, FIXED_ALL_BY_ONE, PLUS_HELD, MINUS_HELD, BOTH_HELD, TWO_PLUS_HELD, NO_CHOICE,
    EMPTIED_BY_HOLD, FILLED_BY_WITHDRAWAL, BACK_BY_WITHDRAWAL, STILL_EMPTIED, OF_ONE_FURNACE,
    CASES
};

static const char *const case_words[CASES] = {
    "two variables", "eight variables", "no pair table", "several tables between the same two", "tables both ways round",
    "a table ahead of its variables", "a table's first variable higher up", "a first position without any partner",
    "a second position without any partner", "symbols of no variable", "a variable up to the last symbol", "a variable up to symbol 200",
    "some variable emptied", "emptied by premises alone", "emptied by tables, nothing held", "emptied in a second step or later",
    "none emptied", "nothing removed", "removed by tables, none emptied", "removed in a second step or later", "removed by a table's second side",
    "removed by a table's first side", "one position left, by removal alone", "the same, in a second step or later",
    "one position left of each of 3 or more", "the same, by one premise", "a position held", "the opposite of a position held",
    "both signs held, emptied", "two positions of one variable held", "none emptied, yet no choice fits", "emptied by a premise more",
    "not emptied with a premise fewer", "positions back with a premise fewer", "a premise fewer, emptied still", "emptied for one furnace only"};

static unsigned long cases[CASES], networks, looked[FURNACES], counts[MOST_POSITIONS + 1], steps[STEPS];

/* True if some position on a side of the table has no partner at all there. */
static bool lacks_any(const Network *network, const Link *link, unsigned side) {
    unsigned all[MOST_VARIABLES];
    for (unsigned v = 0; v < network->variables; v++) all[v] = (1u << network->variable[v].count) - 1;
    for (unsigned i = 0; i < network->variable[link->ends[side]].count; i++)
        if (!has_partner(network, link, side, i, all)) return true;
    return false;
}

/* Counts the tables of a network. */
static void cover_links(const Network *network) {
    bool several = false, round = false, higher = false, lacking[2] = {false};
    for (unsigned t = 0; t < network->links; t++) {
        const Link *link = &network->link[t];
        higher |= network->variable[link->ends[0]].first > network->variable[link->ends[1]].first;
        for (unsigned side = 0; side < 2; side++) lacking[side] |= lacks_any(network, link, side);
        for (unsigned u = 0; u < t; u++) {
            const Link *other = &network->link[u];
            several |= link->ends[0] == other->ends[0] && link->ends[1] == other->ends[1];
            round |= link->ends[0] == other->ends[1] && link->ends[1] == other->ends[0];
        }
    }
    cases[SEVERAL_TABLES] += several;
    cases[BOTH_WAYS_ROUND] += round;
    cases[HIGHER_FIRST] += higher;
    cases[NO_PARTNER_FIRST] += lacking[0];
    cases[NO_PARTNER_SECOND] += lacking[1];
}

/* Counts a network that agreed throughout. */
void cover_network(const Network *network) {
    unsigned used = 0;
    networks++;
    for (unsigned v = 0; v < network->variables; v++) {
        const Variable *its = &network->variable[v];
        counts[its->count]++;
        used += its->count;
        cases[LAST_SYMBOL] += its->first + its->count - 1 == network->symbols;
        cases[SYMBOL_200] += its->first + its->count - 1 == MOST_SYMBOLS;
    }
    cases[TWO_VARIABLES] += network->variables == 2;
    cases[EIGHT_VARIABLES] += network->variables == MOST_VARIABLES;
    cases[NO_TABLES] += network->links == 0;
    cases[TABLE_EARLY] += network->early;
    cases[SYMBOLS_BETWEEN] += used < network->symbols;
    cover_links(network);
}

/* True if one position of each variable can be chosen, from this one on, so that every table allows all pairs of those chosen. */
static bool some_choice_fits(const Network *network, const Removal *removal, unsigned variable, unsigned chosen[MOST_VARIABLES]) {
    if (variable == network->variables) return true;
    for (unsigned i = 0; i < network->variable[variable].count; i++) {
        bool fits = (removal->left[variable] >> i & 1) != 0;
        chosen[variable] = i;
        for (unsigned t = 0; t < network->links && fits; t++) {
            const Link *link = &network->link[t];
            if (link->ends[0] > variable || link->ends[1] > variable) continue;
            fits = pair_is_allowed(link->pairs, chosen[link->ends[0]], chosen[link->ends[1]]);
        }
        if (fits && some_choice_fits(network, removal, variable + 1, chosen)) return true;
    }
    return false;
}

/* Counts the premises of the furnace; returns how many there are. */
static unsigned cover_premises(const Network *network, const bool premises[PLACES], const Removal *removal) {
    unsigned count = 0;
    bool both = false, two = false;
    for (unsigned v = 0; v < network->variables; v++) {
        unsigned plus = 0;
        for (unsigned i = 0; i < network->variable[v].count; i++) {
            unsigned place = place_of((int)(network->variable[v].first + i));
            plus += premises[place];
            both |= premises[place] && premises[place + 1];
            cases[PLUS_HELD] += premises[place];
            cases[MINUS_HELD] += premises[place + 1];
            count += (unsigned)premises[place] + premises[place + 1];
        }
        two |= plus > 1;
    }
    cases[BOTH_HELD] += both && removal->emptied;
    cases[TWO_PLUS_HELD] += two && removal->emptied;
    return count;
}

/* True if the variable has a premise of its own. */
static bool is_held(const Variable *its, const bool premises[PLACES]) {
    for (unsigned p = 2 * (its->first - 1); p < 2 * (its->first - 1 + its->count); p++)
        if (premises[p]) return true;
    return false;
}

/* Positions that were taken out, the last step that did, and by which sides of tables alone. */
typedef struct Taken {
    unsigned count, last;
    bool by_side[2];
} Taken;

/* Sums up what was taken out of a variable. */
static Taken taken_out(const Network *network, const Removal *removal, unsigned variable) {
    Taken taken = {0};
    for (unsigned i = 0; i < network->variable[variable].count; i++) {
        unsigned step = removal->step[variable][i];
        const bool *lacking = removal->lacking[variable][i];
        if (step == NONE) continue;
        taken.count++;
        if (step > taken.last) taken.last = step;
        for (unsigned side = 0; side < 2; side++) taken.by_side[side] |= step > 0 && lacking[side] && !lacking[1 - side];
    }
    return taken;
}

/* Counts what was removed where no variable is emptied; so many premises are held. */
static void cover_left(const Network *network, const bool premises[PLACES], const Removal *removal, unsigned held) {
    unsigned count = 0, last = 0, fixed = 0;
    bool by_side[2] = {false}, by_removal = false, later = false;
    for (unsigned v = 0; v < network->variables; v++) {
        Taken taken = taken_out(network, removal, v);
        bool one = taken.count + 1 == network->variable[v].count, alone = one && !is_held(&network->variable[v], premises);
        count += taken.count;
        fixed += one;
        if (taken.last > last) last = taken.last;
        for (unsigned side = 0; side < 2; side++) by_side[side] |= taken.by_side[side];
        by_removal |= alone;
        later |= alone && taken.last > 1;
    }
    steps[last < STEPS ? last : STEPS - 1]++;
    cases[NOTHING_REMOVED] += count == 0;
    cases[REMOVED_BY_TABLES] += last > 0;
    cases[REMOVED_LATER] += last > 1;
    cases[BY_FIRST_SIDE] += by_side[0];
    cases[BY_SECOND_SIDE] += by_side[1];
    cases[FIXED_BY_REMOVAL] += by_removal;
    cases[FIXED_LATER] += later;
    cases[FIXED_ALL] += fixed == network->variables && fixed > 2;
    cases[FIXED_ALL_BY_ONE] += fixed == network->variables && fixed > 2 && held == 1;
}

/* Counts how a variable came to be emptied. */
static void cover_emptied(const Network *network, const Removal *removal, unsigned held) {
    bool by_premises = false, later = true;
    for (unsigned v = 0; v < network->variables; v++) {
        if (removal->left[v] != 0) continue;
        unsigned last = taken_out(network, removal, v).last;
        by_premises |= last == 0;
        later &= last > 1;
    }
    cases[EMPTIED_BY_PREMISES] += by_premises;
    cases[EMPTIED_BY_TABLES] += held == 0;
    cases[EMPTIED_LATER] += later;
}

/* True if some position is left now that was removed before. */
static bool came_back(const Network *network, const Removal *removal, const Removal *before) {
    for (unsigned v = 0; v < network->variables; v++)
        if ((removal->left[v] & ~before->left[v]) != 0) return true;
    return false;
}

/* Counts a furnace that was looked at, and agreed. */
void cover_seen(const Network *network, const Seen *seen) {
    const Removal *now = seen->now, *before = seen->before;
    unsigned chosen[MOST_VARIABLES], held = cover_premises(network, seen->premises, now);
    looked[seen->furnace - 1]++;
    cases[now->emptied ? EMPTIED : NOT_EMPTIED]++;
    cases[EMPTIED_BY_HOLD] += now->emptied && !before->emptied;
    cases[FILLED_BY_WITHDRAWAL] += !now->emptied && before->emptied;
    cases[BACK_BY_WITHDRAWAL] += !now->emptied && !before->emptied && came_back(network, now, before);
    cases[STILL_EMPTIED] += seen->fewer && now->emptied;
    cases[OF_ONE_FURNACE] += now->emptied != seen->other->emptied;
    if (now->emptied) cover_emptied(network, now, held);
    if (now->emptied) return;
    cover_left(network, seen->premises, now, held);
    cases[NO_CHOICE] += network->variables <= FEW_VARIABLES && !some_choice_fits(network, now, 0, chosen);
}

/* Prints the positions and the steps. */
static void print_after(void) {
    printf("positions of their variables, %u to %u:", LEAST_POSITIONS, MOST_POSITIONS);
    for (unsigned n = LEAST_POSITIONS; n <= MOST_POSITIONS; n++) printf(" %lu", counts[n]);
    printf("\nthe last step that removed one, 0 to %u or more:", STEPS - 1);
    for (unsigned s = 0; s < STEPS; s++) printf(" %lu", steps[s]);
    printf("\n");
}

/* Prints the closing line of the networks. */
static void print_close(void) {
    printf("positions removed: %lu networks, looked at %lu times for furnace 1 and %lu for furnace 2, of these %lu with a variable emptied\n",
           networks, looked[0], looked[1], cases[EMPTIED]);
}

/* True if all that can come up on networks did, but for the cases; says what did not. */
static bool is_whole(void) {
    bool whole = true;
    for (unsigned n = LEAST_POSITIONS; n <= MOST_POSITIONS; n++) whole &= came_up(counts[n], "positions", "networks: a variable of", n);
    for (unsigned s = 0; s < STEPS; s++) whole &= came_up(steps[s], "networks: the last step that removed a position,", "case", s);
    return whole;
}

const Part arcs_part = {
    .cases = {"networks of position variables with", case_words, cases, CASES, 44},
    .print_after = print_after, .print_close = print_close, .is_whole = is_whole};
