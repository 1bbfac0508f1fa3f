/* Demand 3's second way: a rule forces a value that every agreeing, satisfying assignment gives. Rounds, and no clauses. */
#include <string.h>

#include "model.h"

/* True if assignment a of the rule's symbols contradicts no literal forced so far. */
static bool agrees(const Rule *rule, unsigned a, const bool forced[PLACES]) {
    for (unsigned i = 0; i < rule->count; i++) {
        unsigned plus = 2 * (rule->symbol[i] - 1u);
        if (forced[a >> i & 1 ? plus + 1 : plus]) return false;
    }
    return true;
}

/* Adds what one rule forces; where no assignment is left, that is every value of its symbols. */
static void force_by_rule(const Rule *rule, const bool forced[PLACES], bool next[PLACES]) {
    unsigned all_true = ASSIGNMENTS - 1, all_false = ASSIGNMENTS - 1;
    for (unsigned a = 0; a < 1u << rule->count; a++) {
        if (!rule->holds[a] || !agrees(rule, a, forced)) continue;
        all_true &= a;
        all_false &= ~a;
    }
    for (unsigned i = 0; i < rule->count; i++) {
        unsigned plus = 2 * (rule->symbol[i] - 1u);
        if (all_true >> i & 1) next[plus] = true;
        if (all_false >> i & 1) next[plus + 1] = true;
    }
}

/* Closes the premises under all rules, round by round. */
void force_by_rules(const Rule *rules, size_t count, const bool premises[PLACES], bool forced[PLACES]) {
    bool next[PLACES];
    memcpy(next, premises, sizeof next);
    do {
        memcpy(forced, next, sizeof next);
        for (size_t r = 0; r < count; r++) force_by_rule(&rules[r], forced, next);
    } while (memcmp(forced, next, sizeof next) != 0);
}
