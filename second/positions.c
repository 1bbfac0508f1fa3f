/* Valves with several positions by document 02's Ticket 13: a position variable as one rule, and a pair table as a rule for each position of its two
 * variables. What both calls test, in which order, what they return and what they write. */
#include "model.h"

/* True if the variable has the symbol. */
static bool has_symbol(const Variable *variable, unsigned symbol) {
    return symbol >= variable->first && symbol < variable->first + variable->count;
}

/* The test behind 2: "a literal or symbol is 0 or beyond S", here the first one, and "2 also for a last symbol beyond S". A variable of no symbols
 * has no last one. */
bool variable_is_on_board(const Variable *variable, unsigned symbols) {
    if (variable->first < 1 || variable->first > symbols) return false;
    return variable->count == 0 || variable->first + variable->count - 1 <= symbols;
}

/* "2 to 7 consecutive symbols"; else "19 for a count outside 2 to 7". */
bool variable_has_positions(const Variable *variable) {
    return variable->count >= LEAST_POSITIONS && variable->count <= MOST_POSITIONS;
}

/* True if some symbol is of both: "or a pair table whose two variables share a symbol". */
bool variables_share(const Variable both[2]) {
    for (unsigned s = 1; s <= MOST_SYMBOLS; s++)
        if (has_symbol(&both[0], s) && has_symbol(&both[1], s)) return true;
    return false;
}

/* "the allowed pairs a 64-bit number: bit 7i+j for positions i and j, from 0". */
bool pair_is_allowed(uint64_t pairs, unsigned i, unsigned j) {
    return (pairs >> (7 * i + j) & 1) != 0;
}

/* True if the table allows some pair of positions that the variables have; "other bits ignored". */
bool allows_a_pair(const Variable both[2], uint64_t pairs) {
    for (unsigned i = 0; i < both[0].count; i++)
        for (unsigned j = 0; j < both[1].count; j++)
            if (pair_is_allowed(pairs, i, j)) return true;
    return false;
}

/* What a position variable says: of its symbols exactly one is true. */
Rule positions_rule(const Variable *variable) {
    Rule rule = {.count = variable->count};
    for (unsigned i = 0; i < rule.count; i++) rule.symbol[i] = (uint8_t)(variable->first + i);
    for (unsigned a = 0; a < 1u << rule.count; a++) {
        rule.holds[a] = set_size(a) == 1;
        rule.satisfying += rule.holds[a];
    }
    return rule;
}

/* The clauses of a pair table, counted: one "for each position, the first variable's before the second's". */
unsigned pair_clauses(const Variable both[2]) {
    return both[0].count + both[1].count;
}

/* One of them, from 0: "that it is false or some allowed position of the other is true". */
Clause pair_clause(const Variable both[2], uint64_t pairs, unsigned number, unsigned symbols) {
    Clause clause = {.symbols = symbols};
    bool of_first = number < both[0].count;
    unsigned position = of_first ? number : number - both[0].count;
    const Variable *its = &both[of_first ? 0 : 1], *others = &both[of_first ? 1 : 0];
    clause.has[place_of(-(int)(its->first + position))] = true;
    for (unsigned k = 0; k < others->count; k++) {
        bool allowed = of_first ? pair_is_allowed(pairs, position, k) : pair_is_allowed(pairs, k, position);
        if (allowed) clause.has[place_of((int)(others->first + k))] = true;
    }
    return clause;
}

/* An outcome of either call with a refusal, or with 0; no place is told of any. */
static Outcome positions_outcome(unsigned refusal, unsigned added) {
    return (Outcome){.refusal = refusal, .added = added, .place = NO_PLACE};
}

/* The test behind 9: "rows in use plus its prime implicates exceed rows lent", and "here also when the rule count would pass 32,767". */
static bool has_room(const Board *board, size_t numbers, unsigned rows, unsigned rules) {
    return board->rows + rows <= rows_lent(numbers) && board->rules + rules <= MOST_RULES;
}

/* Enters a position variable as one rule: "exactly one true", by its prime implicates. */
Outcome model_positions(Board *board, int16_t *table, size_t numbers, const Variable *variable) {
    static int16_t primes[MOST_CLAUSES][ROW_LITERALS];
    if (!board_is_good(board, table, numbers)) return positions_outcome(1, 0);
    if (!variable_is_on_board(variable, board->symbols)) return positions_outcome(2, 0);
    if (!variable_has_positions(variable)) return positions_outcome(19, 0);
    Rule rule = positions_rule(variable);
    unsigned count = prime_rows(&rule, primes);
    if (!has_room(board, numbers, count, 1)) return positions_outcome(9, 0);
    board->rules++;
    for (unsigned i = 0; i < count; i++) append_row(board, table, primes[i]);
    return positions_outcome(0, count);
}

/* The refusal of a pair table on a good board: 2, 19, 8, then 9. */
static unsigned pairs_refusal(const Board *board, size_t numbers, const Variable both[2], uint64_t pairs) {
    if (!variable_is_on_board(&both[0], board->symbols) || !variable_is_on_board(&both[1], board->symbols)) return 2;
    if (!variable_has_positions(&both[0]) || !variable_has_positions(&both[1]) || variables_share(both)) return 19;
    if (!allows_a_pair(both, pairs)) return 8;
    return has_room(board, numbers, pair_clauses(both), pair_clauses(both)) ? 0 : 9;
}

/* Enters a pair table, wholly or not at all: "each such clause counts as one rule", and its one prime implicate is the clause itself, which has no
 * symbol twice. */
Outcome model_pairs(Board *board, int16_t *table, size_t numbers, const Variable both[2], uint64_t pairs) {
    int16_t row[ROW_LITERALS];
    if (!board_is_good(board, table, numbers)) return positions_outcome(1, 0);
    unsigned refusal = pairs_refusal(board, numbers, both, pairs);
    if (refusal != 0) return positions_outcome(refusal, 0);
    for (unsigned n = 0; n < pair_clauses(both); n++) {
        Clause clause = pair_clause(both, pairs, n, board->symbols);
        clause_row(&clause, row);
        board->rules++;
        append_row(board, table, row);
    }
    return positions_outcome(0, pair_clauses(both));
}
