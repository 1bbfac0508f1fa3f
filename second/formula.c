/* Formulae: reading with the refusals in document 01's order and the places of document 02's Ticket 1, and the truth of each assignment. */
#include "model.h"

enum { SYMBOL = 0x10, NOT = 0x11, AND = 0x12, OR = 0x13, IMPLIES = 0x14, SAME = 0x15 };

/* How many operands follow a kind; the kind is known. */
static unsigned operands(uint8_t kind) {
    return kind == SYMBOL ? 0 : kind == NOT ? 1 : 2;
}

/* A reading that is good so far. */
static Reading read_up_to(size_t used) {
    return (Reading){.used = used, .place = NO_PLACE};
}

/* A reading that goes no further. */
static Reading broken(unsigned refusal, size_t place) {
    return (Reading){.refusal = refusal, .place = place};
}

/* Reads the operand due at `at` and at `depth`: tests 5, 3, 4, 3 for the body, 2, then its own operands from the front.
 * Ticket 1: the place is "where the operand was due for 4 and 5, of the symbol's number for 2, of the missing byte for 3". */
static Reading read_operand(const uint8_t *bytes, size_t length, size_t at, unsigned depth, unsigned symbols) {
    if (depth > DEEPEST) return broken(5, at);
    if (at >= length) return broken(3, at);
    uint8_t kind = bytes[at];
    if (kind < SYMBOL || kind > SAME) return broken(4, at);
    if (kind == SYMBOL) {
        if (at + 1 >= length) return broken(3, at + 1);
        if (bytes[at + 1] == 0 || bytes[at + 1] > symbols) return broken(2, at + 1);
        return read_up_to(at + 2);
    }
    Reading reading = read_up_to(at + 1);
    for (unsigned i = 0; i < operands(kind) && reading.refusal == 0; i++)
        reading = read_operand(bytes, length, reading.used, depth + 1, symbols);
    return reading;
}

/* Reads one formula from the front of the bytes. */
Reading read_formula(const uint8_t *bytes, size_t length, unsigned symbols) {
    return read_operand(bytes, length, 0, 1, symbols);
}

/* Lists the different symbols of a formula that was read, rising, and counts them. */
unsigned different_symbols(const uint8_t *bytes, size_t used, uint8_t out[MOST_SYMBOLS]) {
    bool seen[256] = {false};
    unsigned count = 0;
    for (size_t at = 0; at < used; at += bytes[at] == SYMBOL ? 2 : 1)
        if (bytes[at] == SYMBOL) seen[bytes[at + 1]] = true;
    for (unsigned symbol = 1; symbol <= MOST_SYMBOLS; symbol++)
        if (seen[symbol]) out[count++] = (uint8_t)symbol;
    return count;
}

/* The truth of the operand at *at where each symbol has the given value; moves *at past it. */
static bool truth(const uint8_t *bytes, size_t *at, const bool value[256]) {
    uint8_t kind = bytes[(*at)++];
    if (kind == SYMBOL) return value[bytes[(*at)++]];
    bool first = truth(bytes, at, value);
    if (kind == NOT) return !first;
    bool second = truth(bytes, at, value);
    if (kind == AND) return first && second;
    if (kind == OR) return first || second;
    if (kind == IMPLIES) return !first || second;
    return first == second;
}

/* What a formula of at most eight different symbols says, assignment by assignment. */
Rule rule_of(const uint8_t *bytes, size_t used) {
    Rule rule = {0};
    uint8_t symbols[MOST_SYMBOLS];
    rule.count = different_symbols(bytes, used, symbols);
    for (unsigned i = 0; i < rule.count; i++) rule.symbol[i] = symbols[i];
    for (unsigned a = 0; a < 1u << rule.count; a++) {
        bool value[256] = {false};
        for (unsigned i = 0; i < rule.count; i++) value[rule.symbol[i]] = a >> i & 1;
        size_t at = 0;
        rule.holds[a] = truth(bytes, &at, value);
        rule.satisfying += rule.holds[a];
    }
    return rule;
}
