/* Random formulae: plant-like, trees, spines to depth 17, many symbols, never and always true, and spoilt ones, at any place. */
#include "formulae.h"

enum { SYMBOL = 0x10, NOT = 0x11, AND = 0x12, OR = 0x13, IMPLIES = 0x14, SAME = 0x15 };

/* Writes one byte, if there is room. */
static void put(Ink *ink, unsigned byte) {
    if (ink->length < INK) ink->bytes[ink->length++] = (uint8_t)byte;
}

/* Writes a symbol. */
static void put_symbol(Ink *ink, unsigned symbol) {
    put(ink, SYMBOL);
    put(ink, symbol);
}

/* Writes a symbol or its negation, mostly the one that the leaning makes true. */
static void put_literal(Ink *ink, unsigned symbol) {
    if (ink->leaning[symbol] != random_chance(ink->random, ink->lean)) put(ink, NOT);
    put_symbol(ink, symbol);
}

/* Writes one of the kinds with two operands. */
static void put_binary(Ink *ink) {
    put(ink, AND + random_below(ink->random, 4));
}

/* Chooses so many different symbols of 1 to S, or all. */
static unsigned choose(Ink *ink, unsigned count, uint8_t out[MOST_SYMBOLS]) {
    uint8_t all[MOST_SYMBOLS];
    for (unsigned i = 0; i < ink->symbols; i++) all[i] = (uint8_t)(i + 1);
    if (count > ink->symbols) count = ink->symbols;
    for (unsigned i = 0; i < count; i++) {
        unsigned j = i + random_below(ink->random, ink->symbols - i);
        out[i] = all[j];
        all[j] = all[i];
    }
    return count;
}

/* Writes a tree of at most the given depth over the given symbols. */
static void put_tree(Ink *ink, const uint8_t *symbols, unsigned count, unsigned depth, unsigned leaves) {
    if (depth <= 1 || random_chance(ink->random, leaves)) {
        put_symbol(ink, symbols[random_below(ink->random, count)]);
    } else if (random_chance(ink->random, 25)) {
        put(ink, NOT);
        put_tree(ink, symbols, count, depth - 1, leaves);
    } else {
        put_binary(ink);
        put_tree(ink, symbols, count, depth - 1, leaves);
        put_tree(ink, symbols, count, depth - 1, leaves);
    }
}

/* Writes a formula of exactly the given depth with one long branch. */
static void put_spine(Ink *ink, const uint8_t *symbols, unsigned count, unsigned depth) {
    uint8_t leaf = symbols[random_below(ink->random, count)];
    bool first = random_chance(ink->random, 50);
    if (depth == 1) {
        put_symbol(ink, leaf);
        return;
    }
    if (random_chance(ink->random, 40)) {
        put(ink, NOT);
        put_spine(ink, symbols, count, depth - 1);
        return;
    }
    put_binary(ink);
    if (!first) put_symbol(ink, leaf);
    put_spine(ink, symbols, count, depth - 1);
    if (first) put_symbol(ink, leaf);
}

/* Writes a formula that has each of the symbols once. */
static void put_each(Ink *ink, const uint8_t *symbols, unsigned count) {
    if (random_chance(ink->random, 15)) put(ink, NOT);
    if (count == 1) {
        put_symbol(ink, symbols[0]);
        return;
    }
    unsigned split = random_between(ink->random, 1, count - 1);
    put_binary(ink);
    put_each(ink, symbols, split);
    put_each(ink, symbols + split, count - split);
}

/* Writes the parity of the symbols: the most prime implicates for so few bytes. */
static void put_parity(Ink *ink, const uint8_t *symbols, unsigned count) {
    for (unsigned i = 1; i < count; i++) put(ink, SAME);
    for (unsigned i = 0; i < count; i++) put_symbol(ink, symbols[i]);
}

/* Writes literals joined by "and", or by "or". */
static void put_literals(Ink *ink, const uint8_t *symbols, unsigned count) {
    unsigned joint = random_chance(ink->random, 50) ? AND : OR;
    for (unsigned i = 1; i < count; i++) put(ink, joint);
    for (unsigned i = 0; i < count; i++) put_literal(ink, symbols[i]);
}

/* Writes one of the rules a plant would have: few symbols, implications and equivalences. */
static void put_plant(Ink *ink) {
    uint8_t s[MOST_SYMBOLS];
    unsigned count = choose(ink, 3, s), shape = random_below(ink->random, 7);
    uint8_t a = s[0], b = s[count > 1 ? 1 : 0], c = s[count > 2 ? 2 : 0];
    bool single = shape == 0, pair = shape <= 2, left = shape == 3 || shape == 4;
    if (single && random_chance(ink->random, 50)) {
        put_literal(ink, a);
        return;
    }
    put(ink, shape % 2 == 0 ? SAME : IMPLIES);
    if (left) put(ink, shape == 3 ? AND : OR);
    put_literal(ink, a);
    if (left) put_literal(ink, b);
    if (!left && !pair) put(ink, random_chance(ink->random, 50) ? AND : OR);
    put_literal(ink, left ? c : b);
    if (!left && !pair) put_literal(ink, c);
}

/* Writes "from implies to" over literals that lean. */
void write_implication(Ink *ink, unsigned from, unsigned to) {
    ink->length = 0;
    put(ink, IMPLIES);
    put_literal(ink, from);
    put_literal(ink, to);
    ink->given = ink->length;
}

/* Writes a small or wide part, and then the same part again. */
static void put_twice(Ink *ink, const uint8_t *symbols, unsigned count, bool negate) {
    size_t from = ink->length;
    if (count > 4) put_each(ink, symbols, count);
    else put_tree(ink, symbols, count, 4, 30);
    size_t to = ink->length;
    if (negate) put(ink, NOT);
    for (size_t i = from; i < to; i++) put(ink, ink->bytes[i]);
}

/* Writes a rule that no assignment satisfies, now and then over nine symbols. */
static void put_never(Ink *ink, const uint8_t *symbols, unsigned count) {
    put(ink, random_chance(ink->random, 50) ? AND : SAME);
    put_twice(ink, symbols, count, true);
}

/* Writes a rule that is always true. */
static void put_always(Ink *ink, const uint8_t *symbols, unsigned count) {
    unsigned shape = random_below(ink->random, 3);
    put(ink, shape == 0 ? OR : shape == 1 ? IMPLIES : SAME);
    put_twice(ink, symbols, count, shape == 0);
}

/* Says whether the assignments that agree with `fixed` in the lowest i bits all have the same truth. */
static bool constant(const bool *holds, unsigned count, unsigned i, unsigned fixed) {
    for (unsigned a = fixed; a < 1u << count; a += 1u << i)
        if (holds[a] != holds[fixed]) return false;
    return true;
}

/* Writes one side of a split: the literal of symbol i joined with the rest, or alone where the rest decides nothing. */
static void put_split(Ink *ink, const uint8_t *symbols, unsigned count, const bool *holds, unsigned i, unsigned fixed);
static void put_side(Ink *ink, const uint8_t *symbols, unsigned count, const bool *holds, unsigned i, unsigned fixed, bool plus, bool when) {
    unsigned side = fixed | (unsigned)plus << i;
    bool alone = constant(holds, count, i + 1, side);
    if (!alone) put(ink, when ? AND : IMPLIES);
    if (plus != (alone && !when)) put_symbol(ink, symbols[i]);
    else put(ink, NOT), put_symbol(ink, symbols[i]);
    if (!alone) put_split(ink, symbols, count, holds, i + 1, side);
}

/* Writes a formula with the truths given, symbol by symbol; they are not all the same. */
static void put_split(Ink *ink, const uint8_t *symbols, unsigned count, const bool *holds, unsigned i, unsigned fixed) {
    unsigned one = fixed | 1u << i;
    bool same_without = constant(holds, count, i + 1, fixed), same_with = constant(holds, count, i + 1, one);
    bool or_form = !(same_without && holds[fixed]) && !(same_with && holds[one]);
    if (same_without && same_with) { /* the symbol, or not the symbol */
        if (!holds[one]) put(ink, NOT);
        put_symbol(ink, symbols[i]);
    } else if (or_form) { /* the cases that hold, joined by "or"; one that never holds is left out */
        if (!same_with && !same_without) put(ink, OR);
        if (!same_with) put_side(ink, symbols, count, holds, i, fixed, true, true);
        if (!same_without) put_side(ink, symbols, count, holds, i, fixed, false, true);
    } else { /* one case always holds: what the other one implies */
        put_side(ink, symbols, count, holds, i, fixed, !same_with, false);
    }
}

/* Writes any truths over the symbols: noise of some density, or by the number of true symbols. */
static void put_any_truth(Ink *ink, const uint8_t *symbols, unsigned count) {
    static const unsigned densities[] = {2, 10, 25, 50, 75, 90, 98};
    Random *random = ink->random;
    bool holds[ASSIGNMENTS], by_number[RULE_SYMBOLS + 1], numbered = random_chance(random, 40);
    unsigned density = densities[random_below(random, 7)];
    bool band = random_chance(random, 50);
    unsigned low = random_between(random, 1, 4), high = low + random_below(random, 4);
    for (unsigned i = 0; i <= RULE_SYMBOLS; i++) by_number[i] = band ? i < low || i > high : random_chance(random, 50);
    for (unsigned a = 0; a < 1u << count; a++) {
        unsigned number = 0;
        for (unsigned i = 0; i < count; i++) number += a >> i & 1;
        holds[a] = numbered ? by_number[number] : random_chance(random, density);
    }
    if (!constant(holds, count, 0, 0)) put_split(ink, symbols, count, holds, 0, 0);
    else put_symbol(ink, symbols[0]);
}

/* Lets bytes follow the formula. */
void append_noise(Ink *ink) {
    for (unsigned n = random_between(ink->random, 1, 3); n > 0; n--) put(ink, random_between(ink->random, 0, 0x16));
    ink->given = ink->length;
}

/* Writes a formula of some sort, spoilt or not. */
void write_formula(Ink *ink, unsigned sort) {
    Random *random = ink->random;
    uint8_t symbols[MOST_SYMBOLS];
    unsigned few = choose(ink, random_between(random, 1, 5), symbols);
    ink->length = 0;
    switch (sort) {
    case PLANT: put_plant(ink); break;
    case TREE: put_tree(ink, symbols, few, random_between(random, 1, 6), 20); break;
    case SPINE: put_spine(ink, symbols, few, random_between(random, 13, 17)); break;
    case WIDE: put_each(ink, symbols, choose(ink, random_between(random, 6, 10), symbols)); break;
    case PARITY: put_parity(ink, symbols, choose(ink, random_between(random, 2, 8), symbols)); break;
    case LITERALS: put_literals(ink, symbols, choose(ink, random_between(random, 1, 9), symbols)); break;
    case NEVER: put_never(ink, symbols, random_chance(random, 15) ? choose(ink, random_between(random, 5, 9), symbols) : few); break;
    case ALWAYS: put_always(ink, symbols, random_chance(random, 10) ? choose(ink, random_between(random, 5, 8), symbols) : few); break;
    case PARITY_OF_8: put_parity(ink, symbols, choose(ink, 8, symbols)); break;
    case ANY_TRUTH: put_any_truth(ink, symbols, few); break;
    case WIDE_TRUTH: put_any_truth(ink, symbols, choose(ink, random_chance(random, 60) ? 8 : random_between(random, 6, 7), symbols)); break;
    case TOO_MANY: put_each(ink, symbols, choose(ink, random_between(random, 9, 12), symbols)); break;
    case LONG: put_tree(ink, symbols, few, 12, 4); break;
    default:
        for (unsigned n = random_below(random, 40); n > 0; n--)
            put(ink, random_chance(random, 80) ? 0x10 + random_below(random, 7) : random_below(random, 256));
    }
    ink->given = ink->length;
    if ((sort == TOO_MANY || sort == NEVER) && random_chance(random, 15)) append_noise(ink);
}

/* Replaces what is there by sixteen kinds with operands, and now and then a leaf or noise after them. */
static void spoil_by_depth(Ink *ink) {
    ink->length = 0;
    for (unsigned i = 0; i < 16; i++) put(ink, random_chance(ink->random, 70) ? NOT : random_between(ink->random, AND, SAME));
    ink->given = ink->length;
    put_symbol(ink, random_below(ink->random, 256));
    if (random_chance(ink->random, 50)) ink->given = ink->length - random_below(ink->random, 2);
}

/* A number that is no symbol: 0 or one beyond S. */
static unsigned bad_number(Ink *ink) {
    return random_chance(ink->random, 30) ? 0 : random_between(ink->random, ink->symbols + 1, 255);
}

/* Changes one symbol's number into 0 or one beyond S. */
static void spoil_symbol(Ink *ink) {
    for (size_t at = 0; at + 1 < ink->length; at += ink->bytes[at] == SYMBOL ? 2 : 1) {
        if (ink->bytes[at] != SYMBOL || !random_chance(ink->random, 60)) continue;
        ink->bytes[at + 1] = (uint8_t)bad_number(ink);
        return;
    }
}

/* Writes a first operand that a reader has to step over: mostly a few bytes, now and then hundreds. */
static void put_ahead(Ink *ink, unsigned deepest) {
    uint8_t symbols[MOST_SYMBOLS];
    unsigned few = choose(ink, 3, symbols), depth = random_chance(ink->random, 20) ? 10 : random_between(ink->random, 1, 4);
    put_tree(ink, symbols, few, depth < deepest ? depth : deepest, depth == 10 ? 0 : 30);
}

/* Writes the kinds that lead to an operand at a depth, and the first operands ahead of it; counts the second operands due after it. */
static unsigned put_path(Ink *ink, unsigned depth) {
    unsigned due = 0;
    for (unsigned d = 1; d < depth; d++) {
        bool second = d < DEEPEST && random_chance(ink->random, 40), one = !second && random_chance(ink->random, 50);
        if (one) put(ink, NOT);
        else put_binary(ink);
        if (second) put_ahead(ink, DEEPEST - d);
        else due += !one;
    }
    return due;
}

/* Writes what breaks where an operand is due: a bad symbol, the end ahead of a kind or a body, a bad kind, for one too deep a symbol or the
 * end. Bytes after the end still stand there. */
static void put_break(Ink *ink, unsigned sort) {
    size_t from = ink->length;
    bool low = random_chance(ink->random, 50);
    if (sort == 3) put(ink, low ? random_below(ink->random, SYMBOL) : random_between(ink->random, SAME + 1, 255));
    else put_symbol(ink, sort == 0 ? bad_number(ink) : random_between(ink->random, 1, ink->symbols));
    ink->given = sort == 1 || (sort == 4 && low) ? from : sort == 2 ? from + 1 : INK;
}

/* Replaces what is there by a formula that breaks at some operand, or after its last one: 2, 3 twice, 4, 5, 6. */
static void spoil_at_operand(Ink *ink) {
    Random *random = ink->random;
    unsigned sort = random_below(random, 6), depth = random_between(random, 1, random_chance(random, 50) ? 4 : DEEPEST);
    ink->length = 0;
    unsigned due = put_path(ink, sort == 4 ? DEEPEST + 1 : depth);
    put_break(ink, sort);
    for (; due > 0; due--) put_symbol(ink, random_between(random, 1, ink->symbols));
    if (ink->given > ink->length) ink->given = ink->length;
    if (sort == 5) append_noise(ink);
}

/* Spoils a formula: cut, noise, bytes after it, a bad symbol, a bad kind, too deep, broken anywhere. Bytes cut off still stand there. */
void spoil_formula(Ink *ink) {
    Random *random = ink->random;
    unsigned length = (unsigned)ink->length;
    if (length == 0) return;
    switch (random_below(random, 10)) {
    case 0: ink->given = random_below(random, length); break;
    case 1: ink->bytes[random_below(random, length)] = (uint8_t)random_next(random); break;
    case 2: append_noise(ink); break;
    case 3: spoil_symbol(ink); break;
    case 4: ink->bytes[random_below(random, length)] = random_chance(random, 50) ? 0x0F : 0x16; break;
    case 5: spoil_by_depth(ink); break;
    default: spoil_at_operand(ink);
    }
}
