/* The lines of desk that choose among readings: least and sets. */
#include "coverdesk.h"
#include "desk.h"

enum { MOST_GIVEN = LONGEST_LINE / 2 + 1 };

/* Prints the literals of a set, "in the order in which they were given". */
static void print_set(const Desk *desk, const int16_t *literals, unsigned count, unsigned set) {
    int16_t chosen[MOST_CANDIDATES];
    unsigned size = 0;
    for (unsigned i = 0; i < count; i++)
        if (set >> i & 1) chosen[size++] = literals[i];
    cover_desk_case(CASE_SET_OF_2, size > 1);
    print_list(desk, chosen, size, ", ");
}

/* "with no literal, of all that the furnace holds", "in the order of symbols". */
static unsigned all_held(const Desk *desk, int16_t *literals) {
    unsigned count = 0;
    for (unsigned p = 0; p < 2 * desk->board.symbols; p++)
        if (premises_of(&desk->board, desk->furnace)[p]) literals[count++] = (int16_t)literal_at(p);
    return count;
}

/* "the least of these to drop, so that a conflict ends". */
void work_least(Order *order) {
    Desk *desk = order->desk;
    int16_t literals[PLACES + MOST_GIVEN];
    unsigned count;
    if (!take_literals(order, literals, &count)) return;
    bool given = count > 0;
    if (!given) count = all_held(desk, literals);
    Outcome told = model_least(&desk->board, desk->table, DESK_NUMBERS, desk->furnace, literals, count);
    cover_desk_least(given, told.refusal, told.set);
    if (!is_done(order, told.refusal)) return;
    fputs("  to drop: ", desk->out);
    if (told.set == 0) fputs("nothing, there is no conflict", desk->out);
    else print_set(desk, literals, count, told.set);
    putc('\n', desk->out);
}

/* One line of an answer to `sets`. */
static void print_way(const Desk *desk, int literal, const int16_t *literals, unsigned count, unsigned set) {
    fputs("  ", desk->out);
    print_literal(desk, literal);
    fputs(" by ", desk->out);
    if (set == 0) fputs("the rules alone", desk->out);
    else print_set(desk, literals, count, set);
    cover_desk_case(CASE_SETS_RULES_ALONE, set == 0);
    putc('\n', desk->out);
}

/* "the smallest sets of the literals C that carry L": "a line for each set, in the call's order", or that there is none. */
void work_sets(Order *order) {
    static uint16_t sets[ALL_SETS];
    Desk *desk = order->desk;
    int16_t literals[MOST_GIVEN];
    unsigned count;
    int literal;
    if (!take_literal(order, &literal) || !take_literals(order, literals, &count)) return;
    Outcome told = model_smallest(&desk->board, desk->table, DESK_NUMBERS, literals, count, literal, sets, ALL_SETS);
    if (!is_done(order, told.refusal)) return;
    cover_desk_case(CASE_NO_SET, told.listed == 0);
    cover_desk_case(CASE_TWO_SETS, told.listed > 1);
    for (unsigned i = 0; i < told.listed; i++) print_way(desk, literal, literals, count, sets[i]);
    if (told.listed > 0) return;
    fputs("  ", desk->out);
    print_literal(desk, literal);
    fputs(" by no set of these\n", desk->out);
}
