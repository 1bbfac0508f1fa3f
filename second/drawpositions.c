/* Drawing the steps of a sequence that enter position variables and pair tables: of variables that were entered or of others, now and then at fault
 * in one way or in several, and with just the rows lent that are needed, or fewer. */
#include "drawpositions.h"

#include "drawfurnace.h"
#include "drawhand.h"
#include "network.h"

enum { LARGEST = 65535 };

/* Ways in which a variable is spoilt. */
enum { FIRST_0, FIRST_JUST_BEYOND, FIRST_BEYOND, LAST_JUST_BEYOND, LAST_TURNED, COUNT_0, COUNT_1, COUNT_8, COUNT_ABOVE, COUNT_LARGEST, FAULTS };

/* A variable that fits the board, up to its last symbol every fourth time; on a board of one symbol none fits. */
static Variable draw_fitting(Random *random, unsigned symbols, unsigned least, unsigned most) {
    unsigned high = symbols < most ? symbols : most;
    if (high < least) return (Variable){1, least};
    unsigned count = random_between(random, least, high), last = symbols - count + 1;
    return (Variable){random_chance(random, 25) ? last : random_between(random, 1, last), count};
}

/* Puts a variable in place of this one that was entered earlier in the sequence and fits the board, if there is one. */
static void take_entered(Draft *draft, unsigned symbols, Variable *variable) {
    unsigned count = 0;
    for (size_t i = 0; i + 1 < draft->count; i++) {
        const Variable *its = &draft->steps[i].variables[0];
        bool fits = draft->steps[i].kind == POSITIONS && variable_has_positions(its) && variable_is_on_board(its, symbols);
        if (fits && random_below(&draft->random, ++count) == 0) *variable = *its;
    }
}

/* Spoils a variable: its first symbol or its last, also so that 16 bits cannot hold the last one and turn it round to a low one, or its count. */
static void spoil_variable(Random *random, Step *step, Variable *its, unsigned symbols) {
    step->faults++;
    switch (random_below(random, FAULTS)) {
    case FIRST_0: its->first = 0; break;
    case FIRST_JUST_BEYOND: its->first = symbols + 1; break;
    case FIRST_BEYOND: its->first = random_chance(random, 50) ? LARGEST : random_between(random, symbols + 1, LARGEST); break;
    case LAST_JUST_BEYOND: its->first = symbols + 2 > its->count ? symbols + 2 - its->count : symbols; break;
    case LAST_TURNED: its->first = symbols, its->count = LARGEST + 2 - symbols + random_below(random, symbols); break;
    case COUNT_0: case COUNT_1: *its = (Variable){random_chance(random, 50) ? symbols : its->first, random_below(random, 2)}; break;
    case COUNT_8: *its = draw_fitting(random, symbols, 8, 8); break;
    case COUNT_ABOVE: *its = draw_fitting(random, symbols, 9, random_chance(random, 50) ? 16 : MOST_SYMBOLS); break;
    default: its->count = LARGEST;
    }
    if (its->count > LARGEST) its->count = LARGEST;
}

/* Moves the second variable onto the first: onto all of it, its last symbol, or its first one, or any; or right behind it, where they share none. */
static void move_onto(Random *random, Step *step) {
    Variable *its = &step->variables[0], *others = &step->variables[1];
    switch (random_below(random, 5)) {
    case 0: *others = *its; break;
    case 1: others->first = its->first + its->count - 1; break;
    case 2: others->first = its->first + 1 > others->count ? its->first + 1 - others->count : its->first; break;
    case 3: others->first = its->first + random_below(random, its->count); break;
    default: others->first = its->first + its->count;
    }
}

/* The pairs of a table, now and then none of the variables' positions, with noise in the bits that are ignored or without. Where all rules are
 * counted that tells 8 from 9, and comes more often. */
static uint64_t draw_pairs(Random *random, const Play *play, Step *step) {
    Variable both[2];
    uint64_t pairs = random_next(random);
    for (unsigned v = 0; v < 2; v++) {
        both[v] = step->variables[v];
        if (!variable_has_positions(&both[v])) both[v].count = MOST_POSITIONS;
    }
    if (!random_chance(random, step->faults > 0 || play->board.rules == MOST_RULES ? 25 : 9)) return draw_pairs_of(random, both);
    step->faults++;
    for (unsigned i = 0; i < both[0].count; i++)
        for (unsigned j = 0; j < both[1].count; j++) pairs &= ~(UINT64_C(1) << (7 * i + j));
    return random_chance(random, 40) ? 0 : pairs;
}

/* Lends just the rows that are needed, or some fewer: one, or any number of them. */
static void draw_rows_lent(Random *random, const Play *play, Step *step) {
    unsigned its = step->variables[0].count, others = step->variables[1].count, sort = random_below(random, 100);
    if (its > MOST_POSITIONS || others > MOST_POSITIONS || play->board.rows > MOST_ROWS) return;
    unsigned rows = step->kind == PAIRS ? its + others : (its * its - its) / 2 + 1, fewer = sort < 40 || rows == 0 ? 0 : 1;
    if (sort >= 70 && rows > 0) fewer = random_between(random, 1, rows);
    if (play->board.rows + rows > MOST_ROWS) return;
    step->numbers = WIDTH * (play->board.rows + rows - fewer) + random_below(random, WIDTH);
}

/* Fills in a step that enters a variable or a pair table. */
void draw_variables_given(Draft *draft, const Play *play, Step *step) {
    Random *random = &draft->random;
    unsigned symbols = symbols_of(draft, play), given = step->kind == PAIRS ? 2 : 1;
    for (unsigned tries = 0; tries < 20; tries++) {
        for (unsigned v = 0; v < given; v++) {
            step->variables[v] = draw_fitting(random, symbols, LEAST_POSITIONS, MOST_POSITIONS);
            if (step->kind == PAIRS && random_chance(random, 60)) take_entered(draft, symbols, &step->variables[v]);
        }
        if (given == 1 || !variables_share(step->variables)) break;
    }
    if (given == 2 && random_chance(random, 14)) move_onto(random, step);
    for (unsigned v = 0; v < given; v++)
        if (random_chance(random, step->faults > 0 ? 25 : 12)) spoil_variable(random, step, &step->variables[v], symbols);
    if (given == 2) step->pairs = draw_pairs(random, play, step);
    if (random_chance(random, 22)) draw_rows_lent(random, play, step);
}

/* Puts ahead of the last step, which is given variables, a count of rules that leaves just as many as it needs, or one fewer. It stays. */
void add_last_rules(Draft *draft, const Play *play) {
    const Step call = draft->steps[draft->count - 1];
    bool good = variable_has_positions(&call.variables[0]) && (call.kind == POSITIONS || variable_has_positions(&call.variables[1]));
    unsigned rules = good ? MOST_RULES - (call.kind == PAIRS ? pair_clauses(call.variables) : 1) + random_below(&draft->random, 2) : 0;
    if (play->board.rules >= rules) return;
    draft->count--;
    add_step(draft, SET_RULES)->value = (int)rules;
    *add_step(draft, call.kind) = call;
}

/* Adds a network to a sequence that begins, with up to six premises of its positions. */
void add_network(Draft *draft) {
    static Network network;
    Random *random = &draft->random;
    draw_network(random, draft->symbols, &network);
    for (unsigned n = 0; n < network.variables + network.links; n++) {
        Step *step = add_step(draft, network.steps[n].kind);
        step->pairs = network.steps[n].pairs;
        for (unsigned v = 0; v < 2; v++) step->variables[v] = network.steps[n].variables[v];
    }
    for (unsigned n = random_below(random, 7); n > 0; n--) {
        const Variable *its = &network.variable[random_below(random, network.variables)];
        int symbol = (int)(its->first + random_below(random, its->count));
        add_hold(draft, random_chance(random, 35) ? symbol : -symbol);
    }
}
