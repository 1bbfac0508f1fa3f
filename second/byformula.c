/* "entered as one rule", "each such clause counts as one rule": the library adds a position variable and a pair table, and on another board the same
 * as rules, spelt in formula text: exactly one of these symbols, and a position implies some of the other's. All numbers of both tables and both
 * boards have to be the same. The model has no part in it. */
#include <stdio.h>
#include <string.h>

#include "network.h"
#include "tries.h"

enum { TABLES = 60, TEXT = 400, ROWS = 24 };

static int16_t by_call[WIDTH * ROWS], by_rules[WIDTH * ROWS];

/* Adds a rule from its text to the board; false where it is refused. */
static bool add_text(Play *play, tup_board *board, const char *text) {
    tup_addition told = tup_rule_text(*board, by_rules, WIDTH * ROWS, (const uint8_t *)text, strlen(text));
    *board = told.board;
    return same(play, "refusal of the rule", NONE, told.refusal, 0);
}

/* Spells that exactly one is true: for each the case that it is, and no other. */
static void spell_variable(const Variable *its, char text[TEXT]) {
    int used = 0;
    for (unsigned i = 0; i < its->count; i++) {
        used += sprintf(text + used, "%s(", i == 0 ? "" : "|");
        for (unsigned k = 0; k < its->count; k++) used += sprintf(text + used, "%s%s%u", k == 0 ? "" : "&", k == i ? "" : "-", its->first + k);
        used += sprintf(text + used, ")");
    }
}

/* Spells that the position, of the first variable or of the second, implies some of those allowed of the other one; where there are none, that it is
 * false. */
static void spell_position(const Variable both[2], uint64_t pairs, unsigned side, unsigned position, char text[TEXT]) {
    int used = 0;
    for (unsigned k = 0; k < both[1 - side].count; k++) {
        if (!(side == 0 ? pair_is_allowed(pairs, position, k) : pair_is_allowed(pairs, k, position))) continue;
        if (used == 0) used = sprintf(text, "%u>(%u", both[side].first + position, both[1 - side].first + k);
        else used += sprintf(text + used, "|%u", both[1 - side].first + k);
    }
    if (used == 0) sprintf(text, "-%u", both[side].first + position);
    else sprintf(text + used, ")");
}

/* True if both boards and the rows in use of both are the same. */
static bool both_agree(Play *play, const tup_board *call, const tup_board *rules) {
    bool alike = same(play, "rows in use (model: by rules)", NONE, call->rows, rules->rows) &&
                 same(play, "rules counted (model: by rules)", NONE, call->rules, rules->rules) &&
                 same(play, "the boards are alike", NONE, memcmp(call, rules, sizeof *call) == 0, true);
    for (unsigned i = 0; i < WIDTH * ROWS && alike; i++)
        alike = same(play, "number in the table (model: by rules)", i, (uint16_t)by_call[i], (uint16_t)by_rules[i]);
    return alike;
}

/* True if a variable adds the same as its rule. */
static bool variable_agrees(Play *play, unsigned symbols, const Variable *its) {
    char text[TEXT];
    tup_stacks empty = {0};
    tup_board call = tup_open((uint16_t)symbols, &empty).board, rules = call;
    tup_addition told = tup_add_positions(call, by_call, WIDTH * ROWS, (uint16_t)its->first, (uint16_t)its->count);
    call = told.board;
    spell_variable(its, text);
    return same(play, "refusal", NONE, told.refusal, 0) && add_text(play, &rules, text) && both_agree(play, &call, &rules);
}

/* True if a pair table adds the same as its rules. */
static bool table_agrees_by_rules(Play *play, unsigned symbols, const Variable both[2], uint64_t pairs) {
    char text[TEXT];
    tup_stacks empty = {0};
    tup_board call = tup_open((uint16_t)symbols, &empty).board, rules = call;
    tup_addition told = tup_add_pairs(call, by_call, WIDTH * ROWS, (uint16_t)both[0].first, (uint16_t)both[0].count, (uint16_t)both[1].first,
                                      (uint16_t)both[1].count, pairs);
    bool good = same(play, "refusal", NONE, told.refusal, 0);
    call = told.board;
    for (unsigned side = 0; side < 2; side++)
        for (unsigned i = 0; i < both[side].count; i++) {
            spell_position(both, pairs, side, i, text);
            good = good && add_text(play, &rules, text);
        }
    return good && both_agree(play, &call, &rules);
}

/* Says what came out otherwise; false, so that the caller can return it. */
static bool formula_wrong(const Play *play, const Step *step) {
    printf("second: not the same as by rules:\n");
    print_step(step, 1);
    printf("  %s\n", play->difference);
    return false;
}

/* True if variables of every count, and some tables, add the same rows as rules do. */
bool positions_by_formula_agree(Play *play, uint64_t seed) {
    Random random = random_for(seed ^ 0x666F726D, 0);
    for (unsigned n = 0; n < TABLES; n++) {
        unsigned its = n < 6 ? n + 2 : random_between(&random, 2, MOST_POSITIONS), others = random_between(&random, 2, MOST_POSITIONS);
        unsigned symbols = its + others + random_below(&random, 9), low = random_between(&random, 1, symbols - its - others + 1);
        bool falling = random_chance(&random, 50);
        Step step = {.kind = POSITIONS, .variables = {{falling ? low + others : low, its}, {falling ? low : low + its, others}}};
        memset(by_call, 0, sizeof by_call);
        memset(by_rules, 0, sizeof by_rules);
        if (!variable_agrees(play, symbols, &step.variables[0])) return formula_wrong(play, &step);
        step.kind = PAIRS;
        step.pairs = draw_pairs_of(&random, step.variables);
        memset(by_call, 0, sizeof by_call);
        memset(by_rules, 0, sizeof by_rules);
        if (!table_agrees_by_rules(play, symbols, step.variables, step.pairs)) return formula_wrong(play, &step);
    }
    return true;
}
