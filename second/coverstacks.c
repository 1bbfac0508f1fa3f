/* Counts of what was pushed and popped: how deep tries were nested, what came between a push and its pop, what the other furnace had meanwhile, and
 * which premises could not be held or withdrawn for a stack. */
#include <stdio.h>

#include "cover.h"

/* Cases, each of which has to come up. */
enum {
    DEPTH_3, DEPTH_8, OF_2S, BOTH_OF_2S, OVER_HELD, OPPOSITE_HELD, OTHER_STACKED, OTHER_HOLDS, PUSH_ODD, PUSH_1, PUSH_200,
    TO_NONE, TO_SOME, RULE_BETWEEN, ROW_BETWEEN, HOLD_BETWEEN, WITHDRAW_BETWEEN, REFUSED_BETWEEN, OTHER_BETWEEN, CROSSED, NESTED, NESTED_TWICE,
    BACK, BACK_NESTED, BACK_CROSSED, BACK_BUT, FALLS, STILL_STANDS, BY_NEW_ROW, CONFLICT_ENDS, CONFLICT_STAYS, POP_OTHER_STACKED, POP_OTHER_HOLDS,
    POP_ODD,
    DROP_OVER, DROP_OTHER_STACKED, TOP_STACKED, LOWER_STACKED, STACKED_BY_BOTH, STACKED_OTHER_CAN, NOT_HELD_OTHER_STACKED,
    HOLD_STACKED, PUSH_STACKED, PUSH_HELD, PUSH_OTHER_CAN, EMPTY_OTHER_NOT, EMPTY_BOTH, NOT_2, NOT_20,
    OPEN_BOTH, OPEN_ONE, OPEN_JUNK, OPEN_BAD, NO_OPEN_BOTH, NO_OPEN_BAD,
    CASES
};

static const char *const case_words[CASES] = {
    "push: 3 or more on the stack", "push: 8 or more on the stack", "push: 2S on the stack", "push: 2S on both stacks", "push over premises held",
    "push, and the opposite is held", "push, on the other's stack too", "push, and the other holds it", "push, bytes beyond 1 of the other",
    "push with S = 1", "push with S = 200", "pop of the last one", "pop, more on the stack", "pop, a rule added since the push",
    "pop, rows added since the push", "pop, a hold since the push", "pop, a withdrawal since the push", "pop, a refusal since the push",
    "pop, the other pushed or popped since", "pop, the other's later push is there still", "pop, another try inside", "pop, a try inside one inside",
    "pop leaves what was held", "pop leaves it, another try inside", "pop leaves it, the other's push inside",
    "pop leaves it but for holds and withdrawals", "pop, and its literal falls",
    "pop, and its literal stands still", "pop, a literal by a row added since", "pop ends a conflict", "pop, and a conflict stays",
    "pop, on the other's stack still", "pop, and the other holds it still", "pop, bytes beyond 1 of the other", "withdraw beside the stack",
    "withdraw what the other has stacked", "21 for the top", "21 for a lower one", "21, on the other's stack too",
    "21, and the other could withdraw it", "11, on the other's stack", "hold: 10 for a stacked premise", "push: 10 for a stacked premise",
    "push: 10 for one that is just held", "push: 10, and the other could push it", "20, and the other's stack is not empty",
    "20, both stacks empty", "push: 16 where 2 is due as well", "pop: 16, both stacks empty", "opened over both stacks", "opened over one stack",
    "opened over numbers that say nothing", "opened over a bad record", "open refused over both stacks", "open refused over a bad record"};

/* A push that is still on its stack: its number in the order of all pushes, what was on the board then, and what came since. */
typedef struct Pushed {
    unsigned serial, rules, rows, inside; /* tries inside it, one in the other */
    bool held, withdrawn, refused, other;
} Pushed;

static unsigned long cases[CASES], settled_after, taken_back;
static Pushed pushed[FURNACES][PLACES]; /* the last ones of each furnace, so many */
static unsigned known[FURNACES], serial, deepest;

/* True if a furnace's stack in the record has numbers from its count on that are not 0. */
static bool has_junk(const int16_t *record, unsigned furnace) {
    for (unsigned i = stack_count(record, furnace); i < PLACES; i++)
        if (stacked_at(record, furnace, i) != 0) return true;
    return false;
}

/* True if the literal is on the stack of a furnace, which may be a bad one. */
static bool on_stack(const Play *play, unsigned furnace, int literal) {
    const int16_t *record = play->ours.record + GUARD;
    return stack_count(record, furnace) <= PLACES && is_stacked(record, furnace, literal);
}

/* True if the furnace holds the literal and has it not on its stack. */
static bool just_holds(const Play *play, unsigned furnace, int literal) {
    return premises_of(&play->board, furnace)[place_of(literal)] && !on_stack(play, furnace, literal);
}

/* True if the furnace holds more than is on its stack. */
static bool holds_more(const Play *play, unsigned furnace) {
    unsigned held = 0;
    for (unsigned p = 0; p < PLACES; p++) held += premises_of(&play->board, furnace)[p];
    return held > stack_count(play->ours.record + GUARD, furnace);
}

/* Counts a push that was done, and keeps it. */
static void cover_push(const Play *play, const Step *step) {
    const int16_t *record = play->ours.record + GUARD;
    unsigned f = step->furnace, count = stack_count(record, f), symbols = play->board.symbols;
    cases[DEPTH_3] += count >= 3;
    cases[DEPTH_8] += count >= 8;
    cases[OF_2S] += count == 2 * symbols;
    cases[BOTH_OF_2S] += count == 2 * symbols && stack_count(record, 3 - f) == count;
    cases[OVER_HELD] += holds_more(play, f);
    cases[OPPOSITE_HELD] += premises_of(&play->board, f)[place_of(-step->value)];
    cases[OTHER_STACKED] += on_stack(play, 3 - f, step->value);
    cases[OTHER_HOLDS] += just_holds(play, 3 - f, step->value);
    cases[PUSH_ODD] += odd_before(play, 3 - f);
    cases[PUSH_1] += symbols == 1;
    cases[PUSH_200] += symbols == MOST_SYMBOLS;
    if (count > deepest) deepest = count;
    for (unsigned i = 0; i < known[f - 1]; i++)
        if (pushed[f - 1][i].inside < known[f - 1] - i) pushed[f - 1][i].inside = known[f - 1] - i;
    for (unsigned i = 0; i < known[2 - f]; i++) pushed[2 - f][i].other = true;
    if (known[f - 1] < PLACES) pushed[f - 1][known[f - 1]++] = (Pushed){.serial = ++serial, .rules = play->board.rules, .rows = play->board.rows};
}

/* Counts what came between a push and its pop. */
static void cover_between(const Play *play, const Pushed *its, const Pushed *others) {
    bool row = false;
    for (unsigned p = 0; p < 2 * play->board.symbols; p++) row |= play->after.support[p] != NONE && play->after.support[p] >= its->rows;
    cases[RULE_BETWEEN] += play->board.rules > its->rules;
    cases[ROW_BETWEEN] += play->board.rows > its->rows;
    cases[BY_NEW_ROW] += play->board.rows > its->rows && row;
    cases[HOLD_BETWEEN] += its->held;
    cases[WITHDRAW_BETWEEN] += its->withdrawn;
    cases[REFUSED_BETWEEN] += its->refused;
    cases[OTHER_BETWEEN] += its->other;
    cases[CROSSED] += others != NULL && others->serial > its->serial;
    cases[NESTED] += its->inside > 0;
    cases[NESTED_TWICE] += its->inside > 1;
    cases[BACK_NESTED] += play->taken_back && its->inside > 0;
    cases[BACK_CROSSED] += play->taken_back && its->other;
}

/* Counts what a pop does to a conflict, by the rounds ahead of it and after it. */
static void cover_end(const Play *play, const Step *step) {
    enum { FEW_ROWS = 60 };
    Board before = play->board;
    if (play->board.rows > FEW_ROWS) return;
    before.held[step->furnace - 1][place_of(play->tried)] = true;
    bool was = has_conflict(&before, step->furnace, play->ours.table + GUARD), is = first_conflict(&play->board, &play->after) != 0;
    cases[CONFLICT_ENDS] += was && !is;
    cases[CONFLICT_STAYS] += is;
}

/* Counts a pop that was done. */
static void cover_pop(const Play *play, const Step *step) {
    unsigned f = step->furnace;
    cases[stack_count(play->ours.record + GUARD, f) == 0 ? TO_NONE : TO_SOME]++;
    cases[derived(&play->after, place_of(play->tried)) ? STILL_STANDS : FALLS]++;
    cases[BACK] += play->taken_back;
    cases[BACK_BUT] += play->taken_back_but;
    cases[POP_OTHER_STACKED] += on_stack(play, 3 - f, play->tried);
    cases[POP_OTHER_HOLDS] += just_holds(play, 3 - f, play->tried);
    cases[POP_ODD] += odd_before(play, 3 - f);
    settled_after += play->popped;
    taken_back += play->taken_back;
    cover_end(play, step);
    for (unsigned i = 0; i < known[2 - f]; i++) pushed[2 - f][i].other = true;
    if (known[f - 1] == 0) return;
    const Pushed *its = &pushed[f - 1][--known[f - 1]], *others = known[2 - f] == 0 ? NULL : &pushed[2 - f][known[2 - f] - 1];
    cover_between(play, its, others);
}

/* Counts a withdrawal, done or refused with 11 or 21. */
static void cover_withdraw(const Play *play, const Step *step) {
    const int16_t *record = play->ours.record + GUARD;
    unsigned refusal = play->last.refusal, f = step->furnace, count = stack_count(record, f);
    cases[DROP_OVER] += refusal == 0 && count > 0;
    cases[DROP_OTHER_STACKED] += refusal == 0 && on_stack(play, 3 - f, step->value);
    cases[NOT_HELD_OTHER_STACKED] += refusal == 11 && on_stack(play, 3 - f, step->value);
    if (refusal != 21) return;
    cases[stacked_at(record, f, count - 1) == step->value ? TOP_STACKED : LOWER_STACKED]++;
    cases[STACKED_BY_BOTH] += on_stack(play, 3 - f, step->value);
    cases[STACKED_OTHER_CAN] += just_holds(play, 3 - f, step->value);
}

/* Counts a refusal that a stack gives, or that comes ahead of one. */
static void cover_refusal(const Play *play, const Step *step) {
    unsigned refusal = play->last.refusal, f = step->furnace;
    const int16_t *record = play->ours.record + GUARD;
    bool empty = stack_count(record, 1) == 0 && stack_count(record, 2) == 0, stacked = refusal == 10 && on_stack(play, f, step->value);
    cases[HOLD_STACKED] += step->kind == HOLD && stacked;
    cases[PUSH_STACKED] += step->kind == PUSH && stacked;
    cases[PUSH_HELD] += step->kind == PUSH && refusal == 10 && !stacked;
    cases[PUSH_OTHER_CAN] += step->kind == PUSH && refusal == 10 && !premises_of(&play->board, 3 - f)[place_of(step->value)];
    cases[NOT_2] += step->kind == PUSH && refusal == 16 && !is_literal(step->value, play->board.symbols);
    cases[NOT_20] += step->kind == POP && refusal == 16 && empty;
    if (refusal == 20) cases[empty ? EMPTY_BOTH : EMPTY_OTHER_NOT]++;
}

/* Counts an open over what the record had. A bad one has a count that no stack has, or what no stack of the board given has. */
static void cover_open(const Play *play) {
    const int16_t *record = play->record_given;
    unsigned first = stack_count(record, 1), second = stack_count(record, 2);
    Board given = {.symbols = play->given.symbols};
    for (unsigned i = 0; i < FURNACES * PLACES; i++) given.held[i / PLACES][i % PLACES] = play->given.held[i / PLACES][i % PLACES] != 0;
    bool done = play->last.refusal == 0, some = given.symbols > 0 && given.symbols <= MOST_SYMBOLS;
    bool good = some && stack_is_good(&given, record, 1) && stack_is_good(&given, record, 2);
    cases[done ? OPEN_BOTH : NO_OPEN_BOTH] += good && first > 0 && second > 0;
    cases[OPEN_ONE] += done && good && (first > 0) != (second > 0);
    cases[OPEN_JUNK] += done && good && (has_junk(record, 1) || has_junk(record, 2));
    cases[done ? OPEN_BAD : NO_OPEN_BAD] += some && !good;
}

/* Notes a hold, a withdrawal or a refused call between pushes and their pops. */
static void note_between(const Play *play, const Step *step) {
    for (unsigned i = 0; i < FURNACES * PLACES; i++) {
        unsigned f = i / PLACES;
        Pushed *its = &pushed[f][i % PLACES];
        if (i % PLACES >= known[f]) continue;
        its->refused |= play->last.refusal != 0;
        its->held |= step->kind == HOLD && play->last.refusal == 0 && step->furnace == f + 1;
        its->withdrawn |= step->kind == WITHDRAW && play->last.refusal == 0 && step->furnace == f + 1;
    }
}

/* Counts one step that was played. */
void cover_stacks(const Play *play, const Step *step) {
    bool done = step->kind < CALLS && play->last.refusal == 0;
    if (step->kind == SET_COUNT || step->kind == SET_STACKED) known[step->furnace - 1] = 0;
    if (step->kind >= CALLS) return;
    if (step->kind == OPEN) cover_open(play), known[0] = known[1] = 0;
    if (known[0] + known[1] > 0 && (!done || step->kind == HOLD || step->kind == WITHDRAW)) note_between(play, step);
    if (step->kind == PUSH && done) cover_push(play, step);
    if (step->kind == POP && done) cover_pop(play, step);
    if (step->kind == WITHDRAW && (done || play->last.refusal == 11 || play->last.refusal == 21)) cover_withdraw(play, step);
    if (!done && (holds(step->kind) || step->kind == POP)) cover_refusal(play, step);
}

/* Prints the closing line of the stacks. */
static void print_close(void) {
    printf("stacks: settle told what the model finds after %lu pops, %lu of which left the premises as ahead of their pushes; the deepest of %u\n",
           settled_after, taken_back, deepest);
}

/* True if all that can come up with the stacks did, but for the cases; says what did not. */
static bool is_whole(void) {
    bool whole = came_up(settled_after, "settled after a pop", "stacks:", 0);
    return whole;
}

const Part stacks_part = {.cases = {NULL, case_words, cases, CASES, 46}, .print_close = print_close, .is_whole = is_whole};
