/* The library's side of a step: each call with exactly what the step lends. And settle beside a step, with ample tables of its own. */
#include "steps.h"

/* The record of both stacks is what the model takes it for: a count and 400 places of 16 bits for each furnace, and nothing between them. */
_Static_assert(sizeof(tup_stacks) == RECORD_NUMBERS * sizeof(int16_t), "the record has the model's numbers");
_Static_assert(sizeof(tup_stack) == STACK_NUMBERS * sizeof(int16_t), "so has each stack");
_Static_assert(offsetof(tup_stack, literals) == sizeof(int16_t), "the count comes first");

/* A pointer for a count; with a count of 0 it is null every other time. */
#define LENT(pointer, count, step) ((count) == 0 && ((step)->noise & 1) ? NULL : (pointer))

/* The outcome of a call that hands a board back. */
static Outcome changed(tup_change change, tup_board *board) {
    *board = change.board;
    return (Outcome){.refusal = change.refusal};
}

/* Adds a rule. */
static Outcome call_rule(const Step *step, tup_board *board, int16_t *table, const uint8_t *formula) {
    tup_addition addition = tup_rule(*board, table, step->numbers, LENT(formula, step->bytes, step), step->bytes);
    *board = addition.board;
    return (Outcome){.refusal = addition.refusal, .added = addition.added, .place = addition.place};
}

/* Adds a rule from its text. */
static Outcome call_text_rule(const Step *step, tup_board *board, int16_t *table, const uint8_t *text) {
    tup_addition addition = tup_rule_text(*board, table, step->numbers, LENT(text, step->bytes, step), step->bytes);
    *board = addition.board;
    return (Outcome){.refusal = addition.refusal, .added = addition.added, .place = addition.place};
}

/* The outcome of a call that turns formula text into bytes or back. */
static Outcome turned(tup_spelling spelling) {
    return (Outcome){.refusal = spelling.refusal, .place = spelling.place, .written = spelling.bytes};
}

/* Reads formula text to bytes. */
static Outcome call_to_bytes(const Step *step, const tup_board *board, const int16_t *table, const uint8_t *text, uint8_t *formula) {
    return turned(tup_read_text(*board, table, step->numbers, LENT(text, step->bytes, step), step->bytes, LENT(formula, step->lent[0], step),
                                step->lent[0]));
}

/* Writes formula bytes as text. */
static Outcome call_to_text(const Step *step, const tup_board *board, const int16_t *table, const uint8_t *formula, uint8_t *text) {
    return turned(tup_write_text(*board, table, step->numbers, LENT(formula, step->bytes, step), step->bytes, LENT(text, step->lent[0], step),
                                 step->lent[0]));
}

/* Reads a text. */
static Outcome call_read(const Step *step, tup_board *board, int16_t *table, const uint8_t *text) {
    tup_reading reading = tup_read_dimacs(*board, table, step->numbers, LENT(text, step->bytes, step), step->bytes);
    *board = reading.board;
    return (Outcome){.refusal = reading.refusal, .clauses = reading.clauses, .added = reading.added};
}

/* Enters a position variable. */
static Outcome call_positions(const Step *step, tup_board *board, int16_t *table) {
    const Variable *its = &step->variables[0];
    tup_addition addition = tup_add_positions(*board, table, step->numbers, (uint16_t)its->first, (uint16_t)its->count);
    *board = addition.board;
    return (Outcome){.refusal = addition.refusal, .added = addition.added, .place = addition.place};
}

/* Enters a pair table. */
static Outcome call_pairs(const Step *step, tup_board *board, int16_t *table) {
    const Variable *its = &step->variables[0], *others = &step->variables[1];
    tup_addition addition = tup_add_pairs(*board, table, step->numbers, (uint16_t)its->first, (uint16_t)its->count, (uint16_t)others->first,
                                          (uint16_t)others->count, step->pairs);
    *board = addition.board;
    return (Outcome){.refusal = addition.refusal, .added = addition.added, .place = addition.place};
}

/* Writes a text. */
static Outcome call_write(const Step *step, const tup_board *board, const int16_t *table, uint8_t *text) {
    tup_writing writing = tup_write_dimacs(*board, table, step->numbers, LENT(text, step->lent[0], step), step->lent[0]);
    return (Outcome){.refusal = writing.refusal, .written = writing.bytes};
}

/* Lists the smallest sets of candidates. */
static Outcome call_smallest(const Step *step, const tup_board *board, const int16_t *table, Tables *tables) {
    const int16_t *candidates = LENT(tables->candidates + GUARD, step->bytes, step);
    uint16_t *sets = LENT(tables->sets + GUARD, step->lent[0], step);
    tup_listing listing = tup_smallest(*board, table, step->numbers, candidates, step->bytes, (int16_t)step->value, sets, step->lent[0]);
    return (Outcome){.refusal = listing.refusal, .listed = listing.count};
}

/* Tells the least to withdraw. */
static Outcome call_least(const Step *step, const tup_board *board, const int16_t *table, const Tables *tables) {
    const int16_t *candidates = LENT(tables->candidates + GUARD, step->bytes, step);
    tup_withdrawal withdrawal = tup_least(*board, table, step->numbers, (uint8_t)step->furnace, candidates, step->bytes);
    return (Outcome){.refusal = withdrawal.refusal, .set = withdrawal.set};
}

/* Settles. */
static Outcome call_settle(const Step *step, const tup_board *board, const int16_t *table, Tables *tables) {
    const size_t *lent = step->lent;
    return (Outcome){.refusal = tup_settle(*board, table, step->numbers, (uint8_t)step->furnace,
                                           LENT(tables->labels + GUARD, lent[0], step), lent[0],
                                           LENT(tables->ranks + GUARD, lent[1], step), lent[1],
                                           LENT(tables->supports + GUARD, lent[2], step), lent[2])};
}

/* The outcome of either call that asks. */
static Outcome answered(tup_answer answer) {
    return (Outcome){.refusal = answer.refusal, .standing = answer.standing};
}

/* Explains. */
static Outcome call_explain(const Step *step, const tup_board *board, const int16_t *table) {
    tup_reason reason = tup_explain(*board, table, step->numbers, (uint8_t)step->furnace, (int16_t)step->value);
    return (Outcome){.refusal = reason.refusal, .literals = reason.literals, .rank = reason.rank, .row = reason.row, .rule = reason.rule};
}

/* Settles a board for a furnace beside a step. */
Settled library_settle(const tup_board *board, const int16_t *table, size_t numbers, unsigned furnace) {
    Settled said;
    said.refusal = tup_settle(*board, table, numbers, (uint8_t)furnace, said.labels, MOST_SYMBOLS, said.ranks, PLACES, said.supports, PLACES);
    return said;
}

/* Makes the step's call on the library's board and tables. */
Outcome library_call(const Step *step, tup_board *board, Tables *tables) {
    int16_t *table = LENT(tables->table + GUARD, step->numbers, step);
    uint8_t *marks = LENT(tables->marks + GUARD, step->lent[0], step), *formula = tables->formula + GUARD, *text = tables->text + GUARD;
    tup_stacks *stacks = (tup_stacks *)(void *)(tables->record + GUARD);
    int16_t literal = (int16_t)step->value;
    uint8_t furnace = (uint8_t)step->furnace;
    switch (step->kind) {
    case OPEN: return changed(tup_open((uint16_t)step->value, stacks), board);
    case RULE: return call_rule(step, board, table, formula);
    case TEXT_RULE: return call_text_rule(step, board, table, text);
    case TO_BYTES: return call_to_bytes(step, board, table, text, formula);
    case TO_TEXT: return call_to_text(step, board, table, formula, text);
    case READ: return call_read(step, board, table, text);
    case POSITIONS: return call_positions(step, board, table);
    case PAIRS: return call_pairs(step, board, table);
    case WRITE: return call_write(step, board, table, text);
    case SMALLEST: return call_smallest(step, board, table, tables);
    case LEAST: return call_least(step, board, table, tables);
    case HOLD: return changed(tup_hold(*board, table, step->numbers, furnace, literal), board);
    case WITHDRAW: return changed(tup_withdraw(*board, table, step->numbers, stacks, furnace, literal), board);
    case PUSH: return changed(tup_push(*board, table, step->numbers, stacks, furnace, literal), board);
    case POP: return changed(tup_pop(*board, table, step->numbers, stacks, furnace), board);
    case SETTLE: return call_settle(step, board, table, tables);
    case ASK: return answered(tup_ask(*board, table, step->numbers, furnace, literal));
    case ASK_WHOLE: return answered(tup_ask_whole(*board, table, step->numbers, furnace, literal));
    case EXPLAIN: return call_explain(step, board, table);
    case GROUND: return (Outcome){.refusal = tup_ground(*board, table, step->numbers, furnace, literal, marks, step->lent[0])};
    default: return (Outcome){.refusal = tup_blame(*board, table, step->numbers, furnace, marks, step->lent[0])};
    }
}
