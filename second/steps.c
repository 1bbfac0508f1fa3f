/* Playing one step on both sides and comparing them. */
#include "steps.h"

#include <string.h>

#include "random.h"

/* Rows of literal 1, from rule 1, from row 2,048 on, which no call may take for rows lent. */
static void past_the_last_row(Tables *tables) {
    for (unsigned place = WIDTH * MOST_ROWS; place < TABLE_LENDABLE; place++)
        tables->table[GUARD + place] = place % WIDTH == 0 || place % WIDTH == RULE_PLACE;
}

/* True if the call names a furnace. */
bool names_furnace(Kind kind) {
    return kind >= HOLD && kind <= LEAST;
}

/* True if the call is asked how a literal stands, by its symbol or of the whole board. */
bool asks(Kind kind) {
    return kind == ASK || kind == ASK_WHOLE;
}

/* True if the call puts a literal into a furnace's premises, for good or on trial. */
bool holds(Kind kind) {
    return kind == HOLD || kind == PUSH;
}

/* True if the call is lent the record of both stacks and tests it; open is lent it too, and takes any. */
bool tests_record(Kind kind) {
    return kind == WITHDRAW || kind == PUSH || kind == POP;
}

/* True if the call is given candidates. */
bool gives_candidates(Kind kind) {
    return kind == LEAST || kind == SMALLEST;
}

/* True if the call is given a literal, besides candidates or without any. */
bool gives_literal(Kind kind) {
    return kind == SMALLEST || (names_furnace(kind) && kind != POP && kind != SETTLE && kind != BLAME && kind != LEAST);
}

/* True if all that the call is given, its literal and its candidates, are literals of symbols 1 to S, and so have places. */
bool gives_literals(const Step *step, unsigned symbols) {
    bool good = symbols <= MOST_SYMBOLS && (!gives_literal(step->kind) || is_literal(step->value, symbols));
    size_t count = gives_candidates(step->kind) ? step->bytes : 0;
    for (size_t i = 0; i < count && good; i++) good = is_literal(step->candidates[i], symbols);
    return good;
}

/* True if the call is given formula bytes. */
bool gives_formula(Kind kind) {
    return kind == RULE || kind == TO_TEXT;
}

/* True if the call is given a text of either sort. */
bool gives_text(Kind kind) {
    return kind == READ || spells(kind);
}

/* True if the call is given formula text. */
bool spells(Kind kind) {
    return kind == TEXT_RULE || kind == TO_BYTES;
}

/* True if the call is given a position variable or two. */
bool gives_variables(Kind kind) {
    return kind == POSITIONS || kind == PAIRS;
}

/* True if the call adds rules, and with them rows. */
bool adds_rows(Kind kind) {
    return kind >= RULE && kind <= PAIRS;
}

/* Bytes of the text's table that a call may see, and the guards of one that is written. */
size_t text_window(const Step *step) {
    if (gives_text(step->kind)) return GUARD + step->standing;
    return step->kind == WRITE || step->kind == TO_TEXT ? GUARD + step->lent[0] + GUARD : 0;
}

/* Bytes of the formula's table that a call may see, and the guards of one that is written. */
size_t formula_window(const Step *step) {
    if (gives_formula(step->kind)) return GUARD + step->standing;
    return step->kind == TO_BYTES ? GUARD + step->lent[0] + GUARD : 0;
}

/* Places of the candidates' table that a call may see. */
size_t candidates_window(const Step *step) {
    return gives_candidates(step->kind) ? GUARD + step->standing : 0;
}

/* Places of the sets' table that a call may see, and its guards. */
size_t sets_window(const Step *step) {
    return step->kind == SMALLEST ? GUARD + step->lent[0] + GUARD : 0;
}

/* Both sides alike: no board, and noise in every place of every table and of the record. */
void play_start(Play *play, uint64_t seed, bool with_library) {
    play->with_library = with_library;
    play->watched = sizeof play->ours.table;
    play->board = (Board){0};
    play->library_board = (tup_board){0};
    book_start(&play->book);
    ahead_start(play);
    play->last = (Outcome){0};
    play->demand_3 = play->booked = play->renumbered = play->popped = play->taken_back = play->taken_back_but = false;
    play->difference[0] = 0;
    random_fill(seed, play->ours.table, sizeof play->ours.table);
    if (seed % 2 == 0) past_the_last_row(&play->ours);
    memcpy(play->theirs.table, play->ours.table, sizeof play->ours.table);
    random_fill(~seed, play->ours.record, sizeof play->ours.record);
    memcpy(play->theirs.record, play->ours.record, sizeof play->ours.record);
}

/* Fresh noise where bytes are to be written, or those given with what stands after them, on both sides. */
static void lend_bytes(const Step *step, bool given, const uint8_t *bytes, size_t window, uint8_t *ours, uint8_t *theirs) {
    if (!given) random_fill(step->noise, ours, window);
    else if (step->standing > 0) memcpy(ours + GUARD, bytes, step->standing);
    memcpy(theirs, ours, window);
}

/* The candidates with what stands after them, and fresh noise where the sets are to be written, on both sides. */
static void lend_candidates(const Step *step, Tables *ours, Tables *theirs) {
    size_t given = candidates_window(step) * sizeof ours->candidates[0], written = sets_window(step) * sizeof ours->sets[0];
    if (given > 0 && step->standing > 0) memcpy(ours->candidates + GUARD, step->candidates, step->standing * sizeof ours->candidates[0]);
    memcpy(theirs->candidates, ours->candidates, given);
    random_fill(step->noise, ours->sets, written);
    memcpy(theirs->sets, ours->sets, written);
}

/* Fresh noise in the tables that calls write, and the formula, the text or the candidates with what stands after it, on both sides. */
void lend(Play *play, const Step *step) {
    Tables *ours = &play->ours, *theirs = &play->theirs;
    size_t from = offsetof(Tables, ranks), bytes = offsetof(Tables, formula) - from;
    random_fill(step->noise, (char *)ours + from, bytes);
    memcpy((char *)theirs + from, (char *)ours + from, bytes);
    lend_bytes(step, gives_text(step->kind), step->text, text_window(step), ours->text, theirs->text);
    lend_bytes(step, gives_formula(step->kind), step->formula, formula_window(step), ours->formula, theirs->formula);
    lend_candidates(step, ours, theirs);
}

/* The model's side of a call. */
static Outcome model_call(const Step *step, Board *board, Tables *tables) {
    int16_t *table = tables->table + GUARD, *record = tables->record + GUARD;
    uint8_t *marks = tables->marks + GUARD, *formula = tables->formula + GUARD, *text = tables->text + GUARD;
    switch (step->kind) {
    case OPEN: return model_open(board, record, (unsigned)step->value);
    case RULE: return model_rule(board, table, step->numbers, formula, step->bytes);
    case TEXT_RULE: return model_text_rule(board, table, step->numbers, text, step->bytes);
    case TO_BYTES: return model_to_bytes(board, table, step->numbers, text, step->bytes, formula, step->lent[0]);
    case TO_TEXT: return model_to_text(board, table, step->numbers, formula, step->bytes, text, step->lent[0]);
    case READ: return model_read(board, table, step->numbers, text, step->bytes);
    case POSITIONS: return model_positions(board, table, step->numbers, &step->variables[0]);
    case PAIRS: return model_pairs(board, table, step->numbers, step->variables, step->pairs);
    case WRITE: return model_write(board, table, step->numbers, text, step->lent[0]);
    case SMALLEST:
        return model_smallest(board, table, step->numbers, tables->candidates + GUARD, step->bytes, step->value, tables->sets + GUARD, step->lent[0]);
    case LEAST: return model_least(board, table, step->numbers, step->furnace, tables->candidates + GUARD, step->bytes);
    case HOLD: return model_hold(board, table, step->numbers, step->furnace, step->value);
    case WITHDRAW: return model_withdraw(board, table, step->numbers, record, step->furnace, step->value);
    case PUSH: return model_push(board, table, step->numbers, record, step->furnace, step->value);
    case POP: return model_pop(board, table, step->numbers, record, step->furnace);
    case SETTLE:
        return model_settle(board, table, step->numbers, step->furnace, tables->labels + GUARD, step->lent[0], tables->ranks + GUARD,
                            step->lent[1], tables->supports + GUARD, step->lent[2]);
    case ASK: return model_ask(board, table, step->numbers, step->furnace, step->value);
    case ASK_WHOLE: return model_ask_whole(board, table, step->numbers, step->furnace, step->value);
    case EXPLAIN: return model_explain(board, table, step->numbers, step->furnace, step->value);
    case GROUND: return model_ground(board, table, step->numbers, step->furnace, step->value, marks, step->lent[0]);
    default: return model_blame(board, table, step->numbers, step->furnace, marks, step->lent[0]);
    }
}

/* True if the caller adds a row of his own, and there is room for it. */
static bool adds_row(const Step *step, unsigned rows) {
    return step->kind == APPEND_ROW && rows < MOST_ROWS;
}

/* The rules counted after what the caller did: as many as he says, or more for a row of his own where they can be more. */
static uint16_t rules_after(const Step *step, unsigned rows, unsigned rules) {
    if (step->kind == SET_RULES) return (uint16_t)step->value;
    return (uint16_t)(adds_row(step, rows) && rules + step->rules <= MOST_RULES ? rules + step->rules : rules);
}

/* What the caller himself writes into the clause table, where so many rules are counted now; returns the rows in use after it. */
static uint16_t caller_writes(const Step *step, unsigned rows, unsigned rules, Tables *tables) {
    if (step->kind == SET_NUMBER) tables->table[GUARD + step->place] = (int16_t)step->value;
    if (step->kind == SET_ROWS) return (uint16_t)step->value;
    if (!adds_row(step, rows)) return (uint16_t)rows;
    int16_t *row = tables->table + GUARD + WIDTH * rows;
    memcpy(row, step->row, sizeof step->row);
    row[RULE_PLACE] = (int16_t)rules;
    return (uint16_t)(rows + 1);
}

/* What the caller himself writes into the record. */
static void caller_stacks(const Step *step, Tables *tables) {
    if (step->kind != SET_COUNT && step->kind != SET_STACKED) return;
    int16_t *its = tables->record + GUARD + STACK_NUMBERS * (step->furnace - 1);
    its[step->kind == SET_COUNT ? 0 : 1 + step->place] = (int16_t)step->value;
}

/* What the caller does himself, on the library's side. */
void caller_acts(const Step *step, tup_board *board, Tables *tables) {
    caller_stacks(step, tables);
    board->rules = rules_after(step, board->rows, board->rules);
    board->rows = caller_writes(step, board->rows, board->rules, tables);
    if (step->kind == SET_SYMBOLS) board->symbols = (uint16_t)step->value;
    if (step->kind == SET_HELD) board->held[step->furnace - 1][step->place] = (uint8_t)step->value;
}

/* The same on the model's side. */
static void model_caller_acts(const Step *step, Board *board, Tables *tables) {
    caller_stacks(step, tables);
    board->rules = rules_after(step, board->rows, board->rules);
    board->rows = caller_writes(step, board->rows, board->rules, tables);
    if (step->kind == SET_SYMBOLS) board->symbols = (uint16_t)step->value;
    if (step->kind == SET_HELD) board->held[step->furnace - 1][step->place] = step->value != 0;
}

/* Makes the library's call and compares it with the model's, and with what follows from the documents for it; false if they differ. */
static bool library_agrees(Play *play, const Step *step) {
    play->library_last = library_call(step, &play->library_board, &play->theirs);
    if (!answer_is_bounded(play, step, &play->library_last, play->given.symbols, &play->theirs)) return false;
    if (step->kind == SMALLEST && play->library_last.refusal == 0 && !list_carries(play, step)) return false;
    if (step->kind == LEAST && !least_follows(play, step)) return false;
    if (!same_everywhere(play, step, &play->last, &play->library_last)) return false;
    if (!stack_follows(play, step)) return false;
    if (step->kind == BLAME && play->last.refusal == 0 && !marks_are_enough(play, step)) return false;
    if ((step->kind == SETTLE || asks(step->kind)) && !answers_follow(play, step)) return false;
    play->renumbered = can_renumber(step->kind) && play->last.refusal == 0 && (step->noise >> 8) % 3 == 0;
    return !play->renumbered || numbers_change_nothing(play, step);
}

/* The literal that a pop would take back: the top of its furnace's stack, or 0 where there is none. */
static int top_for(const Play *play, const Step *step) {
    const int16_t *record = play->ours.record + GUARD;
    if (step->kind != POP || !is_furnace(step->furnace)) return 0;
    unsigned count = stack_count(record, step->furnace);
    return count == 0 || count > PLACES ? 0 : stacked_at(record, step->furnace, count - 1);
}

/* Plays one step on both sides; false if they differ, with the difference in words. */
bool play_step(Play *play, const Step *step) {
    play->demand_3 = play->booked = play->renumbered = play->popped = play->taken_back = play->taken_back_but = false;
    play->carried = play->grounds = play->own_grounds = play->asked = play->hidden = play->struck = play->left = play->told_again = 0;
    if (step->kind >= CALLS) {
        model_caller_acts(step, &play->board, &play->ours);
        caller_acts(step, &play->library_board, &play->theirs);
        book_parts(play);
        ahead_of_act(play, step);
        return true;
    }
    lend(play, step);
    play->given = play->library_board;
    play->tried = top_for(play, step);
    if (step->kind == OPEN) memcpy(play->record_given, play->ours.record + GUARD, sizeof play->record_given);
    play->last = model_call(step, &play->board, &play->ours);
    if (play->with_library && !library_agrees(play, step)) return false;
    keep_book(play, step);
    if (!book_agrees(play, step)) return false;
    play->demand_3 = step->kind == SETTLE && play->last.refusal == 0 && book_covers(play);
    return !play->demand_3 || same_by_rules(play, step);
}
