/* A literal on a copy of the board in play. The library makes the calls; the model makes those that change the copy too, and its rounds have to find
 * the ranks, supports and grounds that the library says. */
#include <stdio.h>
#include <string.h>

#include "outside.h"
#include "tries.h"

enum { FEW_BYTES = 20 }; /* lent for a text or a formula */

/* A copy of the board in play, and no call made yet. The literal and what was said of it at first stay. The record is empty, so that no premise is
 * stacked and each can be withdrawn. */
void trial_start(Play *play, Trial *trial) {
    memset(play->ours.record + GUARD, 0, RECORD_NUMBERS * sizeof play->ours.record[0]);
    memset(play->theirs.record + GUARD, 0, RECORD_NUMBERS * sizeof play->theirs.record[0]);
    trial->board = play->library_board;
    trial->model = play->board;
    trial->withdrawn = trial->others = trial->refused = trial->telling = 0;
    trial->count = 0;
}

/* A call for a furnace, over noise of its own, with ample tables for what it says of a furnace; all of the clause table is lent, or just the rows in
 * use. */
Step trial_step(Trial *trial, Kind kind, unsigned furnace, int value) {
    Step step = names_furnace(kind) && !gives_candidates(kind) ? try_step(kind, furnace, value) : try_lent(kind, furnace, value, FEW_BYTES);
    step.noise = random_next(&trial->random);
    if (random_chance(&trial->random, 50)) step.numbers = WIDTH * trial->board.rows + random_below(&trial->random, WIDTH);
    return step;
}

/* Lets a byte that no label, mark, rank or support has stand in all places that a call for a furnace may write, mostly another one than for the call
 * before: so what a call leaves unwritten is no answer, and not what was said before. */
static void freshen(Tables *tables, unsigned symbols, uint64_t noise) {
    int byte = 0x40 + (int)(noise % 0x40);
    memset(tables->labels + GUARD, byte, symbols);
    memset(tables->marks + GUARD, byte, 2 * symbols);
    memset(tables->ranks + GUARD, byte, 2 * symbols * sizeof tables->ranks[0]);
    memset(tables->supports + GUARD, byte, 2 * symbols * sizeof tables->supports[0]);
}

/* Makes a call by the library; false where it says what no call may say. */
bool trial_call(Play *play, Trial *trial, const Step *step) {
    if (names_furnace(step->kind) && !gives_candidates(step->kind)) freshen(&play->theirs, trial->board.symbols, step->noise);
    else lend(play, step);
    trial->last = library_call(step, &trial->board, &play->theirs);
    return answer_is_bounded(play, step, &trial->last, trial->board.symbols, &play->theirs);
}

/* Keeps a call, to print it. */
void trial_keep(Trial *trial, const Step *step) {
    if (trial->count < MOST_MADE) trial->made[trial->count++] = *step;
}

/* The model's side of a call that changes the copy. */
static Outcome model_changes(Play *play, Trial *trial, const Step *step) {
    int16_t *table = play->ours.table + GUARD;
    if (step->kind == HOLD) return model_hold(&trial->model, table, step->numbers, step->furnace, step->value);
    if (step->kind == WITHDRAW) return model_withdraw(&trial->model, table, step->numbers, play->ours.record + GUARD, step->furnace, step->value);
    return model_text_rule(&trial->model, table, step->numbers, step->text, step->bytes);
}

/* Makes a hold, a withdrawal or a rule from text that is done, on both sides, or any call that is refused; false where the refusal is another, the
 * sides differ, or the board handed back by a refused call is not the one given. */
bool trial_make(Play *play, Trial *trial, const Step *step, unsigned refusal) {
    const tup_board given = trial->board;
    trial_keep(trial, step);
    if (!trial_call(play, trial, step)) return false;
    if (!same(play, "refusal of the last call (model: the one due)", NONE, trial->last.refusal, refusal)) return false;
    if (refusal == 0) return same(play, "refusal of the last call", NONE, trial->last.refusal, model_changes(play, trial, step).refusal);
    return same(play, "the board given is handed back", NONE, memcmp(&given, &trial->board, sizeof given) == 0, true);
}

/* Settles the furnace by the library, and notes what is said; false where the model's rounds find another rank or support. */
bool trial_settle(Play *play, Trial *trial, Said *said) {
    Step step = trial_step(trial, SETTLE, trial->furnace, 0);
    unsigned symbols = trial->board.symbols;
    if (!trial_call(play, trial, &step) || !same(play, "settle, refusal", NONE, trial->last.refusal, 0)) return false;
    memcpy(said->ranks, play->theirs.ranks + GUARD, 2 * symbols * sizeof said->ranks[0]);
    memcpy(said->supports, play->theirs.supports + GUARD, 2 * symbols * sizeof said->supports[0]);
    memcpy(said->labels, play->theirs.labels + GUARD, symbols);
    said->conflict = memchr(said->labels, 3, symbols) != NULL;
    trial->found = propagate(&trial->model, trial->furnace, play->ours.table + GUARD);
    bool alike = true;
    for (unsigned p = 0; p < 2 * symbols && alike; p++)
        alike = same(play, "settle, rank,", p, said->ranks[p], trial->found.rank[p]) &&
                same(play, "settle, support,", p, said->supports[p], trial->found.support[p]);
    return alike;
}

/* Makes a call about the literal; false where it says what no call may say. */
static bool call_about(Play *play, Trial *trial, Kind kind) {
    Step step = trial_step(trial, kind, trial->furnace, trial->literal);
    return trial_call(play, trial, &step);
}

/* Explains the literal, and notes the row named as it stands in the table; false where that is no row in use. */
static bool tell_reason(Play *play, Trial *trial, Said *said) {
    if (!call_about(play, trial, EXPLAIN)) return false;
    said->reason = trial->last;
    memset(said->part, 0, sizeof said->part);
    if (said->reason.refusal != 0) return true;
    if (!same(play, "explain, a row in use", said->reason.row, said->reason.row < trial->board.rows, true)) return false;
    memcpy(said->part, play->theirs.table + GUARD + WIDTH * said->reason.row, sizeof said->part);
    return true;
}

/* Grounds the literal, and notes the marks; false where the model, which settled with it, comes to another ground. */
static bool tell_ground(Play *play, Trial *trial, Said *said) {
    const bool *premises = premises_of(&trial->model, trial->furnace);
    unsigned place = place_of(trial->literal), places = 2 * trial->board.symbols;
    bool seen[PLACES] = {false}, has_ground = derived(&trial->found, place);
    if (!call_about(play, trial, GROUND)) return false;
    said->ground = trial->last;
    memset(said->marks, 0, sizeof said->marks);
    if (said->ground.refusal == 0) memcpy(said->marks, play->theirs.marks + GUARD, places);
    if (has_ground) walk_back(premises, play->ours.table + GUARD, &trial->found, place, seen);
    bool alike = same(play, "ground, refusal", NONE, said->ground.refusal, has_ground ? 0 : 12);
    for (unsigned p = 0; p < places && alike; p++) alike = same(play, "ground, mark,", p, said->marks[p], seen[p] && premises[p]);
    return alike;
}

/* Asks for the literal by symbol and of the whole board, and notes both answers. */
static bool tell_answers(Play *play, Trial *trial, Said *said) {
    if (!call_about(play, trial, ASK)) return false;
    said->answer = trial->last;
    if (!call_about(play, trial, ASK_WHOLE)) return false;
    said->whole = trial->last;
    return true;
}

/* Notes all that the library says of the literal and its furnace: settle, explain, ground, both asks; false where the model finds other ranks,
 * supports or marks. */
bool trial_tell(Play *play, Trial *trial, Said *said) {
    return trial_settle(play, trial, said) && tell_reason(play, trial, said) && tell_ground(play, trial, said) && tell_answers(play, trial, said);
}

/* Chooses one of the places noted; false where there is none. */
bool trial_choose(Trial *trial, const bool from[PLACES], unsigned *place) {
    unsigned count = 0;
    for (unsigned p = 0; p < PLACES; p++)
        if (from[p] && random_below(&trial->random, ++count) == 0) *place = p;
    return count > 0;
}

/* Says in words what went wrong with the literal, after which calls, on which board; false, so that the caller can return it. */
bool trial_wrong(const Play *play, const Trial *trial, const char *words) {
    printf("second: %s %d, furnace %u, after these calls:\n", words, trial->literal, trial->furnace);
    for (size_t i = 0; i < trial->count; i++) print_step(&trial->made[i], i + 1);
    printf("  %s\n  its ground at first:", play->difference);
    for (unsigned p = 0; p < 2 * trial->board.symbols; p++)
        if (trial->was.marks[p] != 0) printf(" %d", literal_at(p));
    printf("\n  at first, with what was held ahead of the trials:\n");
    print_board(play, TABLE_LENDABLE);
    return false;
}
