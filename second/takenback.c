/* What document 02's Ticket 14 says of a pop, on the library's own board. "After a pop the labels are those of the premises still held and the rules
 * then in the table": settle is called right after it, and the model finds the same labels, ranks and supports by these. And what follows from "push
 * holds a literal", "pop withdraws the top": after a push, pushes and pops of as many, and its pop the furnace's premises are as they were ahead of
 * it, but for what was held and withdrawn for the furnace in between by the calls that do so. For that the model is not asked. */
#include <string.h>

#include "steps.h"

/* Nothing is known of what was held ahead of any push. */
void ahead_start(Play *play) {
    memset(play->ahead.pushes, 0, sizeof play->ahead.pushes);
}

/* Forgets what was held ahead of pushes, where the caller writes into premises or into the record himself. */
void ahead_of_act(Play *play, const Step *step) {
    if (step->kind == SET_HELD || step->kind == SET_COUNT || step->kind == SET_STACKED) ahead_start(play);
}

/* The premises of a furnace on a board of the library's, as 0 and 1. */
static void note_premises(const tup_board *board, unsigned furnace, uint8_t out[PLACES]) {
    for (unsigned p = 0; p < PLACES; p++) out[p] = board->held[furnace - 1][p] != 0;
}

/* After a good push: notes what its furnace held when it was made. */
static void note_push(Play *play, unsigned furnace) {
    Ahead *ahead = &play->ahead;
    unsigned at = ahead->pushes[furnace - 1];
    if (at == PLACES) return;
    note_premises(&play->given, furnace, ahead->held[furnace - 1][at]);
    ahead->changed[furnace - 1][at] = false;
    ahead->pushes[furnace - 1]++;
}

/* After a good hold or withdrawal: the furnace will hold the literal, or not, after the pops of the pushes that were made before. */
static void note_premise(Play *play, unsigned furnace, int literal, bool held) {
    Ahead *ahead = &play->ahead;
    for (unsigned i = 0; i < ahead->pushes[furnace - 1]; i++) {
        ahead->held[furnace - 1][i][place_of(literal)] = held;
        ahead->changed[furnace - 1][i] = true;
    }
}

/* After a good pop: true if its furnace holds what it held ahead of the push, but for what was held and withdrawn since; where that is known. */
static bool premises_are_back(Play *play, unsigned furnace) {
    Ahead *ahead = &play->ahead;
    uint8_t now[PLACES];
    bool alike = true;
    if (ahead->pushes[furnace - 1] == 0) return true;
    unsigned at = --ahead->pushes[furnace - 1];
    const uint8_t *then = ahead->held[furnace - 1][at];
    note_premises(&play->library_board, furnace, now);
    play->taken_back = !ahead->changed[furnace - 1][at];
    play->taken_back_but = ahead->changed[furnace - 1][at];
    for (unsigned p = 0; p < PLACES && alike; p++) alike = same(play, "after the pop, held (model: ahead of its push),", p, now[p], then[p]);
    return alike;
}

/* After a good pop: true if settle tells what the model finds by the premises still held and the rules then in the table. */
static bool settled_after(Play *play, const Step *step) {
    Settled said = library_settle(&play->library_board, play->theirs.table + GUARD, step->numbers, step->furnace);
    if (!same(play, "after the pop, refusal of settle", NONE, said.refusal, 0)) return false;
    play->after = propagate(&play->board, step->furnace, play->ours.table + GUARD);
    play->popped = true;
    bool alike = true;
    for (unsigned s = 1; s <= play->board.symbols && alike; s++)
        alike = same(play, "after the pop, label", s - 1, said.labels[s - 1], label_of(&play->after, s));
    for (unsigned p = 0; p < 2 * play->board.symbols && alike; p++)
        alike = same(play, "after the pop, rank", p, said.ranks[p], play->after.rank[p]) &&
                same(play, "after the pop, support", p, said.supports[p], play->after.support[p]);
    return alike;
}

/* True if what follows for the stacks after a call, on which both sides agree, is so; notes where not. */
bool stack_follows(Play *play, const Step *step) {
    if (play->last.refusal != 0 && step->kind != OPEN) return true;
    if (step->kind == OPEN) ahead_start(play);
    if (step->kind == HOLD || step->kind == WITHDRAW) note_premise(play, step->furnace, step->value, step->kind == HOLD);
    if (step->kind == PUSH) note_push(play, step->furnace);
    return step->kind != POP || (premises_are_back(play, step->furnace) && settled_after(play, step));
}
