/* Drawing the furnace that a call names, literals that one furnace holds and the other does not, and calls that follow one for the other furnace. */
#include "drawfurnace.h"

/* One of the two furnaces, the favoured one more often. */
static unsigned draw_furnace(Draft *draft) {
    return random_chance(&draft->random, 60) ? draft->favoured : 3 - draft->favoured;
}

/* Names a number that is no furnace's. */
static void name_no_furnace(Draft *draft, Step *step) {
    static const unsigned bad[] = {0, 3, 255};
    unsigned sort = random_below(&draft->random, 4);
    step->furnace = sort < 3 ? bad[sort] : random_between(&draft->random, 4, 254);
    step->faults++;
}

/* Names a furnace in the step, or with this chance in a hundred neither of the two. */
void name_furnace(Draft *draft, Step *step, unsigned chance) {
    if (random_chance(&draft->random, chance)) name_no_furnace(draft, step);
    else step->furnace = draw_furnace(draft);
}

/* The furnace that a literal is drawn for: the one named; for a number that is no furnace's, one of the two. */
unsigned furnace_meant(const Step *step) {
    return is_furnace(step->furnace) ? step->furnace : 1 + step->furnace % FURNACES;
}

/* A literal that tells the two sets apart: one that only the other furnace holds; for a withdrawal that passes one that both hold, for a hold that
 * does not pass one that only this furnace holds. 0 where there is none. */
int draw_telling(Draft *draft, const Play *play, const Step *step, bool pass) {
    unsigned furnace = furnace_meant(step), places[PLACES], count = 0;
    const bool *its = premises_of(&play->board, furnace), *others = premises_of(&play->board, 3 - furnace);
    bool held = pass ? step->kind == WITHDRAW : holds(step->kind), held_by_other = !holds(step->kind) || pass;
    for (unsigned p = 0; p < PLACES; p++)
        if (its[p] == held && others[p] == held_by_other) places[count++] = p;
    return count == 0 ? 0 : literal_at(places[random_below(&draft->random, count)]);
}

/* Adds a hold for one furnace; every third time the other holds the literal as well, and now and then its opposite. */
void add_hold(Draft *draft, int literal) {
    unsigned furnace = draw_furnace(draft), sort = random_below(&draft->random, 100);
    Step *step = add_step(draft, HOLD);
    step->furnace = furnace;
    step->value = literal;
    if (sort >= 45) return;
    step = add_step(draft, HOLD);
    step->furnace = 3 - furnace;
    step->value = sort < 33 ? literal : -literal;
}

/* Adds a call for the other furnace than that of the last call, with its literal or its candidates if it was given some, of the same kind or another;
 * false where the last step was no call that names a furnace. */
bool add_echo(Draft *draft) {
    static const Kind kinds[] = {HOLD, WITHDRAW, PUSH, ASK, ASK, ASK_WHOLE, ASK_WHOLE, EXPLAIN, GROUND};
    const Step last = draft->steps[draft->count - 1];
    Kind kind = last.kind;
    if (!names_furnace(kind) || !is_furnace(last.furnace)) return false;
    if (gives_literal(kind) && random_chance(&draft->random, 60)) kind = kinds[random_below(&draft->random, 9)];
    Step *step = add_step(draft, kind);
    step->furnace = 3 - last.furnace;
    step->value = last.value;
    step->numbers = last.numbers;
    step->candidates = last.candidates;
    step->bytes = last.bytes;
    step->standing = last.standing;
    for (unsigned i = 0; i < 3; i++) step->lent[i] = kind == last.kind ? last.lent[i] : PLACES_LENDABLE;
    return true;
}
