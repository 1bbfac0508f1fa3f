/* Calls between withdrawals that change nothing for the furnace of a trial: for the other furnace's premises, refused, or to be told something. */
#include "draw.h"
#include "outside.h"

/* Holds for the other furnace what it does not hold, or withdraws what it holds: every third time the literal of the trial or its opposite. */
static bool change_other(Play *play, Trial *trial) {
    unsigned other = 3 - trial->furnace, place = random_below(&trial->random, 2 * trial->board.symbols);
    if (random_chance(&trial->random, 33)) place = place_of(trial->literal) ^ random_below(&trial->random, 2);
    bool held = premises_of(&trial->model, other)[place];
    Step step = trial_step(trial, held ? WITHDRAW : HOLD, other, literal_at(place));
    trial->others++;
    return trial_make(play, trial, &step, 0);
}

/* A call that has to be refused, and its number. */
static Step draw_refused(Trial *trial, unsigned *refusal) {
    static const struct {
        unsigned refusal;
        Kind kind;
    } sorts[] = {{11, WITHDRAW}, {16, WITHDRAW}, {2, WITHDRAW}, {1, WITHDRAW}, {13, SETTLE}, {13, GROUND}, {13, BLAME}, {8, TEXT_RULE}, {9, RULE},
                 {19, POSITIONS}};
    unsigned symbols = trial->board.symbols, rows = trial->board.rows, sort = random_below(&trial->random, rows == 0 ? 3 : 10);
    unsigned place = random_below(&trial->random, 2 * symbols);
    bool held = sort == 0 && premises_of(&trial->model, trial->furnace)[place];
    Step step = trial_step(trial, held ? HOLD : sorts[sort].kind, trial->furnace, literal_at(place));
    *refusal = held ? 10 : sorts[sort].refusal;
    if (*refusal == 16) step.furnace = 3 * random_below(&trial->random, 2);
    if (*refusal == 2) step.value = draw_bad_literal(&trial->random, symbols);
    if (*refusal == 1) step.numbers = WIDTH * rows - 1;
    if (*refusal == 13) step.lent[0] = symbols - 1;
    if (*refusal == 8) step.text = (const uint8_t *)"1&-1", step.bytes = step.standing = 4;
    if (*refusal == 9) step.numbers = WIDTH * rows;
    if (*refusal == 19) step.variables[0].count = 1;
    return step;
}

/* Makes a call that is refused. */
static bool make_refused(Play *play, Trial *trial) {
    unsigned refusal;
    Step step = draw_refused(trial, &refusal);
    trial->refused++;
    return trial_make(play, trial, &step, refusal);
}

/* Makes a call that only tells, for either furnace or none. */
static bool make_telling(Play *play, Trial *trial) {
    Kind kind = (Kind)random_between(&trial->random, SETTLE, CALLS - 1);
    unsigned furnace = 1 + random_below(&trial->random, FURNACES), place = random_below(&trial->random, 2 * trial->board.symbols);
    Step step = trial_step(trial, kind, furnace, literal_at(place));
    trial->telling++;
    trial_keep(trial, &step);
    return trial_call(play, trial, &step);
}

/* Makes a call of one of these sorts; false where it does not come out as is due. */
bool call_between(Play *play, Trial *trial) {
    switch (random_below(&trial->random, 3)) {
    case 0: return change_other(play, trial);
    case 1: return make_refused(play, trial);
    default: return make_telling(play, trial);
    }
}
