/* What Ticket 9 does not promise, so that it is seen that the promise goes just so far: a premise of a literal's ground is withdrawn, another premise
 * is held, a rule is added. The literal may move or not, and what comes up is counted; only the model has to find the same. */
#include <stdio.h>

#include "cover.h"
#include "outside.h"

enum { RULE_TEXT = 16 }; /* bytes for one literal implying another */

/* Makes a call on a fresh copy of the board, settles, and counts what moved; false where the model finds otherwise. */
static bool move_by(Play *play, Trial *trial, const Step *step) {
    if (!trial_make(play, trial, step, 0) || !trial_settle(play, trial, &trial->now)) return false;
    cover_moved(trial, step->kind);
    return true;
}

/* Withdraws a premise of the ground, if it has one. */
static bool withdraw_of_ground(Play *play, Trial *trial) {
    bool marked[PLACES];
    unsigned place;
    trial_start(play, trial);
    for (unsigned p = 0; p < PLACES; p++) marked[p] = trial->was.marks[p] != 0;
    if (!trial_choose(trial, marked, &place)) return true;
    Step step = trial_step(trial, WITHDRAW, trial->furnace, literal_at(place));
    return move_by(play, trial, &step);
}

/* Notes the opposites of the other literals of a row that has the literal. */
static void note_opposites(const int16_t *row, int literal, bool noted[PLACES]) {
    bool has = false;
    for (unsigned i = 0; i < ROW_LITERALS && row[i] != 0; i++) has |= row[i] == literal;
    for (unsigned i = 0; i < ROW_LITERALS && row[i] != 0; i++)
        if (has && row[i] != literal) noted[place_of(-row[i])] = true;
}

/* Holds a literal that some row waits for to give the trial's literal, if there is one that is not held. */
static bool hold_another(Play *play, Trial *trial) {
    bool noted[PLACES] = {false};
    unsigned place;
    trial_start(play, trial);
    for (unsigned r = 0; r < trial->board.rows; r++) note_opposites(play->theirs.table + GUARD + WIDTH * r, trial->literal, noted);
    for (unsigned p = 0; p < PLACES; p++) noted[p] = noted[p] && !premises_of(&trial->model, trial->furnace)[p];
    if (!trial_choose(trial, noted, &place)) return true;
    Step step = trial_step(trial, HOLD, trial->furnace, literal_at(place));
    return move_by(play, trial, &step);
}

/* Adds the rule that another derived literal implies the literal, where there is room for it. */
static bool add_rule(Play *play, Trial *trial) {
    static char text[RULE_TEXT];
    bool noted[PLACES] = {false};
    unsigned place;
    trial_start(play, trial);
    for (unsigned p = 0; p < 2 * trial->board.symbols; p++) noted[p] = trial->was.ranks[p] != NONE && literal_at(p) != trial->literal;
    if (trial->board.rows == MOST_ROWS || trial->board.rules == MOST_RULES || !trial_choose(trial, noted, &place)) return true;
    Step step = trial_step(trial, TEXT_RULE, 0, 0);
    step.numbers = TABLE_LENDABLE;
    step.text = (const uint8_t *)text;
    step.bytes = step.standing = (size_t)snprintf(text, sizeof text, "%d>%d", literal_at(place), trial->literal);
    return move_by(play, trial, &step);
}

/* Tries what may move the literal of the trial, of which all was said at first; false where the model finds otherwise. */
bool others_may_move(Play *play, Trial *trial) {
    return withdraw_of_ground(play, trial) && hold_another(play, trial) && add_rule(play, trial);
}
