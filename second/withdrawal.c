/* What document 02's Ticket 12 says of every answer to what the least to withdraw is, tested on the library's own. The set 0 comes exactly where ask
 * whole tells of no conflict. The candidates of the set are withdrawn on a copy of the board, one after the other: each withdrawal is done, up to the
 * last one blame tells of a conflict that stands on one of them, and after it there is none, by ask whole, blame and the model. With any one of them
 * left in place there still is. Where 18 is the answer, a conflict stays with all candidates withdrawn. */
#include <stdio.h>

#include "steps.h"

/* Candidates are withdrawn this seldom, and the call is made again; always where a step has no noise, as on most boards made by hand. */
enum { EVERY = 2 };

/* A copy of the board, on both sides. */
typedef struct Copy {
    tup_board board;
    Board model;
} Copy;

/* Notes what is wrong with the set; returns false so that the caller can return it. */
static bool wrong_set(Play *play, unsigned set, const char *words) {
    snprintf(play->difference, sizeof play->difference, "set to withdraw: library %u, %s", set, words);
    return false;
}

/* True if what the library told can be the least to withdraw at all: refused, no set; done, a set of the candidates. */
bool least_is_bounded(Play *play, const Step *step, const Outcome *told) {
    if (told->refusal != 0) return same(play, "set to withdraw, of a refused call", NONE, told->set, NONE);
    if (!candidates_are_bounded(play, step)) return false;
    return told->set >> step->bytes == 0 || wrong_set(play, told->set, "which is no set of the candidates");
}

/* A copy of the board in play. */
static Copy copy_of(const Play *play) {
    return (Copy){play->library_board, play->board};
}

/* True if ask whole tells of a conflict on the copy, or of none, as is due: for some literal, by the library and by the model. */
static bool conflict_is(Play *play, const Step *step, const Copy *copy, bool due) {
    int literal = literal_at((unsigned)((step->noise >> 32) % (copy->board.symbols > 0 ? 2u * copy->board.symbols : 1)));
    tup_answer answer = tup_ask_whole(copy->board, play->theirs.table + GUARD, step->numbers, (uint8_t)step->furnace, (int16_t)literal);
    Outcome ours = model_ask_whole(&copy->model, play->ours.table + GUARD, step->numbers, step->furnace, literal);
    return same(play, "least, refusal of ask whole", NONE, answer.refusal, 0) &&
           same(play, "least, a conflict by ask whole (model: as is due)", NONE, answer.standing == IN_CONFLICT, due) &&
           same(play, "least, a conflict (library: as is due, model: by its ask whole)", NONE, due, ours.standing == IN_CONFLICT);
}

/* True if blame tells of a conflict on the copy, one that stands on a candidate of those that are still to be withdrawn; of none where no one is. */
static bool blame_is(Play *play, const Step *step, const Copy *copy, unsigned still) {
    uint8_t marks[PLACES];
    unsigned refusal = tup_blame(copy->board, play->theirs.table + GUARD, step->numbers, (uint8_t)step->furnace, marks, PLACES);
    bool marked = false;
    if (!same(play, "least, refusal of blame, still to be withdrawn,", still, refusal, still == 0 ? 12 : 0)) return false;
    for (unsigned i = 0; i < step->bytes && still != 0; i++) marked |= (still >> i & 1) != 0 && marks[place_of(step->candidates[i])] != 0;
    return same(play, "least, a mark of blame among those still to be withdrawn,", still, marked, still != 0);
}

/* Withdraws one of the candidates from the copy; false where that is refused. On the copy none is stacked: its record is empty. */
static bool withdraw(Play *play, const Step *step, Copy *copy, size_t i) {
    static const int16_t record[RECORD_NUMBERS];
    tup_stacks empty = {0};
    tup_change change = tup_withdraw(copy->board, play->theirs.table + GUARD, step->numbers, &empty, (uint8_t)step->furnace, step->candidates[i]);
    Outcome ours = model_withdraw(&copy->model, play->ours.table + GUARD, step->numbers, record, step->furnace, step->candidates[i]);
    copy->board = change.board;
    return same(play, "least, refusal of withdraw, candidate", (long)i, change.refusal, 0) &&
           same(play, "least, refusal of the model's withdraw, candidate", (long)i, 0, ours.refusal);
}

/* True if the candidates of the set can be withdrawn one after the other, from the first on or from the last on, and the last one ends the conflict.
 * None does before it: the set is the smallest that does. */
static bool withdrawn_ends(Play *play, const Step *step, unsigned set, bool from_last) {
    Copy copy = copy_of(play);
    for (unsigned n = 0, still = set; n < step->bytes; n++) {
        unsigned i = from_last ? (unsigned)step->bytes - 1 - n : n;
        if ((set >> i & 1) == 0) continue;
        if (!blame_is(play, step, &copy, still) || !withdraw(play, step, &copy, i)) return false;
        still &= ~(1u << i);
        play->struck++;
    }
    return conflict_is(play, step, &copy, false) && blame_is(play, step, &copy, 0);
}

/* True if there is a conflict still with any one candidate of the set left in place, and all others of it withdrawn. */
static bool all_are_needed(Play *play, const Step *step, unsigned set) {
    for (unsigned kept = 0; kept < step->bytes; kept++) {
        Copy copy = copy_of(play);
        if ((set >> kept & 1) == 0) continue;
        for (unsigned i = 0; i < step->bytes; i++)
            if (i != kept && (set >> i & 1) != 0 && !withdraw(play, step, &copy, i)) return false;
        if (!conflict_is(play, step, &copy, true)) return wrong_set(play, set, "and a smaller set inside it ends the conflict");
        play->left++;
    }
    return true;
}

/* True if there is a conflict with all candidates withdrawn. */
static bool conflict_stays(Play *play, const Step *step) {
    Copy copy = copy_of(play);
    for (size_t i = 0; i < step->bytes; i++)
        if (!withdraw(play, step, &copy, i)) return false;
    return conflict_is(play, step, &copy, true);
}

/* True if what follows for the least to withdraw, as the library told it, is so; notes where not. Of the refusals only 18 tells of a conflict. Where
 * 2 was due there is nothing to withdraw. */
bool least_follows(Play *play, const Step *step) {
    unsigned refusal = play->library_last.refusal, set = play->library_last.set;
    Copy copy = copy_of(play);
    if ((refusal != 0 && refusal != 18) || !gives_literals(step, copy.board.symbols)) return true;
    if (!conflict_is(play, step, &copy, refusal == 18 || set != 0)) return false;
    if (refusal == 18 && !conflict_stays(play, step)) return false;
    if ((step->noise >> 20) % EVERY != 0) return true;
    if (refusal == 0 && !(withdrawn_ends(play, step, set, false) && withdrawn_ends(play, step, set, true) && all_are_needed(play, step, set)))
        return false;
    return least_told_again(play, step);
}
