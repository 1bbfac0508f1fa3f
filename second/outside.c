/* Ticket 9: "with only the premises of its ground held, it is derived with the same rank and the same support; and withdrawing premises outside its
 * ground, any number of them, changes neither. Both hold on boards in conflict too."
 *
 * On the last board of a sequence, for each furnace: premises outside the ground of a derived literal are withdrawn one after the other, with other
 * calls in between, and after each the library has to say of the literal what it said at first. A conflict may end thereby, and none may begin. Then
 * a premise is withdrawn, and every literal whose ground does not have it keeps its rank and its support. The grounds are the library's; the model
 * has to find the same ranks, supports and grounds on every board that comes up. */
#include "outside.h"

#include <stdio.h>
#include <string.h>

#include "cover.h"
#include "tries.h"

enum { LITERALS = 2, MOST_GROUNDS = 40, MANY_ROWS = 150 };

/* Compares one number that the library says of the literal now with what it said at first. */
static bool stays(Play *play, const char *what, long place, unsigned now, unsigned was) {
    char words[100];
    if (now == was) return true;
    snprintf(words, sizeof words, "%s (library: now, model: at first)", what);
    return same(play, words, place, now, was);
}

/* Compares the reasons: the refusal or the rank, the row, its rule, and the row as it stands in the table. */
static bool reason_stays(Play *play, const Said *now, const Said *was) {
    bool alike = stays(play, "explain, refusal", NONE, now->reason.refusal, was->reason.refusal) &&
                 stays(play, "explain, rank", NONE, now->reason.rank, was->reason.rank) &&
                 stays(play, "explain, row", NONE, now->reason.row, was->reason.row) &&
                 stays(play, "explain, rule", NONE, now->reason.rule, was->reason.rule) &&
                 stays(play, "explain, literals", NONE, now->reason.literals, was->reason.literals);
    for (unsigned i = 0; i < WIDTH && alike; i++)
        alike = stays(play, "explain, number of the row", i, (uint16_t)now->part[i], (uint16_t)was->part[i]);
    return alike;
}

/* Compares the grounds, mark by mark. */
static bool ground_stays(Play *play, const Said *now, const Said *was) {
    bool alike = stays(play, "ground, refusal", NONE, now->ground.refusal, was->ground.refusal);
    for (unsigned p = 0; p < PLACES && alike; p++) alike = stays(play, "ground, mark", p, now->marks[p], was->marks[p]);
    return alike;
}

/* True if there is no conflict where there was none. */
static bool no_conflict_came(Play *play, const Trial *trial) {
    return same(play, "settle, a conflict that was not there at first", NONE, trial->now.conflict && !trial->was.conflict, false);
}

/* True if the literal's label is its own, or 3 where it was 3 at first; ask says that it stands unless its label is 3, and the second call unless
 * there is a conflict anywhere. So where a conflict ended, the label may move from 3 to the literal's own, and either answer from conflict to
 * stands. */
static bool standing_follows(Play *play, const Trial *trial) {
    const Said *was = &trial->was, *now = &trial->now;
    unsigned symbol = place_of(trial->literal) / 2, own = trial->literal > 0 ? 1 : 2;
    bool both = was->labels[symbol] == 3 && now->labels[symbol] == 3;
    return same(play, "settle, label (model: as follows)", symbol, now->labels[symbol], both ? 3 : own) &&
           same(play, "ask, refusal", NONE, now->answer.refusal, 0) && same(play, "ask whole, refusal", NONE, now->whole.refusal, 0) &&
           same(play, "ask, standing (model: as follows)", NONE, now->answer.standing, both ? IN_CONFLICT : STANDS) &&
           same(play, "ask whole, standing (model: as follows)", NONE, now->whole.standing, now->conflict ? IN_CONFLICT : STANDS);
}

/* True if the library says of the literal now what it said at first; notes what it says otherwise. */
static bool is_kept(Play *play, const Trial *trial) {
    const Said *was = &trial->was, *now = &trial->now;
    unsigned place = place_of(trial->literal);
    return stays(play, "settle, rank of the literal", place, now->ranks[place], was->ranks[place]) &&
           stays(play, "settle, support of the literal", place, now->supports[place], was->supports[place]) && reason_stays(play, now, was) &&
           ground_stays(play, now, was) && no_conflict_came(play, trial) && standing_follows(play, trial);
}

/* Withdraws the premise at a place, or at NONE nothing, and makes up to two other calls. True if the literal is kept. */
static bool kept_without(Play *play, Trial *trial, unsigned place) {
    if (place != NONE) {
        Step step = trial_step(trial, WITHDRAW, trial->furnace, literal_at(place));
        if (!trial_make(play, trial, &step, 0)) return false;
        trial->withdrawn++;
    }
    for (unsigned n = random_below(&trial->random, 3); n > 0; n--)
        if (!call_between(play, trial)) return false;
    return trial_tell(play, trial, &trial->now) && is_kept(play, trial);
}

/* Lists the furnace's premises outside the literal's ground, in random order; returns how many. */
static unsigned list_outside(Trial *trial, unsigned places[PLACES]) {
    const bool *premises = premises_of(&trial->model, trial->furnace);
    unsigned count = 0;
    for (unsigned p = 0; p < PLACES; p++) {
        if (!premises[p] || trial->was.marks[p] != 0) continue;
        unsigned at = random_below(&trial->random, count + 1);
        if (at != count) places[count] = places[at];
        places[at] = p;
        count++;
    }
    return count;
}

/* Withdraws premises outside the literal's ground one by one, all of them every other time. True if it is kept by each. */
static bool literal_is_kept(Play *play, Trial *trial) {
    unsigned places[PLACES];
    trial_start(play, trial);
    if (!trial_tell(play, trial, &trial->was)) return false;
    trial->now = trial->was;
    if (!is_kept(play, trial)) return false;
    trial->outside = list_outside(trial, places);
    unsigned wanted = trial->outside;
    if (wanted > 0 && random_chance(&trial->random, 50)) wanted = random_between(&trial->random, 1, wanted);
    bool good = wanted > 0 || kept_without(play, trial, NONE);
    for (unsigned i = 0; i < wanted && good; i++) good = kept_without(play, trial, places[i]);
    if (good) cover_kept(play, trial);
    return good;
}

/* Chooses a derived literal of the furnace by what settle said at first, every fifth time a premise if there is one, else of two the one with the
 * larger rank; false where none is derived. */
static bool choose_literal(Trial *trial) {
    const uint16_t *ranks = trial->was.ranks;
    bool premises[PLACES] = {false}, others[PLACES] = {false};
    unsigned place, another;
    for (unsigned p = 0; p < 2 * trial->board.symbols; p++) {
        premises[p] = ranks[p] == 0;
        others[p] = ranks[p] != 0 && ranks[p] != NONE;
    }
    bool premise = random_chance(&trial->random, 20);
    if (!trial_choose(trial, premise ? premises : others, &place) && !trial_choose(trial, premise ? others : premises, &place)) return false;
    if (!premise && trial_choose(trial, others, &another) && ranks[another] > ranks[place]) place = another;
    trial->literal = literal_at(place);
    return true;
}

/* Notes the literals whose grounds, by the library, do not have the premise at a place: of so many derived literals, from a random one on. */
static bool find_off(Play *play, Trial *trial, unsigned premise, bool off[PLACES]) {
    unsigned places = 2 * trial->board.symbols, from = random_below(&trial->random, places), left = MOST_GROUNDS;
    memset(off, 0, PLACES * sizeof off[0]);
    for (unsigned i = 0; i < places && left > 0; i++) {
        unsigned p = (from + i) % places;
        if (trial->was.ranks[p] == NONE) continue;
        Step step = trial_step(trial, GROUND, trial->furnace, literal_at(p));
        if (!trial_call(play, trial, &step) || !same(play, "ground, refusal", p, trial->last.refusal, 0)) return false;
        off[p] = play->theirs.marks[GUARD + premise] == 0;
        left--;
    }
    return true;
}

/* "which marks can't move": a premise is withdrawn, if there is one. True if the literals whose grounds do not have it keep their ranks and
 * supports. */
static bool rest_is_kept(Play *play, Trial *trial) {
    bool off[PLACES];
    unsigned premise;
    trial_start(play, trial);
    if (!trial_choose(trial, premises_of(&trial->model, trial->furnace), &premise)) return true;
    trial->literal = literal_at(premise);
    if (!trial_tell(play, trial, &trial->was) || !find_off(play, trial, premise, off)) return false;
    Step step = trial_step(trial, WITHDRAW, trial->furnace, trial->literal);
    if (!trial_make(play, trial, &step, 0) || !trial_settle(play, trial, &trial->now)) return false;
    bool alike = no_conflict_came(play, trial);
    for (unsigned p = 0; p < 2 * trial->board.symbols && alike; p++)
        alike = !off[p] || (stays(play, "settle, rank of a literal off the premise", p, trial->now.ranks[p], trial->was.ranks[p]) &&
                            stays(play, "settle, support of a literal off the premise", p, trial->now.supports[p], trial->was.supports[p]));
    if (alike) cover_rest(trial, off);
    return alike;
}

/* Holds up to three literals more for the furnace, each of which some row waits for, so that more than one way leads to a literal; every other time
 * none. Says where the sides differ. */
static bool hold_more(Play *play, Trial *trial) {
    unsigned more = random_chance(&trial->random, 50) || play->board.rows == 0 ? 0 : random_between(&trial->random, 1, 3);
    for (; more > 0; more--) {
        const int16_t *row = play->ours.table + GUARD + WIDTH * random_below(&trial->random, play->board.rows);
        unsigned length = 1;
        while (length < ROW_LITERALS && row[length] != 0) length++;
        int literal = -row[random_below(&trial->random, length)];
        bool held = premises_of(&play->board, trial->furnace)[place_of(literal)];
        if (!held && !try_call(play, HOLD, trial->furnace, literal, 0))
            return try_wrong(play, "a premise more, held ahead of the trials", "furnace", trial->furnace);
    }
    return true;
}

/* Tries literals of a furnace, what else may move the last of them, and every other time a premise; one literal only where there are many rows, or
 * nothing is held that could be withdrawn. */
static bool furnace_agrees(Play *play, Trial *trial) {
    if (!hold_more(play, trial)) return false;
    bool held = memchr(premises_of(&play->board, trial->furnace), true, PLACES) != NULL, many = play->board.rows > MANY_ROWS;
    unsigned tried = 0, literals = held && !many ? LITERALS : 1;
    trial->literal = 0;
    trial->was = (Said){0};
    trial_start(play, trial);
    if (!trial_settle(play, trial, &trial->was)) return trial_wrong(play, trial, "ahead of the trials, literal");
    for (; tried < literals && choose_literal(trial); tried++)
        if (!literal_is_kept(play, trial)) return trial_wrong(play, trial, "outside the ground of literal");
    if (tried > 0 && !others_may_move(play, trial)) return trial_wrong(play, trial, "what may move literal");
    if (many || random_chance(&trial->random, 50)) return true;
    return rest_is_kept(play, trial) || trial_wrong(play, trial, "off the premise withdrawn,");
}

/* True if on the board in play the ground of each literal tried is enough, for each furnace; says where it is not. A board that is not good has
 * none, and of those with many rows, which take long, only some are tried. */
bool grounds_are_enough(Play *play, uint64_t seed, uint64_t number) {
    static Trial trial;
    trial.random = random_for(seed ^ 0x67726F756E64, number);
    if (!board_is_good(&play->board, play->ours.table + GUARD, TABLE_LENDABLE)) return true;
    if (play->board.rows > MANY_ROWS && !random_chance(&trial.random, 25)) return true;
    for (trial.furnace = 1; trial.furnace <= FURNACES; trial.furnace++)
        if (!furnace_agrees(play, &trial)) return false;
    return true;
}
