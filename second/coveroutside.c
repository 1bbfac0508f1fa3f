/* Counts of what came up around the grounds of literals: what was withdrawn outside them and what happened meanwhile, literals off a premise that was
 * withdrawn, and what moved a literal otherwise. */
#include <stdio.h>

#include "cover.h"

/* Cases, each of which has to come up. All up to the furnaces are of literals that were kept; but for one, with premises withdrawn. */
enum {
    OF_RANK_0, OF_RANK_1, OF_RANK_2, NO_GROUND, CONFLICT_STAYED, CONFLICT_ENDED, NO_CONFLICT, SEVERAL, ALL_OUTSIDE, NOTHING_OUTSIDE, ANOTHER_FELL,
    ROW_LESS, LABEL_MOVED, OLD_ANSWER_MOVED, OTHER_CHANGED, REFUSED_BETWEEN, TOLD_BETWEEN, FOR_1, FOR_2, OFF_ITS_GROUND,
    OFF_IN_CONFLICT, ON_AND_FELL, FELL, ANOTHER_SUPPORT, ANOTHER_RANK, ANOTHER_GROUND, RANK_BY_HOLD, SUPPORT_BY_HOLD, RANK_BY_RULE,
    CASES
};

static const char *const case_words[CASES] = {
    "a premise kept", "a literal of rank 1 kept", "a literal of rank 2 or more kept", "an empty ground, premises withdrawn",
    "in conflict before and after", "in conflict before, not after", "no conflict before or after", "several premises withdrawn",
    "all outside the ground withdrawn", "nothing outside the ground to withdraw", "another literal fell", "a row fewer that leads to it",
    "its label from 3 to its own", "ask kept, the old answer not", "changes for the other furnace between", "a refused call between",
    "a telling call between", "kept for furnace 1", "kept for furnace 2", "literals off a premise, kept", "the same in conflict",
    "literals on it that fell", "of its ground withdrawn: falls", "of its ground: another support", "of its ground: another rank",
    "of its ground: another ground only", "another premise held: another rank", "another held: another support only", "a rule added: another rank"};

static unsigned long cases[CASES], literals, premises, compared;

/* Rows in use that lead to the literal: each of their other literals is ruled out by these ranks. */
static unsigned rows_to(const Play *play, int literal, const uint16_t ranks[PLACES]) {
    unsigned count = 0;
    for (unsigned r = 0; r < play->board.rows; r++) {
        const int16_t *row = play->ours.table + GUARD + WIDTH * r;
        unsigned missing = 0, has = 0;
        for (unsigned i = 0; i < ROW_LITERALS && row[i] != 0; i++) {
            has += row[i] == literal;
            missing += row[i] != literal && ranks[place_of(-row[i])] == NONE;
        }
        count += has == 1 && missing == 0;
    }
    return count;
}

/* True if a literal that was not held fell. */
static bool another_fell(const Trial *trial) {
    const uint16_t *was = trial->was.ranks, *now = trial->now.ranks;
    for (unsigned p = 0; p < 2 * trial->board.symbols; p++)
        if (was[p] != 0 && was[p] != NONE && now[p] == NONE) return true;
    return false;
}

/* True if the ground has no premise. */
static bool ground_is_empty(const Said *said) {
    for (unsigned p = 0; p < PLACES; p++)
        if (said->marks[p] != 0) return false;
    return true;
}

/* Counts what happened while the literal was kept. */
static void cover_meanwhile(const Play *play, const Trial *trial) {
    const Said *was = &trial->was, *now = &trial->now;
    unsigned symbol = place_of(trial->literal) / 2;
    cases[CONFLICT_STAYED] += was->conflict && now->conflict;
    cases[CONFLICT_ENDED] += was->conflict && !now->conflict;
    cases[NO_CONFLICT] += !was->conflict;
    cases[ANOTHER_FELL] += another_fell(trial);
    cases[ROW_LESS] += rows_to(play, trial->literal, now->ranks) < rows_to(play, trial->literal, was->ranks);
    cases[LABEL_MOVED] += was->labels[symbol] == 3 && now->labels[symbol] != 3;
    cases[OLD_ANSWER_MOVED] += now->answer.standing == was->answer.standing && now->whole.standing != was->whole.standing;
    cases[OTHER_CHANGED] += trial->others > 0;
    cases[REFUSED_BETWEEN] += trial->refused > 0;
    cases[TOLD_BETWEEN] += trial->telling > 0;
}

/* Counts a literal that was kept. */
void cover_kept(const Play *play, const Trial *trial) {
    unsigned rank = trial->was.ranks[place_of(trial->literal)];
    literals++;
    premises += trial->withdrawn;
    cases[NOTHING_OUTSIDE] += trial->outside == 0;
    if (trial->withdrawn == 0) return;
    cases[rank == 0 ? OF_RANK_0 : rank == 1 ? OF_RANK_1 : OF_RANK_2]++;
    cases[NO_GROUND] += ground_is_empty(&trial->was);
    cases[SEVERAL] += trial->withdrawn > 1;
    cases[ALL_OUTSIDE] += trial->withdrawn == trial->outside;
    cases[trial->furnace == 1 ? FOR_1 : FOR_2]++;
    cover_meanwhile(play, trial);
}

/* Counts the literals off a premise that was withdrawn, and whether one on it fell. */
void cover_rest(const Trial *trial, const bool off[PLACES]) {
    unsigned count = 0;
    for (unsigned p = 0; p < PLACES; p++) count += off[p];
    compared += count;
    cases[OFF_ITS_GROUND] += count > 0;
    cases[OFF_IN_CONFLICT] += count > 0 && trial->was.conflict;
    cases[ON_AND_FELL] += another_fell(trial);
}

/* Counts what a call that may move a literal did to it: a premise of its ground withdrawn, another one held, or a rule added. */
void cover_moved(const Trial *trial, Kind by) {
    unsigned place = place_of(trial->literal), rank = trial->now.ranks[place];
    bool fell = rank == NONE, other_rank = rank != trial->was.ranks[place], other_support = trial->now.supports[place] != trial->was.supports[place];
    if (by == WITHDRAW) {
        cases[FELL] += fell;
        cases[ANOTHER_SUPPORT] += !fell && other_support;
        cases[ANOTHER_RANK] += !fell && other_rank;
        cases[ANOTHER_GROUND] += !other_rank && !other_support;
    } else if (by == HOLD) {
        cases[RANK_BY_HOLD] += other_rank;
        cases[SUPPORT_BY_HOLD] += !other_rank && other_support;
    } else {
        cases[RANK_BY_RULE] += other_rank;
    }
}

/* Prints the closing line of the grounds. */
static void print_close(void) {
    printf("the ground is enough: %lu literals kept with %lu premises withdrawn outside their grounds, %lu kept off a premise withdrawn\n", literals,
           premises, compared);
}

const Part outside_part = {
    .cases = {"withdrawn outside the ground of a literal, and what else may move one", case_words, cases, CASES, 42},
    .print_close = print_close};
