/* "Holding and withdrawing for one furnace change no answer of the other": the library plays a sequence whole, and again with all struck out that
 * puts literals into one furnace's premises or onto its stack, or takes them out. Every other call that does not name this furnace has to tell and
 * write the same, and to hand back the same board and record but for its premises and its stack; what is struck out may change nothing else either.
 * This is done for each furnace, so for the one that the sequence names less often too. The model has no part in it: its side of the play is the
 * library's second run. */
#include "apart.h"

#include <stdio.h>
#include <string.h>

#include "cover.h"

/* A sequence in its two runs, whole and without the steps of a furnace, and how many of its calls that are struck out were done in the first. */
typedef struct Runs {
    unsigned furnace, struck;
    tup_board whole, without;
} Runs;

/* True if the step is struck out: the furnace's holds and withdrawals, its pushes and pops, and what the caller himself writes into its stack and
 * into its premises of symbols up to S. One beyond S stays: it makes the board bad for both furnaces. */
static bool is_struck(const Runs *runs, const Step *step) {
    bool written = (step->kind == SET_HELD && step->place < 2u * runs->whole.symbols) || step->kind == SET_COUNT || step->kind == SET_STACKED;
    return (written || (step->kind >= HOLD && step->kind <= POP)) && step->furnace == runs->furnace;
}

/* True if the step is left out of both runs: a call that tests the record, while it is the furnace's stack that makes it bad in the first. Then 1 is
 * the answer there, for the other furnace too. */
static bool is_left_out(const Play *play, const Runs *runs, const Step *step) {
    Board board = {.symbols = runs->whole.symbols};
    if (!tests_record(step->kind) || step->furnace == runs->furnace) return false;
    for (unsigned p = 0; p < PLACES; p++) board.held[runs->furnace - 1][p] = runs->whole.held[runs->furnace - 1][p] != 0;
    return !stack_is_good(&board, play->theirs.record + GUARD, runs->furnace);
}

/* True if the furnace's premises are not the same in the two runs, so that it means something for a call to tell the same. */
static bool premises_differ(const Runs *runs) {
    return memcmp(runs->whole.held[runs->furnace - 1], runs->without.held[runs->furnace - 1], PLACES) != 0;
}

/* Compares the boards of the two runs: S, rows in use, rules counted, and the other furnace's premises. Their bytes need not be the same: a hold that
 * is struck out writes none as 0 and 1. */
static bool same_boards(Play *play, const Runs *runs) {
    const uint8_t *whole = runs->whole.held[2 - runs->furnace], *without = runs->without.held[2 - runs->furnace];
    bool alike = same(play, "board: S", NONE, runs->whole.symbols, runs->without.symbols) &&
                 same(play, "board: rows in use", NONE, runs->whole.rows, runs->without.rows) &&
                 same(play, "board: rules counted", NONE, runs->whole.rules, runs->without.rules);
    for (unsigned p = 0; p < PLACES && alike; p++) alike = same(play, "board: the other furnace's premise,", p, whole[p] != 0, without[p] != 0);
    return alike;
}

/* Makes a call in both runs, or in the first one only if it is struck out; false where they differ, or one of them tells what no call may tell. */
static bool call_agrees(Play *play, Runs *runs, const Step *step) {
    bool telling = premises_differ(runs);
    if (is_left_out(play, runs, step)) return true;
    lend(play, step);
    Outcome whole = library_call(step, &runs->whole, &play->theirs);
    if (!answer_is_bounded(play, step, &whole, runs->whole.symbols, &play->theirs)) return false;
    if (is_struck(runs, step)) {
        runs->struck += whole.refusal == 0;
        return same_boards(play, runs) && same_record(play, runs->furnace) && same_tables(play, step);
    }
    Outcome without = library_call(step, &runs->without, &play->ours);
    if (!answer_is_bounded(play, step, &without, runs->without.symbols, &play->ours)) return false;
    if (names_furnace(step->kind) && step->furnace == runs->furnace) return true;
    if (telling) cover_compared(runs->furnace, step->kind);
    return same_outcome(play, &without, &whole) && same_boards(play, runs) && same_record(play, runs->furnace) && same_tables(play, step);
}

/* Plays a step in both runs; false where they differ. What the caller writes into S is left out: with S lowered a premise of either furnace may be
 * beyond it, and 1 is the answer to both. */
static bool step_agrees(Play *play, Runs *runs, const Step *step) {
    if (step->kind < CALLS) return call_agrees(play, runs, step);
    if (step->kind == SET_SYMBOLS) return true;
    if (!is_struck(runs, step)) caller_acts(step, &runs->without, &play->ours);
    caller_acts(step, &runs->whole, &play->theirs);
    return true;
}

/* True if a furnace's premises change nothing for others in the sequence; says where they do. */
static bool is_apart(Play *play, const Step *steps, size_t count, uint64_t seed, unsigned furnace) {
    Runs runs = {.furnace = furnace};
    play_start(play, seed, true);
    for (size_t i = 0; i < count; i++) {
        if (step_agrees(play, &runs, &steps[i])) continue;
        printf("second: with and without furnace %u's premises, wrong first at this step:\n", furnace);
        print_step(&steps[i], i + 1);
        printf("  %s (library: with them, model: the library without them)\n", play->difference);
        return false;
    }
    cover_apart(furnace, runs.struck);
    return true;
}

/* True if neither furnace's premises change anything for others in the sequence. */
bool furnaces_apart(Play *play, const Step *steps, size_t count, uint64_t seed) {
    return is_apart(play, steps, count, seed, 1) && is_apart(play, steps, count, seed, 2);
}
