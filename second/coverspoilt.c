/* Counts of the records that were spoilt ahead of a call: refusal 1 by each damage, of the furnace's own stack and of the other's, ahead of each
 * other refusal; what is done with damage that leaves the record good; and that the stacks go on once it is put right. */
#include <stdio.h>

#include "cover.h"
#include "damagestacks.h"

/* Cases, each of which has to come up. */
enum { NOT_16, NOT_2, NOT_10, NOT_11, NOT_20, NOT_21, JUNK_BY_WITHDRAW, JUNK_BY_PUSH, JUNK_BY_POP, UNTESTED, MENDED, MENDED_BY_HOLD, TWICE, CASES };

static const char *const case_words[CASES] = {
    "record: 1 where 16 is due as well", "record: 1 where 2 is due as well", "record: 1 where 10 is due as well", "record: 1 where 11 is due as well",
    "record: 1 where 20 is due as well", "record: 1 where 21 is due as well", "withdraw, numbers that say nothing stay",
    "push, numbers that say nothing stay", "pop, numbers that say nothing stay", "a call that tests no record, over a bad one",
    "done once the record is put right", "the same, right by a hold", "1 twice for one damage"};

static const char *const damage_words[STACK_DAMAGES] = {
    "", "count one more", "count 2S", "count 2S + 1", "count 400", "count 401", "count 65535", "count above 401", "0 stacked", "beyond S stacked",
    "-32768 stacked", "one stacked twice", "one not held", "the other's premise", "the opposite, not held", "premise of it gone",
    "count 0", "count one less", "two exchanged", "another premise", "a premise more", "numbers past the count"};

enum { BY_WITHDRAW, BY_PUSH, BY_POP, BY_KINDS }; /* the calls that test the record */

static const char *const kind_words[BY_KINDS] = {"withdraw", "push", "pop"};

static unsigned long met[STACK_DAMAGES][BY_KINDS], met_of[STACK_DAMAGES][FURNACES], cases[CASES]; /* met_of: of the furnace named, then the other */
static bool mended, mended_by_hold;
static unsigned refused_for; /* the damage that the last call was refused for */

/* The number of a kind of call among those that test the record. */
static unsigned by_kind(Kind kind) {
    return kind == WITHDRAW ? BY_WITHDRAW : kind == PUSH ? BY_PUSH : BY_POP;
}

/* True if some number from the count on is not 0, of either stack. */
static bool junk_stays(const Play *play) {
    const int16_t *record = play->ours.record + GUARD;
    for (unsigned f = 1; f <= FURNACES; f++)
        for (unsigned i = stack_count(record, f); i < PLACES; i++)
            if (stacked_at(record, f, i) != 0) return true;
    return false;
}

/* Counts what is due as well where the record is refused. */
static void cover_order(const Play *play, const Step *step) {
    const int16_t *record = play->ours.record + GUARD;
    bool furnace = is_furnace(step->furnace), literal = is_literal(step->value, play->board.symbols);
    cases[NOT_16] += !furnace;
    cases[NOT_2] += furnace && step->kind != POP && !literal;
    if (!furnace) return;
    cases[NOT_20] += step->kind == POP && stack_count(record, step->furnace) == 0;
    if (step->kind == POP || !literal) return;
    bool held = premises_of(&play->board, step->furnace)[place_of(step->value)], good = stack_is_good(&play->board, record, step->furnace);
    cases[NOT_10] += step->kind == PUSH && held;
    cases[NOT_11] += step->kind == WITHDRAW && !held;
    cases[NOT_21] += step->kind == WITHDRAW && held && good && is_stacked(record, step->furnace, step->value);
}

/* Counts a call that tests the record, spoilt or not. */
static void cover_tested(const Play *play, const Step *step) {
    unsigned refusal = play->last.refusal, kind = by_kind(step->kind);
    bool bad = step->spoilt < BAD_STACKS, board = board_is_good(&play->board, play->ours.table + GUARD, step->numbers);
    if (refusal == 0) cases[JUNK_BY_WITHDRAW + kind] += junk_stays(play);
    if (refusal == 0) cases[MENDED] += mended, cases[MENDED_BY_HOLD] += mended_by_hold, mended = mended_by_hold = false;
    if (step->spoilt == NOT_SPOILT || (bad ? refusal != 1 || !board : refusal != 0)) return;
    met[step->spoilt][kind]++;
    if (is_furnace(step->furnace)) met_of[step->spoilt][step->whose != step->furnace]++;
    cases[TWICE] += bad && refused_for == step->spoilt;
    if (bad) cover_order(play, step), refused_for = step->spoilt;
}

/* Counts one step that was played. */
void cover_spoilt(const Play *play, const Step *step) {
    bool bad = step->spoilt != NOT_SPOILT && step->spoilt < BAD_STACKS;
    if (step->kind == OPEN) mended = mended_by_hold = false;
    if (!bad) refused_for = NOT_SPOILT;
    if (step->mended && step->kind >= CALLS) mended = true;
    if (step->mended && step->kind == HOLD && play->last.refusal == 0) mended_by_hold = true;
    if (step->kind >= CALLS) return;
    if (tests_record(step->kind)) cover_tested(play, step);
    else if (bad && step->kind != OPEN) cases[UNTESTED] += play->last.refusal == 0;
}

/* Prints the damage that was met. */
static void print_ahead(void) {
    printf("\n%-30s%10s%10s%10s%10s%10s\n", "a stack spoilt: 1, then done", "withdraw", "push", "pop", "own", "other's");
    for (unsigned d = 1; d < STACK_DAMAGES; d++)
        printf("%-30s%10lu%10lu%10lu%10lu%10lu\n", damage_words[d], met[d][0], met[d][1], met[d][2], met_of[d][0], met_of[d][1]);
}

/* True if each damage was met by each call, of either stack; says what was not. */
static bool is_whole(void) {
    bool whole = true;
    for (unsigned i = 0; i < STACK_DAMAGES * BY_KINDS; i++)
        if (i >= BY_KINDS) whole &= came_up(met[i / BY_KINDS][i % BY_KINDS], damage_words[i / BY_KINDS], kind_words[i % BY_KINDS], 0);
    for (unsigned i = FURNACES; i < STACK_DAMAGES * FURNACES; i++)
        whole &= came_up(met_of[i / FURNACES][i % FURNACES], damage_words[i / FURNACES], i % FURNACES == 0 ? "own stack" : "the other's stack", 0);
    return whole;
}

const Part spoilt_part = {.cases = {NULL, case_words, cases, CASES, 46}, .print_ahead = print_ahead, .is_whole = is_whole};
