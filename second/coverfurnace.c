/* Counts of what was told to the two furnaces: refusal 16 and what it comes ahead of and after, premises of the one beside those of the other,
 * answers that are not the same for both, and what was told the same without the premises of one. */
#include <stdio.h>
#include <string.h>

#include "cover.h"
#include "damage.h"

/* Cases, each of which has to come up. */
enum {
    BY_0, BY_3, BY_255, BY_ANOTHER, NOT_2, NOT_13, BOARD_NOT_16, PREMISE_NOT_16, PREMISE_OF_OTHER, PREMISE_OF_NAMED, PREMISE_OF_1, PREMISE_OF_2,
    HELD_OTHER_CAN, NOT_HELD_OTHER_CAN, HELD_BY_BOTH, OPPOSITE_HELD, WITHDRAWN_BY_ONE, WITHDRAWN_STANDS, CONFLICT_OF_ONE, LABELS_1_AND_2,
    EXPLAINED_TO_ONE, GROUND_OF_ONE, BLAME_OF_ONE, ASKED_APART, ASKED_WHOLE_APART, OPENED_OVER_BOTH, NOT_OPENED_OVER_2, ODD_OF_OTHER_DONE,
    ODD_OF_OTHER_REFUSED, ODD_OF_1_ROWS, ODD_OF_2_ROWS,
    CASES
};

static const char *const case_words[CASES] = {
    "16 for furnace 0", "16 for furnace 3", "16 for furnace 255", "16 for another number", "16 where 2 is due as well", "16 where 13 is due as well",
    "1 where 16 is due as well", "1 by a premise, 16 due as well", "1 by the other furnace's premise alone", "1 by the named furnace's premise alone",
    "1 by furnace 1's premise, none named", "1 by furnace 2's premise, none named", "10, and the other could hold it",
    "11, and the other could withdraw it", "held for both", "held, the opposite by the other", "withdrawn, and still held by the other",
    "withdrawn, and stands for the other", "conflict for one, none for the other", "label 1 for one, 2 for the other",
    "explained to one, 12 for the other", "ground for one, 12 for the other", "blame for one, 12 for the other",
    "ask: conflict for one, not for the other", "ask whole: conflict for one, not for the other", "opened over premises of both",
    "open refused over premises of 2", "hold or withdraw, bytes beyond 1 of the other", "the same, refused",
    "rows added, bytes beyond 1 of furnace 1", "rows added, bytes beyond 1 of furnace 2"};

/* What a furnace was told since the board changed: by its last call, of a conflict or of none, and by its last settle. */
typedef struct Told {
    bool called, of_conflict, conflict, settled;
    Kind kind;
    int value;
    unsigned refusal, standing;
    uint8_t labels[MOST_SYMBOLS];
} Told;

static unsigned long cases[CASES], told[FURNACES][CALLS][NUMBERS];
static unsigned long sequences_apart[FURNACES], premises_struck[FURNACES], compared[FURNACES][CALLS]; /* by the furnace that was struck out */
static Told last_told[FURNACES];
static int withdrawn[FURNACES]; /* by each furnace last, since the board was opened */

/* True if the call is lent a table that is too short. */
static bool lent_too_short(const Play *play, const Step *step) {
    size_t symbols = play->board.symbols;
    if (step->kind == SETTLE) return step->lent[0] < symbols || step->lent[1] < 2 * symbols || step->lent[2] < 2 * symbols;
    return (step->kind == GROUND || step->kind == BLAME) && step->lent[0] < 2 * symbols;
}

/* Counts a refusal 16. */
static void cover_16(const Play *play, const Step *step) {
    unsigned furnace = step->furnace;
    cases[furnace == 0 ? BY_0 : furnace == 3 ? BY_3 : furnace == 255 ? BY_255 : BY_ANOTHER]++;
    cases[NOT_2] += !gives_literals(step, play->board.symbols);
    cases[NOT_13] += lent_too_short(play, step);
}

/* True if a furnace's premises alone make the board bad. */
static bool spoilt_by(const Play *play, const Step *step, unsigned furnace) {
    Board without = play->board;
    memset(without.held[furnace - 1], 0, sizeof without.held[0]);
    return board_is_good(&without, play->ours.table + GUARD, step->numbers);
}

/* Counts a refusal 1: ahead of 16, and by whose premises. */
static void cover_1(const Play *play, const Step *step) {
    bool named = names_furnace(step->kind), bad = named && !is_furnace(step->furnace);
    cases[BOARD_NOT_16] += bad;
    if (step->damage != PREMISE_BEYOND && step->damage != SYMBOLS_FEWER) return;
    for (unsigned f = 1; f <= FURNACES; f++) {
        if (!spoilt_by(play, step, f)) continue;
        if (!named) cases[f == 1 ? PREMISE_OF_1 : PREMISE_OF_2]++;
        else if (bad) cases[PREMISE_NOT_16]++;
        else cases[f == step->furnace ? PREMISE_OF_NAMED : PREMISE_OF_OTHER]++;
    }
}

/* True if the last call was given a byte beyond this number among the furnace's premises. */
static bool byte_beyond(const Play *play, unsigned furnace, unsigned number) {
    for (unsigned p = 0; p < PLACES; p++)
        if (play->given.held[furnace - 1][p] > number) return true;
    return false;
}

/* True if the furnace held a premise when the last call was made. */
bool held_before(const Play *play, unsigned furnace) {
    return byte_beyond(play, furnace, 0);
}

/* True if a premise of the furnace was given to the last call as a byte beyond 1. */
bool odd_before(const Play *play, unsigned furnace) {
    return byte_beyond(play, furnace, 1);
}

/* Counts a hold or a withdrawal beside what the other furnace holds; its literal is one. */
static void cover_premise(const Play *play, const Step *step) {
    const bool *others = premises_of(&play->board, 3 - step->furnace);
    unsigned refusal = play->last.refusal, place = place_of(step->value);
    bool hold = step->kind == HOLD, odd = odd_before(play, 3 - step->furnace);
    cases[refusal == 0 ? ODD_OF_OTHER_DONE : ODD_OF_OTHER_REFUSED] += odd;
    cases[HELD_OTHER_CAN] += refusal == 10 && !others[place];
    cases[NOT_HELD_OTHER_CAN] += refusal == 11 && others[place];
    if (refusal != 0) return;
    cases[HELD_BY_BOTH] += hold && others[place];
    cases[OPPOSITE_HELD] += hold && others[place_of(-step->value)];
    cases[WITHDRAWN_BY_ONE] += !hold && others[place];
    if (!hold) withdrawn[step->furnace - 1] = step->value;
}

/* True if the last call for a furnace was of the step's kind, and for its literal. */
static bool was_told(const Told *it, const Step *step) {
    return it->called && it->kind == step->kind && it->value == step->value;
}

/* Notes that a furnace was told of a conflict or of none; counts where the other was told otherwise of the same rows. */
static void cover_conflict(Told *here, const Told *other, bool conflict) {
    here->of_conflict = true;
    here->conflict = conflict;
    cases[CONFLICT_OF_ONE] += other->of_conflict && other->conflict != conflict;
}

/* Counts an answer to a call that asks, of a literal that the other furnace withdrew too, and where the same call told the other furnace otherwise of
 * the literal. Whether there is a conflict at all only the call for the whole board tells. */
static void cover_answer(const Play *play, const Step *step, Told *here, const Told *other) {
    unsigned place = place_of(step->value);
    bool only_here = premises_of(&play->board, step->furnace)[place] && !premises_of(&play->board, 3 - step->furnace)[place];
    bool conflict = play->last.standing == IN_CONFLICT, both = was_told(other, step) && other->refusal == 0;
    cases[WITHDRAWN_STANDS] += play->last.standing == STANDS && only_here && withdrawn[2 - step->furnace] == step->value;
    cases[step->kind == ASK ? ASKED_APART : ASKED_WHOLE_APART] += both && conflict != (other->standing == IN_CONFLICT);
    if (step->kind == ASK_WHOLE) cover_conflict(here, other, conflict);
}

/* Counts a good settle beside the other furnace's last one. */
static void cover_labels(const Play *play, Told *here, const Told *other) {
    bool conflict = false, parted = false;
    memcpy(here->labels, play->ours.labels + GUARD, play->board.symbols);
    here->settled = true;
    for (unsigned s = 0; s < play->board.symbols; s++) {
        conflict |= here->labels[s] == 3;
        parted |= other->settled && here->labels[s] + other->labels[s] == 3 && here->labels[s] != 0 && other->labels[s] != 0;
    }
    cases[LABELS_1_AND_2] += parted;
    cover_conflict(here, other, conflict);
}

/* Counts a 12 where the same call for the other furnace was done, or the other way round. */
static void cover_12(const Play *play, const Step *step, const Told *other) {
    unsigned refusal = play->last.refusal, before = other->refusal;
    if (!was_told(other, step) || !((refusal == 12 && before == 0) || (refusal == 0 && before == 12))) return;
    cases[step->kind == EXPLAIN ? EXPLAINED_TO_ONE : step->kind == GROUND ? GROUND_OF_ONE : BLAME_OF_ONE]++;
}

/* Counts a call for a furnace beside the last one for the other. */
static void cover_told(const Play *play, const Step *step) {
    Told *here = &last_told[step->furnace - 1], *other = &last_told[2 - step->furnace];
    told[step->furnace - 1][step->kind][play->last.refusal]++;
    if ((step->kind == HOLD || step->kind == WITHDRAW) && play->last.refusal != 1 && play->last.refusal != 2) cover_premise(play, step);
    if (asks(step->kind) && play->last.refusal == 0) cover_answer(play, step, here, other);
    if (step->kind == SETTLE && play->last.refusal == 0) cover_labels(play, here, other);
    cover_12(play, step, other);
    here->called = true;
    here->kind = step->kind;
    here->value = step->value;
    here->refusal = play->last.refusal;
    here->standing = play->last.standing;
}

/* Counts a call that names no furnace, over premises of both. */
static void cover_unnamed(const Play *play, const Step *step) {
    bool done = play->last.refusal == 0;
    if (step->kind == OPEN) {
        cases[OPENED_OVER_BOTH] += done && held_before(play, 1) && held_before(play, 2);
        cases[NOT_OPENED_OVER_2] += !done && held_before(play, 2);
        memset(withdrawn, 0, sizeof withdrawn);
    } else if (step->kind < SETTLE && done && play->last.added > 0) {
        cases[ODD_OF_1_ROWS] += odd_before(play, 1);
        cases[ODD_OF_2_ROWS] += odd_before(play, 2);
    }
}

/* Counts one step that was played. */
void cover_furnace(const Play *play, const Step *step) {
    bool call = step->kind < CALLS;
    if (call && play->last.refusal == 16) cover_16(play, step);
    if (call && play->last.refusal == 1) cover_1(play, step);
    if (call && names_furnace(step->kind) && is_furnace(step->furnace)) cover_told(play, step);
    if (call && !names_furnace(step->kind)) cover_unnamed(play, step);
    if (!call || step->kind == OPEN || (step->kind < SETTLE && play->last.refusal == 0)) memset(last_told, 0, sizeof last_told);
}

/* Counts a sequence that was played without so many holds, withdrawals, pushes and pops of a furnace, all of which are done in the whole of it. */
void cover_apart(unsigned furnace, unsigned struck) {
    sequences_apart[furnace - 1] += struck > 0;
    premises_struck[furnace - 1] += struck;
}

/* Counts a call that had to tell the same over other premises of the furnace struck out. */
void cover_compared(unsigned furnace, Kind kind) {
    compared[furnace - 1][kind]++;
}

/* The next refusal after a number that a call can give to furnace 1 or 2; NUMBERS where there is none. */
static unsigned next_told(unsigned kind, unsigned number) {
    do number++;
    while (number < NUMBERS && (number == 16 || !can_refuse(kind, number)));
    return number;
}

/* Prints what the calls told each furnace. */
static void print_ahead(void) {
    printf("\n%-24s%9s  refused\n", "told to a furnace", "done");
    for (unsigned i = 0; i < FURNACES * CALLS; i++) {
        unsigned kind = i / FURNACES, f = i % FURNACES;
        if (!names_furnace((Kind)kind)) continue;
        printf("%-12s%-12u%9lu", kind_word((Kind)kind), f + 1, told[f][kind][0]);
        for (unsigned n = next_told(kind, 0); n < NUMBERS; n = next_told(kind, n)) printf("  %u: %lu", n, told[f][kind][n]);
        printf("\n");
    }
}

/* Prints the closing lines of the furnaces. */
static void print_close(void) {
    for (unsigned f = 0; f < FURNACES; f++) {
        unsigned long calls = 0;
        for (unsigned k = 0; k < CALLS; k++) calls += compared[f][k];
        printf("furnaces apart: %lu sequences without furnace %u's %lu good holds, withdrawals, pushes and pops, %lu calls told the same "
               "without its premises\n",
               sequences_apart[f], f + 1, premises_struck[f], calls);
    }
}

/* True if holds, withdrawals, pushes and pops of each furnace were struck out, and calls of every kind compared without them; says what was not. */
static bool apart_is_whole(void) {
    static const char *const words[FURNACES] = {"furnaces apart, 1 struck out:", "furnaces apart, 2 struck out:"};
    bool whole = true;
    for (unsigned f = 0; f < FURNACES; f++) {
        whole &= came_up(premises_struck[f], "holds, withdrawals, pushes and pops", words[f], 0);
        for (unsigned k = 0; k < CALLS; k++) whole &= came_up(compared[f][k], kind_word((Kind)k), words[f], 0);
    }
    return whole;
}

/* True if all that can come up for the two furnaces did, but for the cases; says what did not. */
static bool is_whole(void) {
    bool whole = apart_is_whole();
    for (unsigned i = 0; i < FURNACES * CALLS; i++) {
        unsigned kind = i / FURNACES, f = i % FURNACES;
        if (!names_furnace((Kind)kind)) continue;
        whole &= came_up(told[f][kind][0], "done for furnace", kind_word((Kind)kind), f + 1);
        for (unsigned n = next_told(kind, 0); n < NUMBERS; n = next_told(kind, n))
            whole &= came_up(told[f][kind][n], f == 0 ? "for furnace 1, refusal" : "for furnace 2, refusal", kind_word((Kind)kind), n);
    }
    return whole;
}

const Part furnace_part = {
    .cases = {NULL, case_words, cases, CASES, 46},
    .print_ahead = print_ahead, .print_close = print_close, .is_whole = is_whole};
