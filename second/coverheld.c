/* Counts of how calls for the least to withdraw were refused: for which candidates that are not held, and which refusal came ahead of another one
 * due as well. What they share with the lists of smallest sets is counted with these. */
#include "cover.h"

/* Cases, each of which has to come up. */
enum {
    BY_0, BY_3, BY_255, BY_ANOTHER, BOARD_NOT_16, BOARD_NOT_11, BOARD_NOT_18, FURNACE_NOT_2, FURNACE_NOT_17, FURNACE_NOT_11, BAD_NOT_11,
    TOO_MANY_NOT_11, REPEATED_NOT_11, TOO_MANY_ALL_HELD, REPEATED_ALL_HELD, REPEATED_NOT_18, NOT_HELD_NOT_18, NOT_HELD_NO_CONFLICT, NOT_HELD_ENDS,
    BY_ONLY_ONE, BY_FIRST, BY_LAST, BY_ALL, HELD_BY_OTHER, OPPOSITE_HELD,
    CASES
};

static const char *const case_words[CASES] = {
    "16 for furnace 0", "16 for furnace 3", "16 for furnace 255", "16 for another number", "1 where 16 is due as well", "1 where 11 is due as well",
    "1 where 18 is due as well", "16 where 2 is due as well", "16 where 17 is due as well", "16 where 11 is due for either furnace",
    "2 where 11 is due as well", "17 for more than 12 where 11 is due", "17 for one repeated where 11 is due",
    "17 for more than 12, all of them held", "17 for one repeated, all of them held", "17 for one repeated where 18 is due",
    "11 where 18 is due as well", "11 and no conflict", "11, and those held would end the conflict", "11 for the only candidate",
    "11 for the first candidate only", "11 for the last candidate only", "11 for all of 2 candidates or more", "11, and the other furnace holds it",
    "11, and its opposite is held"};

static unsigned long cases[CASES];

/* How many of the candidates that are literals the furnace does not hold, and where the first and the last of these are. */
typedef struct Lacking {
    size_t count, first, last;
} Lacking;

/* Looks for candidates that are not held. */
static Lacking find_lacking(const Play *play, const Step *step, unsigned furnace) {
    Lacking lacking = {0};
    for (size_t i = 0; i < step->bytes; i++) {
        int literal = step->candidates[i];
        if (!is_literal(literal, play->board.symbols) || premises_of(&play->board, furnace)[place_of(literal)]) continue;
        if (lacking.count++ == 0) lacking.first = i;
        lacking.last = i;
    }
    return lacking;
}

/* True if the furnace stays in conflict with all candidates withdrawn that are held; they are at most 12 literals. */
static bool stays(const Play *play, const Step *step) {
    unsigned count = (unsigned)step->bytes;
    Board left = board_without(&play->board, step->furnace, step->candidates, count, (1u << count) - 1);
    return has_conflict(&left, step->furnace, play->ours.table + GUARD);
}

/* Counts what 1 comes ahead of; S itself is good. */
static void cover_1(const Play *play, const Step *step) {
    bool given = step->bytes <= MOST_CANDIDATES && gives_literals(step, play->board.symbols) && !repeats(step->candidates, step->bytes);
    cases[BOARD_NOT_16] += !is_furnace(step->furnace);
    if (!given || !is_furnace(step->furnace)) return;
    Lacking lacking = find_lacking(play, step, step->furnace);
    cases[BOARD_NOT_11] += lacking.count > 0;
    cases[BOARD_NOT_18] += lacking.count == 0 && rows_are_left(step->damage) && stays(play, step);
}

/* Counts a refusal 16: for which number, and what it comes ahead of. */
static void cover_16(const Play *play, const Step *step) {
    unsigned furnace = step->furnace;
    bool literals = gives_literals(step, play->board.symbols), many = step->bytes > MOST_CANDIDATES || repeats(step->candidates, step->bytes);
    cases[furnace == 0 ? BY_0 : furnace == 3 ? BY_3 : furnace == 255 ? BY_255 : BY_ANOTHER]++;
    cases[FURNACE_NOT_2] += !literals;
    cases[FURNACE_NOT_17] += literals && many;
    cases[FURNACE_NOT_11] += literals && !many && find_lacking(play, step, 1).count > 0 && find_lacking(play, step, 2).count > 0;
}

/* Counts a refusal 17: what it comes ahead of, or that all candidates are held. */
static void cover_17(const Play *play, const Step *step) {
    bool held = find_lacking(play, step, step->furnace).count == 0;
    if (step->bytes > MOST_CANDIDATES) {
        cases[held ? TOO_MANY_ALL_HELD : TOO_MANY_NOT_11]++;
        return;
    }
    cases[held ? REPEATED_ALL_HELD : REPEATED_NOT_11]++;
    cases[REPEATED_NOT_18] += held && stays(play, step);
}

/* Counts a refusal 11: for which candidates, and beside which conflict. */
static void cover_11(const Play *play, const Step *step) {
    Lacking lacking = find_lacking(play, step, step->furnace);
    int literal = step->candidates[lacking.first];
    bool one_of_more = lacking.count == 1 && step->bytes > 1, conflict_stays = stays(play, step);
    bool conflict = has_conflict(&play->board, step->furnace, play->ours.table + GUARD);
    cases[NOT_HELD_NOT_18] += conflict_stays;
    cases[NOT_HELD_NO_CONFLICT] += !conflict;
    cases[NOT_HELD_ENDS] += conflict && !conflict_stays;
    cases[BY_ONLY_ONE] += step->bytes == 1;
    cases[BY_FIRST] += one_of_more && lacking.first == 0;
    cases[BY_LAST] += one_of_more && lacking.last + 1 == step->bytes;
    cases[BY_ALL] += lacking.count > 1 && lacking.count == step->bytes;
    cases[HELD_BY_OTHER] += lacking.count == 1 && premises_of(&play->board, 3 - step->furnace)[place_of(literal)];
    cases[OPPOSITE_HELD] += lacking.count == 1 && premises_of(&play->board, step->furnace)[place_of(-literal)];
}

/* Counts how a call for the least to withdraw was refused. */
void cover_held(const Play *play, const Step *step) {
    unsigned symbols = play->board.symbols, refusal = play->last.refusal;
    if (refusal == 1 && symbols >= 1 && symbols <= MOST_SYMBOLS) cover_1(play, step);
    if (refusal == 16) cover_16(play, step);
    if (refusal == 2) cases[BAD_NOT_11] += find_lacking(play, step, step->furnace).count > 0;
    if (refusal == 17) cover_17(play, step);
    if (refusal == 11) cover_11(play, step);
}

const Part held_part = {.cases = {"least to withdraw refused with", case_words, cases, CASES, 44}};
