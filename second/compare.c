/* Every result, the whole board, and every place of every lent table and of the record with its guards: the library's against the model's. Then what
 * follows from the documents for a result besides: demand 3 for settle, Ticket 4 for blame. */
#include <stdio.h>
#include <string.h>

#include "steps.h"

/* Notes a difference in words; returns false so that the caller can return it. */
static bool differs(Play *play, const char *what, long place, long theirs, long ours) {
    int used = snprintf(play->difference, sizeof play->difference, "%s", what);
    if (place != NONE)
        used += snprintf(play->difference + used, sizeof play->difference - (size_t)used, " place %ld", place);
    snprintf(play->difference + used, sizeof play->difference - (size_t)used, ": library %ld, model %ld", theirs, ours);
    return false;
}

/* Compares one number. */
bool same(Play *play, const char *what, long place, unsigned theirs, unsigned ours) {
    return theirs == ours || differs(play, what, place, theirs, ours);
}

/* Compares the places of a rule or a text, or the bytes written, all their bits; they do not fit the numbers above. */
static bool same_place(Play *play, const char *what, size_t theirs, size_t ours) {
    char their_word[PLACE_WORD], our_word[PLACE_WORD];
    if (theirs == ours) return true;
    place_word(theirs, their_word);
    place_word(ours, our_word);
    snprintf(play->difference, sizeof play->difference, "%s: library %s, model %s", what, their_word, our_word);
    return false;
}

/* Compares what the two calls returned. */
bool same_outcome(Play *play, const Outcome *ours, const Outcome *theirs) {
    return same(play, "refusal", NONE, theirs->refusal, ours->refusal) && same_place(play, "place told", theirs->place, ours->place) &&
           same(play, "clauses before the fault", NONE, theirs->clauses, ours->clauses) &&
           same_place(play, "bytes written", theirs->written, ours->written) &&
           same(play, "rows added", NONE, theirs->added, ours->added) &&
           same(play, "standing", NONE, theirs->standing, ours->standing) &&
           same(play, "literals of the reason", NONE, theirs->literals, ours->literals) &&
           same(play, "rank of the reason", NONE, theirs->rank, ours->rank) &&
           same(play, "row of the reason", NONE, theirs->row, ours->row) &&
           same(play, "rule of the reason", NONE, theirs->rule, ours->rule) &&
           same(play, "sets listed", NONE, theirs->listed, ours->listed) && same(play, "set to withdraw", NONE, theirs->set, ours->set);
}

_Static_assert(sizeof(bool) == 1, "the model's premises are compared with the library's byte by byte");

/* Compares the boards handed back, every byte: both furnaces' held as 0 and 1 by a call that is done, as they were given by a refused one. */
static bool same_board(Play *play, const Step *step) {
    static const char *const held_words[FURNACES] = {"board: furnace 1's held byte,", "board: furnace 2's held byte,"};
    bool fresh = step->kind == OPEN || (step->kind < SETTLE && play->last.refusal == 0);
    bool alike = same(play, "board: S", NONE, play->library_board.symbols, play->board.symbols) &&
                 same(play, "board: rows in use", NONE, play->library_board.rows, play->board.rows) &&
                 same(play, "board: rules counted", NONE, play->library_board.rules, play->board.rules);
    const uint8_t *theirs = (const uint8_t *)&play->library_board.held, *ours = (const uint8_t *)&play->given.held;
    if (fresh) ours = (const uint8_t *)&play->board.held;
    if (!alike || memcmp(theirs, ours, sizeof play->given.held) == 0) return alike;
    unsigned i = 0;
    while (theirs[i] == ours[i]) i++;
    return differs(play, held_words[i / PLACES], i % PLACES, theirs[i], ours[i]);
}

/* Compares two tables of signed numbers, guards included; the first place lent is place 0. */
static bool same_table(Play *play, const char *what, const int16_t *theirs, const int16_t *ours, size_t bytes) {
    if (memcmp(theirs, ours, bytes) == 0) return true;
    size_t i = 0;
    while (theirs[i] == ours[i]) i++;
    return differs(play, what, (long)i - GUARD, theirs[i], ours[i]);
}

/* Compares two tables of ranks, supports or sets, guards included. */
static bool same_numbers(Play *play, const char *what, const uint16_t *theirs, const uint16_t *ours, size_t bytes) {
    if (memcmp(theirs, ours, bytes) == 0) return true;
    size_t i = 0;
    while (theirs[i] == ours[i]) i++;
    return differs(play, what, (long)i - GUARD, theirs[i], ours[i]);
}

/* Compares two tables of bytes, guards included. */
static bool same_bytes(Play *play, const char *what, const uint8_t *theirs, const uint8_t *ours, size_t bytes) {
    if (memcmp(theirs, ours, bytes) == 0) return true;
    size_t i = 0;
    while (theirs[i] == ours[i]) i++;
    return differs(play, what, (long)i - GUARD, theirs[i], ours[i]);
}

/* Compares the whole clause tables. */
bool table_agrees(Play *play) {
    return same_table(play, "clause table", play->theirs.table, play->ours.table, sizeof play->ours.table);
}

/* Compares the records of the stacks, every number of them and their guards, but for the stack of one furnace; with 0, all of it. */
bool same_record(Play *play, unsigned but_of) {
    const int16_t *theirs = play->theirs.record, *ours = play->ours.record;
    if (memcmp(theirs, ours, sizeof play->ours.record) == 0) return true;
    for (unsigned i = 0; i < GUARD + RECORD_NUMBERS + GUARD; i++) {
        bool within = i >= GUARD && i < GUARD + RECORD_NUMBERS;
        if (within && (i - GUARD) / STACK_NUMBERS + 1 == but_of) continue;
        if (theirs[i] != ours[i]) return differs(play, "record of the stacks, number", (long)i - GUARD, theirs[i], ours[i]);
    }
    return true;
}

/* Compares every table, those that the call was not lent included. */
bool same_tables(Play *play, const Step *step) {
    const Tables *theirs = &play->theirs, *ours = &play->ours;
    return same_table(play, "clause table", theirs->table, ours->table, play->watched) &&
           same_bytes(play, "labels", theirs->labels, ours->labels, sizeof ours->labels) &&
           same_numbers(play, "ranks", theirs->ranks, ours->ranks, sizeof ours->ranks) &&
           same_numbers(play, "supports", theirs->supports, ours->supports, sizeof ours->supports) &&
           same_bytes(play, "marks", theirs->marks, ours->marks, sizeof ours->marks) &&
           same_bytes(play, "formula", theirs->formula, ours->formula, formula_window(step)) &&
           same_bytes(play, "text", theirs->text, ours->text, text_window(step)) &&
           same_table(play, "candidates", theirs->candidates, ours->candidates, candidates_window(step) * sizeof ours->candidates[0]) &&
           same_numbers(play, "sets", theirs->sets, ours->sets, sets_window(step) * sizeof ours->sets[0]);
}

/* Compares everything after a call. */
bool same_everywhere(Play *play, const Step *step, const Outcome *ours, const Outcome *theirs) {
    return same_outcome(play, ours, theirs) && same_board(play, step) && same_record(play, 0) && same_tables(play, step);
}

/* Finds the round that completes the furnace's first conflict, by the library's settle: the smallest rank up to which some symbol has both its
 * literals; NONE where there is no such round, or settle is refused. False where settle tells what no call may tell. */
static bool find_first_round(Play *play, const Step *step, tup_board board, unsigned *first) {
    Settled said = library_settle(&board, play->theirs.table + GUARD, step->numbers, step->furnace);
    *first = NONE;
    if (said.refusal != 0) return number_is_known(play, said.refusal);
    for (unsigned s = 0; s < board.symbols; s++) {
        unsigned both = said.ranks[2 * s] > said.ranks[2 * s + 1] ? said.ranks[2 * s] : said.ranks[2 * s + 1];
        if (both < *first) *first = both;
    }
    return ranks_are_bounded(play, said.ranks, board.symbols);
}

/* What follows of Ticket 4 after a good blame: its marks are premises of the furnace, and with only these held for it the same rows are in conflict,
 * whatever literal is asked, and in the same round. What the other furnace holds stays. */
bool marks_are_enough(Play *play, const Step *step) {
    const tup_board *board = &play->library_board;
    const uint8_t *marks = play->theirs.marks + GUARD;
    unsigned places = 2 * play->board.symbols, asked = (unsigned)(step->noise % places);
    tup_board alone = *board;
    const uint8_t *premises = board->held[step->furnace - 1];
    for (unsigned p = 0; p < places; p++) {
        if (marks[p] != 0 && premises[p] == 0) return differs(play, "blame, a mark (model: a premise)", p, marks[p], 0);
        alone.held[step->furnace - 1][p] = marks[p];
    }
    tup_answer answer = tup_ask_whole(alone, play->theirs.table + GUARD, step->numbers, (uint8_t)step->furnace, (int16_t)literal_at(asked));
    unsigned round, round_alone;
    return number_is_known(play, answer.refusal) && find_first_round(play, step, *board, &round) &&
           find_first_round(play, step, alone, &round_alone) &&
           same(play, "blame, refusal of ask whole with only the marks held", asked, answer.refusal, 0) &&
           same(play, "blame, ask whole with only the marks held", asked, answer.standing, IN_CONFLICT) &&
           same(play, "blame, a conflict by settle", NONE, round != NONE, true) &&
           same(play, "blame, round of the conflict (library: only the marks held, model: all premises)", NONE, round_alone, round);
}

/* Demand 3 after a good settle, from the furnace's premises: both ways find a conflict or neither does, and without one every label is the same. */
bool same_by_rules(Play *play, const Step *step) {
    const uint8_t *labels = (play->with_library ? play->theirs.labels : play->ours.labels) + GUARD;
    bool forced[PLACES], by_rows = false, by_rules = false, alike;
    force_by_rules(play->book.rules, play->book.count, premises_of(&play->board, step->furnace), forced);
    for (unsigned s = 0; s < play->board.symbols; s++) {
        by_rows |= labels[s] == 3;
        by_rules |= forced[2 * s] && forced[2 * s + 1];
    }
    alike = same(play, "demand 3, conflict (library: by rows, model: by rules)", NONE, by_rows, by_rules);
    for (unsigned s = 0; s < play->board.symbols && alike && !by_rules; s++)
        alike = same(play, "demand 3, label (library: by rows, model: by rules)", s, labels[s], forced[2 * s] + 2u * forced[2 * s + 1]);
    return alike;
}
