/* The calls, acts, rows and marks of trials outside the random sequences. */
#include "tries.h"

#include <stdio.h>
#include <string.h>

#include "cover.h"

/* A call for a furnace, with the whole table and ample tables to write. */
Step try_step(Kind kind, unsigned furnace, int value) {
    size_t first = kind == SETTLE ? MOST_SYMBOLS : PLACES;
    return (Step){.kind = kind, .furnace = furnace, .value = value, .numbers = TABLE_LENDABLE, .lent = {first, PLACES, PLACES}};
}

/* Plays a step and counts it; false where the sides differ. */
bool try_counted(Play *play, const Step *step) {
    if (!play_step(play, step)) return false;
    cover_step(play, step);
    return true;
}

/* Makes such a call, and counts it nowhere; false where the sides differ or the refusal is another. */
bool try_call(Play *play, Kind kind, unsigned furnace, int value, unsigned refusal) {
    Step step = try_step(kind, furnace, value);
    return play_step(play, &step) && play->last.refusal == refusal;
}

/* Opens a board and adds rules from their texts, so many or up to the first that is none; false where the sides differ or one is refused. */
bool try_open(Play *play, unsigned symbols, const char *const *rules, unsigned most) {
    bool good = try_call(play, OPEN, 0, (int)symbols, 0);
    for (unsigned r = 0; r < most && rules[r] != NULL; r++) {
        Step step = {.kind = TEXT_RULE, .numbers = TABLE_LENDABLE, .text = (const uint8_t *)rules[r]};
        step.bytes = step.standing = strlen(rules[r]);
        good = good && play_step(play, &step) && play->last.refusal == 0;
    }
    return good;
}

/* Holds literals for a furnace, so many or up to the first that is 0; false where the sides differ or one is refused. */
bool try_hold(Play *play, unsigned furnace, const int *literals, unsigned most) {
    bool good = true;
    for (unsigned i = 0; i < most && literals[i] != 0; i++) good = good && try_call(play, HOLD, furnace, literals[i], 0);
    return good;
}

/* A call with so many places of each table to write; where it is given a formula, a text or candidates, that is symbol 1 alone, and where it is given
 * variables, these are of two positions each, from symbol 1 on. */
Step try_lent(Kind kind, unsigned furnace, int value, size_t places) {
    static const uint8_t formula[] = {0x10, 1}, clause[] = "p cnf 1 1\n1 0\n", symbol[] = "1";
    static const int16_t candidate[] = {1};
    Step step = try_step(kind, furnace, value);
    for (unsigned i = 0; i < 3; i++) step.lent[i] = places;
    step.formula = gives_formula(kind) ? formula : NULL;
    step.text = kind == READ ? clause : spells(kind) ? symbol : NULL;
    step.candidates = gives_candidates(kind) ? candidate : NULL;
    step.bytes = spells(kind) || gives_candidates(kind) ? 1 : gives_formula(kind) ? sizeof formula : kind == READ ? sizeof clause - 1 : 0;
    step.standing = step.bytes;
    for (unsigned v = 0; v < 2; v++) step.variables[v] = (Variable){1 + 2 * v, 2};
    step.pairs = 1;
    return step;
}

/* A call for the least to withdraw of so many candidates, with this noise: by it such calls are made again or not. */
Step try_least(unsigned furnace, const int16_t *candidates, size_t count, uint64_t noise) {
    Step step = try_step(LEAST, furnace, 0);
    step.candidates = candidates;
    step.bytes = step.standing = count;
    step.noise = noise;
    return step;
}

/* The caller writes a value himself, at a place of the clause table where that is what he writes into. */
void try_act(Play *play, Kind kind, unsigned place, int value) {
    Step step = {.kind = kind, .place = place, .value = value};
    play_step(play, &step);
}

/* The caller adds a row of his own, from a rule of its own. */
void try_row(Play *play, const int16_t row[ROW_LITERALS]) {
    Step step = {.kind = APPEND_ROW, .rules = 1};
    memcpy(step.row, row, sizeof step.row);
    play_step(play, &step);
}

/* Rows from each set of so many of the symbols 1 to 12 to a mark; or, with 0 for a mark, to none, so that they clash. Lists these sets by their
 * numbers; returns how many there are. */
unsigned try_any_of_12(Play *play, unsigned size, int mark, uint16_t *sets) {
    unsigned count = 0;
    for (unsigned set = 0; set < ALL_SETS; set++) {
        int16_t row[ROW_LITERALS] = {0};
        unsigned used = 0;
        if (set_size(set) != size) continue;
        for (unsigned i = 0; i < MOST_CANDIDATES; i++)
            if (set >> i & 1) row[used++] = (int16_t)-(int)(i + 1);
        row[used] = (int16_t)mark;
        try_row(play, row);
        sets[count++] = (uint16_t)set;
    }
    return count;
}

/* Opens a board of 200 symbols with a full table: its first row leads from 1 to 199, those between from 3 to 4, and the last one is given. */
bool try_full_table(Play *play, const int16_t last[ROW_LITERALS]) {
    bool good = try_call(play, OPEN, 0, MOST_SYMBOLS, 0);
    try_row(play, (int16_t[ROW_LITERALS]){-1, 199});
    for (unsigned r = 1; r < MOST_ROWS - 1; r++) try_row(play, (int16_t[ROW_LITERALS]){-3, 4});
    try_row(play, last);
    return good && play->board.rows == MOST_ROWS;
}

/* True if the row is in use, has these literals and zeros after them, and is from the rule of this number. */
bool try_has_row(const Play *play, unsigned row, const int16_t literals[ROW_LITERALS], unsigned rule) {
    const int16_t *table = play->ours.table + GUARD;
    return row < play->board.rows && memcmp(table + WIDTH * row, literals, ROW_LITERALS * sizeof table[0]) == 0 &&
           rule_number(table, row) == (int)rule;
}

/* True if the last call was done and marked these premises, so many at most, and no others. */
bool try_marked(const Play *play, const int *premises, unsigned most) {
    uint8_t marks[PLACES] = {0};
    for (unsigned i = 0; i < most && premises[i] != 0; i++) marks[place_of(premises[i])] = 1;
    return play->last.refusal == 0 && memcmp(play->ours.marks + GUARD, marks, 2 * play->board.symbols) == 0;
}

/* Says which board went wrong, for which furnace or at which of its calls, and how; false, so that the caller can return it. */
bool try_wrong(const Play *play, const char *words, const char *of, unsigned number) {
    printf("second: not as the documents say: %s, %s %u; %s\n", words, of, number, play->difference[0] != 0 ? play->difference : "by the model");
    return false;
}

/* Draws so much from a stream of its own; true if all that is drawn agrees. */
bool try_drawn(Play *play, uint64_t seed, uint64_t stream, unsigned count, bool (*agrees)(Play *, Random *)) {
    Random random = random_for(seed, stream);
    bool good = true;
    play_start(play, seed, true);
    for (unsigned i = 0; i < count && good; i++) good = agrees(play, &random);
    return good;
}
