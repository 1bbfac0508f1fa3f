/* Counts of what came up, and the list of what has to. */
#include "cover.h"

#include <stdio.h>
#include <stdlib.h>

#include "damage.h"

/* Cases beyond the table of refusals, each of which has to come up. */
enum {
    EXPLAIN_HELD, EXPLAIN_NOT_DERIVED, EXPLAIN_ONE_LITERAL, GROUND_HELD,
    GROUND_NO_PREMISE, GROUND_MORE, SHORT_LABELS, SHORT_RANKS, SHORT_SUPPORTS, SHORT_BY_ONE, JUST_LONG_ENOUGH, CONFLICT_SETTLED,
    BOTH_SIGNS_HELD, BLAME_MORE, RULE_ALWAYS_TRUE, RULE_FILLS_TABLE, RULE_FILLS_2048, RULE_OF_7, RULE_OF_8, RULE_OF_128_ROWS, RULE_OF_200_ROWS,
    RULE_DEPTH_16, RULE_LONG, NOTHING_LENT, BEYOND_2048, LOWEST_ASKED, ODD_BYTES_DONE, ODD_BYTES_BACK, ODD_LENGTH, LENGTH_CHANGED, FEWER_SYMBOLS,
    FEWER_ROWS, UNUSED_NUMBER, SYMBOLS_1, SYMBOLS_200, FULL_BOARD, TWO_FAULTS, DEMAND_3_CONFLICT, DEMAND_3_LABELS, REFUSED_6_NOT_7,
    REFUSED_6_NOT_8, REFUSED_7_NOT_9, REFUSED_8_NOT_9, FULL_AND_MORE_LENT, PAST_2048_LENT, RANK_150, RANK_ABOVE_S, RANK_2S_1, RANK_2S_1_AT_RANDOM,
    CASES
};

static const char *const case_words[CASES] = {
    "explain 12, held", "explain 12, not derived",
    "explain by a row of one literal", "ground of a premise", "ground without a premise", "ground of 2 or more premises",
    "settle 13, labels", "settle 13, ranks", "settle 13, supports", "13 with one place missing", "done with no place to spare",
    "settled in conflict", "both signs held", "blame of 2 or more premises", "rule always true, done", "rule fills the rows lent",
    "rule fills row 2,047", "rule of 7 symbols, done", "rule of 8 symbols, done", "rule of 128 rows", "rule of 200 rows or more",
    "rule of depth 16, done", "rule of 500 bytes or more, done", "done with no number lent", "done with more than 2,048 rows lent", "-32768 given",
    "done with held bytes beyond 1", "handed back with held bytes beyond 1", "done with a length not of whole rows",
    "length lent changed between calls", "done with S lowered", "done with rows in use lowered", "done with noise beyond the rows in use",
    "done with S = 1", "done with S = 200", "settled 2,048 rows", "two faults or more at once", "demand 3 in conflict", "demand 3, a label not 0",
    "6 where 7 is due as well", "6 where 8 is due as well", "7 with no row free", "8 with no row free", "9 at 2,048 rows with more lent",
    "rows in use past 2,048 with more lent", "boards with a rank of 150 or more", "boards with a rank above S", "boards with a rank of 2S - 1",
    "boards with a rank of 2S - 1, S 4 to 199"};

static const char *const damage_words[BAD_BOARDS] = {
    "", "S is 0", "S is 201", "S is 65535", "S above 201", "rows in use past lent", "table lent too short", "premise beyond S",
    "32,768 rules", "65,535 rules", "rules above 32,768", "rules below a row's", "row with 0 in front", "row with 0 inside", "row falling",
    "row repeating", "row with -32768", "row beyond S", "row from rule 0", "row from a rule below 0", "row past the rules", "rule numbers falling"};

/* How a formula breaks, and at which operand: for 2 to 5 the one that was due, for 6 the last one ahead of the bytes too many. */
enum { BY_2, BY_3_KIND, BY_3_BODY, BY_4, BY_5, BY_6, BREAKS };
enum { AT_WHOLE, AT_FIRST, AT_SECOND, AT_NESTED, AT_SECOND_TWICE, AT_256, SPOTS };

static const char *const break_words[BREAKS] = {
    "broken by 2", "broken by 3 for a kind", "broken by 3 for a body", "broken by 4", "broken by 5", "broken by 6"};
static const char *const spot_words[SPOTS] = {"whole", "first", "second", "nested", "2 second", "from 256"};

/* An operand's depth, and how often the way to it leads into a second operand. */
typedef struct Spot {
    unsigned depth, seconds;
} Spot;

/* The refusals that can come up, by call. */
static const unsigned possible[CALLS][NUMBERS] = {
    [OPEN] = {2},              [RULE] = {1, 2, 3, 4, 5, 6, 7, 8, 9}, [READ] = {1, 2, 7, 8, 9, 15},  [HOLD] = {1, 16, 2, 10},
    [SETTLE] = {1, 16, 13},    [WITHDRAW] = {1, 16, 2, 11, 21},      [GROUND] = {1, 16, 2, 13, 12}, [ASK] = {1, 16, 2},
    [BLAME] = {1, 16, 13, 12}, [EXPLAIN] = {1, 16, 2, 12},           [WRITE] = {1, 13},             [TEXT_RULE] = {1, 2, 5, 7, 8, 9, 15},
    [TO_BYTES] = {1, 2, 5, 13, 15}, [TO_TEXT] = {1, 2, 3, 4, 5, 6, 13}, [SMALLEST] = {1, 2, 17, 13}, [ASK_WHOLE] = {1, 16, 2},
    [LEAST] = {1, 16, 2, 17, 11, 18}, [POSITIONS] = {1, 2, 19, 9}, [PAIRS] = {1, 2, 19, 8, 9},
    [PUSH] = {1, 16, 2, 10}, [POP] = {1, 16, 20}};

/* The parts in the order in which they are printed. */
static const Part *const parts[] = {&rows_part, &blame_part, &answers_part, &furnace_part, &stacks_part, &spoilt_part, &rules_part, &outside_part,
                                    &candidates_part, &sets_part, &held_part, &least_part, &positions_part, &arcs_part, &text_part, &faults_part,
                                    &spelt_part};
enum { PARTS = sizeof parts / sizeof parts[0] };

static unsigned long calls[CALLS], refusals[CALLS][NUMBERS], damaged[BAD_BOARDS][CALLS], cases[CASES];
static unsigned long broken[BREAKS][SPOTS];
static unsigned long labels_seen[4], demand_3, settled, rules_done, rows_added, acts;
static unsigned highest_rank, highest_symbols, most_rows; /* the highest rank, and the S of its board */
static size_t length_before;

/* Counts the marks that are set. */
static unsigned marks_set(const Play *play) {
    unsigned count = 0;
    for (unsigned p = 0; p < 2 * play->board.symbols; p++) count += play->ours.marks[GUARD + p];
    return count;
}

/* The depth of a formula that was accepted. */
static unsigned depth_of(const uint8_t *bytes, size_t *at) {
    uint8_t kind = bytes[(*at)++];
    if (kind == 0x10) return (*at)++, 1;
    unsigned first = depth_of(bytes, at), second = kind == 0x11 ? 0 : depth_of(bytes, at);
    return 1 + (first > second ? first : second);
}

/* Counts how high the ranks go that a good settle wrote. With up to 3 symbols a few rows reach 2S - 1 by chance, with 200 a chain made by hand does;
 * in between it has to be random chains. */
static void cover_ranks(const Play *play) {
    unsigned symbols = play->board.symbols, highest = 0;
    for (unsigned p = 0; p < 2 * symbols; p++) {
        uint16_t rank = play->ours.ranks[GUARD + p];
        if (rank != NONE && rank > highest) highest = rank;
    }
    if (highest > highest_rank) highest_rank = highest, highest_symbols = symbols;
    cases[RANK_150] += highest >= 150;
    cases[RANK_ABOVE_S] += highest > symbols;
    cases[RANK_2S_1] += highest + 1 == 2 * symbols;
    cases[RANK_2S_1_AT_RANDOM] += highest + 1 == 2 * symbols && symbols >= 4 && symbols < MOST_SYMBOLS;
}

/* Counts what a good settle wrote. */
static void cover_settle(const Play *play, const Step *step) {
    const Board *board = &play->board;
    const bool *premises = premises_of(board, step->furnace);
    bool conflict = false, both = false, any = false;
    for (unsigned s = 0; s < board->symbols; s++) {
        uint8_t label = play->ours.labels[GUARD + s];
        labels_seen[label]++;
        conflict |= label == 3;
        any |= label != 0;
        both |= premises[2 * s] && premises[2 * s + 1];
    }
    cover_ranks(play);
    settled++;
    cases[CONFLICT_SETTLED] += conflict;
    cases[BOTH_SIGNS_HELD] += both;
    cases[FULL_BOARD] += board->rows == MOST_ROWS;
    cases[JUST_LONG_ENOUGH] += step->lent[0] == board->symbols && step->lent[1] == 2 * board->symbols && step->lent[2] == step->lent[1];
    demand_3 += play->demand_3;
    cases[DEMAND_3_CONFLICT] += play->demand_3 && conflict;
    cases[DEMAND_3_LABELS] += play->demand_3 && !conflict && any;
}

/* Counts what an accepted rule did. */
static void cover_rule(const Play *play, const Step *step) {
    uint8_t symbols[MOST_SYMBOLS];
    unsigned count = different_symbols(step->formula, step->bytes, symbols), added = play->last.added;
    size_t at = 0;
    rules_done++;
    rows_added += added;
    if (added > most_rows) most_rows = added;
    cases[RULE_ALWAYS_TRUE] += added == 0;
    cases[RULE_FILLS_TABLE] += added > 0 && play->board.rows == rows_lent(step->numbers);
    cases[RULE_FILLS_2048] += added > 0 && play->board.rows == MOST_ROWS;
    cases[RULE_OF_7] += count == 7;
    cases[RULE_OF_8] += count == 8;
    cases[RULE_OF_128_ROWS] += added == 128;
    cases[RULE_OF_200_ROWS] += added >= 200;
    cases[RULE_DEPTH_16] += depth_of(step->formula, &at) == DEEPEST;
    cases[RULE_LONG] += step->bytes >= 500;
}

/* Counts a refusal 13 by the table that was short. */
static void cover_short(const Play *play, const Step *step) {
    size_t symbols = play->board.symbols;
    if (step->kind == WRITE || step->kind == TO_BYTES || step->kind == TO_TEXT || step->kind == SMALLEST) return;
    if (step->kind != SETTLE) {
        cases[SHORT_BY_ONE] += step->lent[0] == 2 * symbols - 1;
        return;
    }
    cases[SHORT_LABELS] += step->lent[0] + 1 == symbols && step->lent[1] >= 2 * symbols && step->lent[2] >= 2 * symbols;
    cases[SHORT_RANKS] += step->lent[0] >= symbols && step->lent[1] + 1 == 2 * symbols && step->lent[2] >= 2 * symbols;
    cases[SHORT_SUPPORTS] += step->lent[0] >= symbols && step->lent[1] >= 2 * symbols && step->lent[2] + 1 == 2 * symbols;
}

/* The operand, from the one at *at on, that starts at the place or has its number there; depth 0 for none. *at is then its start. */
static Spot spot_of(const uint8_t *bytes, size_t *at, size_t place, Spot here) {
    if (*at == place || (bytes[*at] == 0x10 && *at + 1 == place)) return here;
    uint8_t kind = bytes[(*at)++];
    if (kind == 0x10) return (*at)++, (Spot){0, 0};
    Spot found = spot_of(bytes, at, place, (Spot){here.depth + 1, here.seconds});
    if (found.depth != 0 || kind == 0x11) return found;
    return spot_of(bytes, at, place, (Spot){here.depth + 1, here.seconds + 1});
}

/* The way in which a formula broke; 3 where a kind is due, or where a body is. */
static unsigned way_of(unsigned refusal, bool kind_due) {
    switch (refusal) {
    case 2: return BY_2;
    case 3: return kind_due ? BY_3_KIND : BY_3_BODY;
    case 4: return BY_4;
    case 5: return BY_5;
    default: return BY_6;
    }
}

/* Counts where a formula broke. */
static void cover_break(const Play *play, const Step *step) {
    unsigned refusal = play->last.refusal;
    size_t at = 0, place = play->last.place;
    Spot spot = spot_of(step->formula, &at, refusal == 6 ? place - 1 : place, (Spot){1, 0});
    unsigned way = way_of(refusal, at == place);
    broken[way][AT_WHOLE] += spot.depth == 1;
    broken[way][AT_FIRST] += spot.depth > 1 && spot.seconds == 0;
    broken[way][AT_SECOND] += spot.seconds > 0;
    broken[way][AT_NESTED] += spot.depth > 2;
    broken[way][AT_SECOND_TWICE] += spot.seconds > 1;
    broken[way][AT_256] += place >= 256;
}

/* Counts where the formula of a refused rule broke, and the refusals that come ahead of another one due as well. */
static void cover_refused_rule(const Play *play, const Step *step) {
    uint8_t symbols[MOST_SYMBOLS];
    size_t lent = rows_lent(step->numbers);
    unsigned refusal = play->last.refusal, rows = play->board.rows;
    if (refusal >= 2 && refusal <= 6) cover_break(play, step);
    if (refusal == 6) {
        size_t used = read_formula(step->formula, step->bytes, play->board.symbols).used;
        bool many = different_symbols(step->formula, used, symbols) > RULE_SYMBOLS;
        cases[REFUSED_6_NOT_7] += many;
        cases[REFUSED_6_NOT_8] += !many && rule_of(step->formula, used).satisfying == 0;
    }
    cases[REFUSED_7_NOT_9] += refusal == 7 && rows == lent;
    cases[REFUSED_8_NOT_9] += refusal == 8 && rows == lent;
    cases[FULL_AND_MORE_LENT] += refusal == 9 && rows == MOST_ROWS && step->numbers >= WIDTH * (MOST_ROWS + 1);
}

/* Counts a refused call. */
static void cover_refused(const Play *play, const Step *step) {
    unsigned refusal = play->last.refusal;
    if (refusal == 1 && step->damage != NO_DAMAGE && step->damage < BAD_BOARDS) damaged[step->damage][step->kind]++;
    if (refusal == 13) cover_short(play, step);
    if (step->kind == RULE) cover_refused_rule(play, step);
    cases[PAST_2048_LENT] += refusal == 1 && play->board.rows > MOST_ROWS && play->board.rows <= step->numbers / WIDTH;
    if (refusal == 2 && step->value == -32768) cases[LOWEST_ASKED]++;
    if (refusal != 12 || step->kind != EXPLAIN) return;
    cases[premises_of(&play->board, step->furnace)[place_of(step->value)] ? EXPLAIN_HELD : EXPLAIN_NOT_DERIVED]++;
}

/* Counts how the tables and the board of a call that was done looked. */
static void cover_lent(const Play *play, const Step *step) {
    cases[step->kind >= SETTLE ? ODD_BYTES_DONE : ODD_BYTES_BACK] += odd_before(play, 1) || odd_before(play, 2);
    cases[NOTHING_LENT] += step->numbers == 0;
    cases[BEYOND_2048] += step->numbers > WIDTH * MOST_ROWS;
    cases[ODD_LENGTH] += step->numbers % WIDTH != 0;
    cases[LENGTH_CHANGED] += step->numbers != length_before;
    cases[FEWER_SYMBOLS] += step->damage == SYMBOLS_FEWER;
    cases[FEWER_ROWS] += step->damage == ROWS_FEWER;
    cases[UNUSED_NUMBER] += step->damage == NUMBER_UNUSED;
    cases[SYMBOLS_1] += play->board.symbols == 1;
    cases[SYMBOLS_200] += play->board.symbols == MOST_SYMBOLS;
    length_before = step->numbers;
}

/* Counts a call that was done. */
static void cover_done(const Play *play, const Step *step) {
    unsigned marks = step->kind == GROUND || step->kind == BLAME ? marks_set(play) : 0;
    if (step->kind == OPEN) return;
    cover_lent(play, step);
    if (step->kind == SETTLE) cover_settle(play, step), cover_rows(play, step->furnace);
    if (step->kind == RULE) cover_rule(play, step);
    if (step->kind == EXPLAIN) cases[EXPLAIN_ONE_LITERAL] += play->last.literals == 1;
    if (step->kind == BLAME) {
        cases[BLAME_MORE] += marks > 1;
        cover_blame(play, step->furnace, marks);
    }
    if (step->kind != GROUND) return;
    cases[GROUND_HELD] += premises_of(&play->board, step->furnace)[place_of(step->value)];
    cases[GROUND_NO_PREMISE] += marks == 0;
    cases[GROUND_MORE] += marks > 1;
}

/* Counts one step that was played. */
void cover_step(const Play *play, const Step *step) {
    cover_furnace(play, step);
    cover_stacks(play, step);
    cover_spoilt(play, step);
    if (step->kind >= CALLS) {
        acts++;
        return;
    }
    calls[step->kind]++;
    refusals[step->kind][play->last.refusal]++;
    if (step->kind == READ || step->kind == WRITE) cover_text(play, step);
    if (step->kind == TO_TEXT || spells(step->kind)) cover_spelt(play, step);
    if (step->kind == SMALLEST) cover_sets(play, step);
    if (step->kind == LEAST) cover_least(play, step), cover_held(play, step);
    if (gives_candidates(step->kind)) cover_candidates(play, step);
    if (gives_variables(step->kind)) cover_positions(play, step);
    if (step->kind == SETTLE || asks(step->kind)) cover_answers(play, step);
    cover_rules(play, step);
    cases[TWO_FAULTS] += step->faults > 1;
    if (play->last.refusal == 0) cover_done(play, step);
    else cover_refused(play, step);
}

/* All calls made. */
unsigned long cover_calls(void) {
    unsigned long sum = 0;
    for (unsigned k = 0; k < CALLS; k++) sum += calls[k];
    return sum;
}

/* True if the call can give the refusal. */
bool can_refuse(unsigned kind, unsigned number) {
    for (unsigned i = 0; i < NUMBERS; i++)
        if (number != 0 && possible[kind][i] == number) return true;
    return false;
}

/* True if some call can give the refusal. */
static bool is_given(unsigned number) {
    bool given = false;
    for (unsigned k = 0; k < CALLS; k++) given |= can_refuse(k, number);
    return given;
}

/* Prints the table of calls and refusals; a dot where a number cannot come up, and nothing for one that no call gives. */
static void print_refusals(void) {
    printf("%-10s%9s%9s", "call", "made", "done");
    for (unsigned n = 1; n < NUMBERS; n++)
        if (is_given(n)) printf("%7u", n);
    printf("\n");
    for (unsigned k = 0; k < CALLS; k++) {
        printf("%-10s%9lu%9lu", kind_word((Kind)k), calls[k], refusals[k][0]);
        for (unsigned n = 1; n < NUMBERS; n++) {
            if (can_refuse(k, n)) printf("%7lu", refusals[k][n]);
            else if (is_given(n)) printf("%7s", ".");
        }
        printf("\n");
    }
}

/* Prints the damage that was refused with 1, by call. */
static void print_damage(void) {
    printf("\n%-24s", "refusal 1 for");
    for (unsigned k = RULE; k < CALLS; k++) printf("%10s", kind_word((Kind)k));
    printf("\n");
    for (unsigned d = 1; d < BAD_BOARDS; d++) {
        printf("%-24s", damage_words[d]);
        for (unsigned k = RULE; k < CALLS; k++) printf("%10lu", damaged[d][k]);
        printf("\n");
    }
}

/* True if a formula can break so at such an operand: what is due at depth 17 is not the whole formula. */
static bool can_break(unsigned way, unsigned spot) {
    return way != BY_5 || spot != AT_WHOLE;
}

/* Where formulae broke. */
static const Table breaks = {"a formula's operand", break_words, spot_words, BREAKS, SPOTS, broken[0], can_break};

/* Prints a row of a table. */
static void print_row(const Table *table, unsigned row) {
    printf("%-24s", table->rows[row]);
    for (unsigned c = 0; c < table->column_count; c++) {
        if (table->can_come_up(row, c)) printf("%9lu", table->counts[row * table->column_count + c]);
        else printf("%9s", ".");
    }
    printf("\n");
}

/* Prints a table. */
void print_table(const Table *table) {
    printf("\n%-24s", table->title);
    for (unsigned c = 0; c < table->column_count; c++) printf("%9s", table->columns[c]);
    printf("\n");
    for (unsigned r = 0; r < table->row_count; r++) print_row(table, r);
}

/* Prints cases in two columns. */
static void print_cases(const Cases *of) {
    if (of->count > 0) printf("\n");
    if (of->title != NULL) printf("%s\n", of->title);
    for (unsigned c = 0; c < of->count; c++)
        printf("%-*s%9lu%s", of->width, of->words[c], of->counts[c], c % 2 == 0 && c + 1 < of->count ? "    " : "\n");
}

/* Prints a part but for its closing lines. */
static void print_part(const Part *part) {
    if (part->print_ahead != NULL) part->print_ahead();
    print_cases(&part->cases);
    if (part->print_after != NULL) part->print_after();
}

/* Prints the closing lines. */
static void print_close(void) {
    printf("\n");
    printf("labels 0, 1, 2, 3: %lu %lu %lu %lu\n", labels_seen[0], labels_seen[1], labels_seen[2], labels_seen[3]);
    printf("highest rank: %u, with S %u; boards settled: %lu, of them in conflict: %lu\n", highest_rank, highest_symbols, settled,
           cases[CONFLICT_SETTLED]);
    printf("rules accepted: %lu, rows they added: %lu, most of one rule: %u; the caller's own acts: %lu\n", rules_done, rows_added, most_rows, acts);
    printf("demand 3 compared: %lu boards, of them in conflict: %lu\n", demand_3, cases[DEMAND_3_CONFLICT]);
    for (unsigned i = 0; i < PARTS; i++)
        if (parts[i]->print_close != NULL) parts[i]->print_close();
}

/* Prints all counts. */
void cover_print(void) {
    print_refusals();
    print_damage();
    print_table(&breaks);
    print_cases(&(Cases){NULL, case_words, cases, CASES, 42});
    for (unsigned i = 0; i < PARTS; i++) print_part(parts[i]);
    print_close();
}

/* Says what is missing of one thing that has to come up. */
bool came_up(unsigned long count, const char *what, const char *of, unsigned number) {
    if (count > 0) return true;
    printf("missing: %s %s", of, what);
    if (number != 0) printf(" %u", number);
    printf("\n");
    return false;
}

/* True if each of the cases came up; says which did not. */
bool cases_came_up(const char *const words[], const unsigned long counts[], unsigned count, const char *of) {
    bool whole = true;
    for (unsigned c = 0; c < count; c++) whole &= came_up(counts[c], words[c], of, 0);
    return whole;
}

/* True if all came up in a table that can; says what did not. */
bool table_came_up(const Table *table) {
    bool whole = true;
    for (unsigned i = 0; i < table->row_count * table->column_count; i++) {
        unsigned row = i / table->column_count, column = i % table->column_count;
        if (table->can_come_up(row, column)) whole &= came_up(table->counts[i], table->columns[column], table->rows[row], 0);
    }
    return whole;
}

/* True if all of a part came up; says what did not. */
static bool part_is_whole(const Part *part) {
    const Cases *of = &part->cases;
    bool rest = part->is_whole == NULL || part->is_whole();
    return cases_came_up(of->words, of->counts, of->count, of->title == NULL ? "case" : of->title) && rest;
}

/* True if all that can come up did; says what did not. */
bool cover_is_whole(void) {
    bool whole = table_came_up(&breaks);
    for (unsigned i = 0; i < PARTS; i++) whole &= part_is_whole(parts[i]);
    for (unsigned k = 0; k < CALLS; k++) {
        whole &= came_up(refusals[k][0], "done", kind_word((Kind)k), 0);
        for (unsigned n = 1; n < NUMBERS; n++)
            if (can_refuse(k, n)) whole &= came_up(refusals[k][n], "refusal", kind_word((Kind)k), n);
    }
    for (unsigned d = 1; d < BAD_BOARDS; d++)
        for (unsigned k = RULE; k < CALLS; k++) whole &= came_up(damaged[d][k], damage_words[d], kind_word((Kind)k), 0);
    whole &= cases_came_up(case_words, cases, CASES, "case");
    for (unsigned l = 0; l < 4; l++) whole &= came_up(labels_seen[l], "a label", "settle", l);
    return whole;
}
