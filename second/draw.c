/* Random sequences: a style for each, its opening and setting up, then calls of all kinds, damaged now and then. */
#include "draw.h"

#include "damage.h"
#include "damagestacks.h"
#include "drawcauses.h"
#include "drawclashes.h"
#include "drawfurnace.h"
#include "drawleast.h"
#include "drawpositions.h"
#include "drawrows.h"
#include "drawsets.h"
#include "drawspelt.h"
#include "drawstacks.h"
#include "drawtext.h"
#include "formulae.h"

/* Styles of sequences. */
enum { FREE, CLASHES, PLANTS, CIRCLE, CHAIN, ROWS, FULL, TIGHT, BROAD, PACKED, TEXTS, KNOTS, CAUSES, VALVES, TRIES, STYLES };

static const unsigned style_weights[STYLES] = {
    [FREE] = 290, [CLASHES] = 80, [PLANTS] = 190, [CIRCLE] = 80, [CHAIN] = 30, [ROWS] = 160, [FULL] = 15, [TIGHT] = 130, [BROAD] = 70, [PACKED] = 16,
    [TEXTS] = 130, [KNOTS] = 60, [CAUSES] = 60, [VALVES] = 100, [TRIES] = 140};

/* Which sorts of formulae a style has, in the order PLANT, TREE, SPINE, WIDE, PARITY, LITERALS, NEVER, ALWAYS, LONG, NOISE,
 * PARITY_OF_8, ANY_TRUTH, WIDE_TRUTH, TOO_MANY. */
static const unsigned sort_weights[STYLES][SORTS] = {
    [FREE] = {250, 250, 60, 20, 40, 80, 40, 40, 14, 30, 1, 150, 25, 20},
    [PLANTS] = {900, 20, 5, 2, 5, 10, 5, 5, 0, 5, 0, 20, 0, 15},
    [CIRCLE] = {900, 50, 5, 0, 5, 10, 5, 5, 0, 5, 0, 20, 0, 5},
    [CHAIN] = {900, 50, 5, 1, 5, 10, 5, 5, 0, 5, 0, 20, 0, 5},
    [ROWS] = {500, 200, 20, 2, 20, 50, 20, 20, 4, 20, 0, 60, 2, 20},
    [FULL] = {500, 200, 20, 2, 20, 50, 20, 20, 1, 20, 0, 60, 2, 10},
    [TIGHT] = {200, 300, 40, 10, 100, 200, 50, 50, 4, 20, 0, 100, 10, 80},
    [BROAD] = {50, 50, 30, 400, 100, 100, 80, 50, 0, 10, 10, 50, 600, 150},
    [PACKED] = {10, 10, 0, 10, 10, 10, 5, 5, 0, 5, 60, 20, 20, 15},
    [TEXTS] = {800, 50, 5, 1, 5, 10, 5, 5, 0, 5, 0, 20, 1, 15},
    [KNOTS] = {500, 200, 20, 2, 20, 50, 20, 20, 4, 20, 0, 60, 2, 20},
    [CAUSES] = {800, 50, 5, 1, 5, 10, 5, 5, 0, 5, 0, 20, 1, 15},
    [CLASHES] = {800, 50, 5, 1, 5, 10, 5, 5, 0, 5, 0, 20, 1, 15},
    [VALVES] = {800, 50, 5, 1, 5, 10, 5, 5, 0, 5, 0, 20, 1, 15},
    [TRIES] = {800, 50, 5, 0, 5, 10, 5, 5, 0, 5, 0, 20, 0, 5}};

/* How often each call comes: at first, later on, among causes of marks, among clashes of premises, among valves with several positions, and among
 * nested tries, while more are begun and while more are taken back. */
enum { AT_FIRST, LATER, AMONG_CAUSES, AMONG_CLASHES, AMONG_VALVES, TRYING, TAKING_BACK, TIMES };

static const unsigned call_weights[TIMES][CALLS] = {
    {[OPEN] = 3, [RULE] = 90, [TEXT_RULE] = 40, [READ] = 30, [POSITIONS] = 10, [PAIRS] = 12, [HOLD] = 74, [WITHDRAW] = 14, [PUSH] = 12,
     [POP] = 6, [SETTLE] = 20, [ASK] = 10, [ASK_WHOLE] = 8, [EXPLAIN] = 10, [GROUND] = 10, [BLAME] = 5, [LEAST] = 5, [SMALLEST] = 8,
     [WRITE] = 10, [TO_BYTES] = 16, [TO_TEXT] = 14},
    {[OPEN] = 5, [RULE] = 20, [TEXT_RULE] = 14, [READ] = 20, [POSITIONS] = 6, [PAIRS] = 8, [HOLD] = 44, [WITHDRAW] = 26, [PUSH] = 16,
     [POP] = 12, [SETTLE] = 40, [ASK] = 28, [ASK_WHOLE] = 20, [EXPLAIN] = 26, [GROUND] = 26, [BLAME] = 16, [LEAST] = 13, [SMALLEST] = 20,
     [WRITE] = 16, [TO_BYTES] = 16, [TO_TEXT] = 14},
    {[OPEN] = 1, [RULE] = 10, [TEXT_RULE] = 6, [READ] = 4, [POSITIONS] = 2, [PAIRS] = 3, [HOLD] = 40, [WITHDRAW] = 20, [PUSH] = 6,
     [POP] = 4, [SETTLE] = 12, [ASK] = 10, [ASK_WHOLE] = 6, [EXPLAIN] = 8, [GROUND] = 12, [BLAME] = 8, [LEAST] = 8, [SMALLEST] = 180,
     [WRITE] = 2, [TO_BYTES] = 2, [TO_TEXT] = 2},
    {[OPEN] = 1, [RULE] = 8, [TEXT_RULE] = 6, [READ] = 4, [POSITIONS] = 2, [PAIRS] = 3, [HOLD] = 36, [WITHDRAW] = 40, [PUSH] = 6,
     [POP] = 4, [SETTLE] = 12, [ASK] = 8, [ASK_WHOLE] = 10, [EXPLAIN] = 8, [GROUND] = 8, [BLAME] = 14, [LEAST] = 180, [SMALLEST] = 4,
     [WRITE] = 2, [TO_BYTES] = 2, [TO_TEXT] = 2},
    {[OPEN] = 1, [RULE] = 6, [TEXT_RULE] = 4, [READ] = 4, [POSITIONS] = 40, [PAIRS] = 80, [HOLD] = 50, [WITHDRAW] = 26, [PUSH] = 10,
     [POP] = 8, [SETTLE] = 40, [ASK] = 12, [ASK_WHOLE] = 10, [EXPLAIN] = 10, [GROUND] = 10, [BLAME] = 8, [LEAST] = 4, [SMALLEST] = 4, [WRITE] = 2,
     [TO_BYTES] = 2, [TO_TEXT] = 2},
    {[OPEN] = 2, [RULE] = 12, [TEXT_RULE] = 6, [READ] = 2, [POSITIONS] = 1, [PAIRS] = 1, [HOLD] = 14, [WITHDRAW] = 16, [PUSH] = 220, [POP] = 24,
     [SETTLE] = 8, [ASK] = 3, [ASK_WHOLE] = 2, [EXPLAIN] = 3, [GROUND] = 3, [BLAME] = 2, [LEAST] = 1, [SMALLEST] = 1,
     [WRITE] = 1, [TO_BYTES] = 1, [TO_TEXT] = 1},
    {[OPEN] = 3, [RULE] = 8, [TEXT_RULE] = 4, [READ] = 2, [POSITIONS] = 1, [PAIRS] = 1, [HOLD] = 14, [WITHDRAW] = 20, [PUSH] = 26, [POP] = 170,
     [SETTLE] = 8, [ASK] = 3, [ASK_WHOLE] = 2, [EXPLAIN] = 3, [GROUND] = 3, [BLAME] = 2, [LEAST] = 1, [SMALLEST] = 1,
     [WRITE] = 1, [TO_BYTES] = 1, [TO_TEXT] = 1}};

/* A count of symbols that suits the style. */
static unsigned draw_symbols(Random *random, unsigned style) {
    switch (style) {
    case PLANTS: case TEXTS: return random_between(random, 3, random_chance(random, 80) ? 24 : style == PLANTS ? 90 : MOST_SYMBOLS);
    case CIRCLE: return random_between(random, 2, random_chance(random, 90) ? 12 : 60);
    case CHAIN: return random_chance(random, 40) ? MOST_SYMBOLS : random_between(random, 2, random_chance(random, 40) ? 20 : MOST_SYMBOLS);
    case ROWS: return random_between(random, 1, random_chance(random, 70) ? 20 : 80);
    case FULL: return random_chance(random, 40) ? MOST_SYMBOLS : random_between(random, 60, MOST_SYMBOLS);
    case KNOTS: return random_chance(random, 40) ? MOST_SYMBOLS : random_between(random, 1, 12);
    case CAUSES: return random_chance(random, 20) ? MOST_SYMBOLS : random_between(random, 3, 14);
    case CLASHES:
        if (random_chance(random, 10)) return MOST_SYMBOLS;
        return random_chance(random, 60) ? random_between(random, 2, 12) : random_between(random, 14, 24);
    case VALVES: return random_chance(random, 8) ? MOST_SYMBOLS : random_between(random, 4, random_chance(random, 70) ? 20 : 50);
    case TRIES:
        if (random_chance(random, 4)) return MOST_SYMBOLS;
        return random_chance(random, 20) ? random_between(random, 1, 2) : random_between(random, 3, 12);
    case BROAD: return random_between(random, 8, 14);
    case PACKED: return random_between(random, 8, 10);
    case TIGHT: return random_chance(random, 30) ? random_between(random, 9, 14) : random_between(random, 1, 8);
    default: return random_chance(random, 4) ? random_between(random, 1, MOST_SYMBOLS) : random_between(random, 1, 10);
    }
}

/* Numbers usually lent in the style; now and then more than 2,048 rows. */
static unsigned draw_usual(Random *random, unsigned style) {
    unsigned rows = MOST_ROWS, odd = random_below(random, WIDTH);
    if (style == TIGHT) rows = random_between(random, 0, 9);
    if ((style == FREE || style == ROWS) && random_chance(random, 50)) rows = random_between(random, 8, 200);
    return rows == MOST_ROWS && random_chance(random, 40) ? TABLE_LENDABLE - odd : WIDTH * rows + odd;
}

/* How many rules or rows a style sets up. */
static unsigned draw_setup(Random *random, unsigned style, unsigned symbols) {
    switch (style) {
    case PLANTS: return random_between(random, 1, symbols);
    case CIRCLE: case CHAIN: return symbols;
    case ROWS: return random_between(random, 1, random_chance(random, 70) ? 30 : 150);
    case FULL: return random_chance(random, 40) ? MOST_ROWS : random_between(random, 200, MOST_ROWS);
    case KNOTS:
        if (symbols == MOST_SYMBOLS && random_chance(random, 12)) return MOST_ROWS;
        return random_between(random, 1, random_chance(random, 80) ? 24 : 160);
    case PACKED: return 16;
    case VALVES: return 1;
    case TRIES: return random_between(random, 1, 6);
    case CAUSES: return random_between(random, 2, random_chance(random, 60) ? 16 : 40);
    case CLASHES: return random_between(random, 1, random_chance(random, 70) ? 8 : 16);
    case TEXTS: return random_chance(random, 85) ? random_between(random, 1, 60) : random_between(random, 60, random_chance(random, 80) ? 400 : 3000);
    default: return 0;
    }
}

/* Starts a sequence: its style and what follows from it. */
void draft_start(Draft *draft, uint64_t seed, uint64_t number) {
    Random *random = &draft->random;
    *random = random_for(seed, number);
    draft->count = draft->pooled = draft->kept = 0;
    draft->favoured = 1 + random_below(random, FURNACES);
    draft->style = random_weighted(random, style_weights, STYLES);
    draft->symbols = draw_symbols(random, draft->style);
    draft->usual = draw_usual(random, draft->style);
    draft->lean = random_chance(random, 30) ? 100 : random_between(random, 50, 99);
    draft->setup = draw_setup(random, draft->style, draft->symbols);
    draft->calls = random_between(random, 9, 17) + (draft->setup == 0 ? random_between(random, 2, 8) : 0);
    if (draft->style == TRIES) draft->calls = random_between(random, 16, 44);
    bool chain = draft->style == CHAIN && random_chance(random, 80), all = chain || random_chance(random, 50);
    if (chain) draft->lean = 100;
    for (unsigned s = 0; s <= MOST_SYMBOLS; s++) draft->leaning[s] = all || random_chance(random, 50);
}

/* A literal of symbols 1 to S that mostly leans. */
static int leaning_literal(Draft *draft, unsigned symbol) {
    bool plus = draft->leaning[symbol] == random_chance(&draft->random, draft->lean);
    return plus ? (int)symbol : -(int)symbol;
}

/* A number that is no literal of symbols 1 to S. */
int draw_bad_literal(Random *random, unsigned symbols) {
    int beyond = (int)(symbols < MOST_SYMBOLS ? symbols : MOST_SYMBOLS) + 1;
    switch (random_below(random, 6)) {
    case 0: return 0;
    case 1: return -32768;
    case 2: return beyond;
    case 3: return -beyond;
    case 4: return random_chance(random, 50) ? 32767 : -32767;
    default: return (int)random_between(random, (unsigned)beyond, 32767) * (random_chance(random, 50) ? 1 : -1);
    }
}

/* A literal: one that leans, one of a row in use, or any. */
int draw_literal(Draft *draft, const Play *play) {
    Random *random = &draft->random;
    const Board *board = &play->board;
    unsigned most = board->symbols >= 1 && board->symbols <= MOST_SYMBOLS ? board->symbols : draft->symbols;
    if (board->rows > 0 && board->rows <= MOST_ROWS && random_chance(random, 30)) {
        int number = play->ours.table[GUARD + WIDTH * random_below(random, board->rows)];
        if (number != 0) return number;
    }
    unsigned symbol = random_between(random, 1, most);
    return random_chance(random, 60) ? leaning_literal(draft, symbol) : literal_at(2 * (symbol - 1) + random_below(random, 2));
}

/* A literal for explain or ground that is derived for the furnace, mostly not held, if there is one. */
static int draw_derived(Draft *draft, const Play *play, unsigned furnace, bool held_too) {
    const Board *board = &play->board;
    unsigned places[PLACES], count = 0;
    if (!board_is_good(board, play->ours.table + GUARD, TABLE_LENDABLE)) return draw_literal(draft, play);
    Findings found = propagate(board, furnace, play->ours.table + GUARD);
    for (unsigned p = 0; p < 2 * board->symbols; p++)
        if (derived(&found, p) && (held_too || !premises_of(board, furnace)[p])) places[count++] = p;
    return count == 0 ? draw_literal(draft, play) : literal_at(places[random_below(&draft->random, count)]);
}

/* A literal for hold or withdraw that mostly passes for the furnace. */
static int draw_premise(Draft *draft, const Play *play, unsigned furnace, bool held) {
    int literal = draw_literal(draft, play);
    for (unsigned tries = 0; tries < 200 && literal >= -MOST_SYMBOLS && literal <= MOST_SYMBOLS && literal != 0; tries++) {
        if (premises_of(&play->board, furnace)[place_of(literal)] == held) return literal;
        literal = draw_literal(draft, play);
    }
    return literal;
}

/* A literal for a call that asks: every other time one that stands or is ruled out for the furnace, beside a conflict or not, if there is one. */
static int draw_asked(Draft *draft, const Play *play, unsigned furnace) {
    Random *random = &draft->random;
    bool good = board_is_good(&play->board, play->ours.table + GUARD, TABLE_LENDABLE);
    if (!good || random_chance(random, 50)) return draw_literal(draft, play);
    Findings found = propagate(&play->board, furnace, play->ours.table + GUARD);
    unsigned count = 0, taken = 0;
    for (unsigned s = 1; s <= play->board.symbols; s++)
        if ((label_of(&found, s) == 1 || label_of(&found, s) == 2) && random_below(random, ++count) == 0) taken = s;
    return count == 0 ? draw_literal(draft, play) : literal_at(2 * (taken - 1) + random_below(random, 2));
}

/* The literal that suits a call, or now and then none at all; often none where the furnace is none either. */
static void draw_given_literal(Draft *draft, const Play *play, Step *step) {
    Random *random = &draft->random;
    unsigned furnace = furnace_meant(step);
    bool pass = random_chance(random, 75), telling = random_chance(random, 25);
    if (random_chance(random, is_furnace(step->furnace) ? 6 : 30)) {
        step->value = draw_bad_literal(random, play->board.symbols);
        step->faults++;
        return;
    }
    step->value = telling ? draw_telling(draft, play, step, pass) : 0;
    if ((step->kind == WITHDRAW || holds(step->kind)) && random_chance(random, step->kind == WITHDRAW ? 30 : 12))
        step->value = draw_stacked(draft, play, step);
    if (step->value != 0) return;
    if ((step->kind == WITHDRAW || holds(step->kind)) && pass) {
        step->value = draw_premise(draft, play, furnace, step->kind == WITHDRAW);
    } else if ((step->kind == EXPLAIN || step->kind == GROUND) && pass) {
        step->value = draw_derived(draft, play, furnace, step->kind == GROUND && random_chance(random, 20));
    } else if (asks(step->kind)) {
        step->value = draw_asked(draft, play, furnace);
    } else {
        step->value = draw_literal(draft, play);
    }
}

/* Numbers of the clause table to lend: as usual, all, just the rows in use, a few more, or any. */
static size_t draw_numbers(Draft *draft, const Play *play) {
    Random *random = &draft->random;
    size_t rows = play->board.rows <= MOST_ROWS ? play->board.rows : MOST_ROWS, odd = random_below(random, WIDTH);
    unsigned sort = random_below(random, 100);
    if (sort < 70) return draft->usual / WIDTH >= rows ? draft->usual : WIDTH * rows + odd;
    if (sort < 75) return TABLE_LENDABLE;
    if (sort < 78) return WIDTH * MOST_ROWS + odd;
    if (sort < 90) return WIDTH * rows + odd;
    if (sort < 98) return WIDTH * (rows + random_below(random, rows + 6 <= MOST_ROWS ? 6 : 1)) + odd;
    return random_below(random, TABLE_LENDABLE + 1);
}

/* The length of one table to be written: enough, just enough, one short, or nothing. */
static size_t draw_length(Draft *draft, Step *step, size_t need, size_t lendable) {
    unsigned sort = random_below(&draft->random, 100);
    size_t least = need < lendable ? need : lendable;
    if (sort < 5 && least > 0) {
        step->faults++;
        return sort == 0 ? 0 : least - 1;
    }
    return sort < 40 ? least : random_between(&draft->random, (unsigned)least, (unsigned)lendable);
}

/* Lends the tables that the call writes. */
static void draw_lengths(Draft *draft, const Play *play, Step *step) {
    size_t symbols = play->board.symbols;
    if (step->kind == WRITE) {
        size_t needed = text_needed(play);
        step->lent[0] = draw_length(draft, step, needed, needed + 40);
    }
    if (step->kind == TO_BYTES || step->kind == TO_TEXT) draw_room(draft, play, step);
    if (step->kind == SETTLE) {
        step->lent[0] = draw_length(draft, step, symbols, LABELS_LENDABLE);
        step->lent[1] = draw_length(draft, step, 2 * symbols, PLACES_LENDABLE);
        step->lent[2] = draw_length(draft, step, 2 * symbols, PLACES_LENDABLE);
    }
    if (step->kind == GROUND || step->kind == BLAME) step->lent[0] = draw_length(draft, step, 2 * symbols, PLACES_LENDABLE);
}

/* Puts a formula that was written into the step; its bytes stay in the pool. */
static void keep_formula(Draft *draft, Step *step, const Ink *ink) {
    step->formula = keep_bytes(draft, step, ink->bytes, ink->length, ink->given);
}

/* Rows that the step's rule would add, or 0. */
size_t rows_needed(const Step *step, unsigned symbols) {
    static int16_t rows[MOST_CLAUSES][ROW_LITERALS];
    uint8_t different[MOST_SYMBOLS];
    Spelt rule_bytes = step->kind == RULE ? (Spelt){NO_PLACE, step->bytes, step->formula} : spelt_by(step->text, step->bytes);
    if (rule_bytes.place != NO_PLACE || formula_breaks(rule_bytes.bytes, rule_bytes.count, symbols).refusal != 0) return 0;
    if (different_symbols(rule_bytes.bytes, rule_bytes.count, different) > RULE_SYMBOLS) return 0;
    Rule rule = rule_of(rule_bytes.bytes, rule_bytes.count);
    return rule.satisfying == 0 ? 0 : prime_rows(&rule, rows);
}

/* An ink for this sequence. */
static void start_ink(Draft *draft, const Play *play, Ink *ink) {
    unsigned symbols = play->board.symbols;
    ink->random = &draft->random;
    ink->leaning = draft->leaning;
    ink->lean = draft->lean;
    ink->symbols = symbols >= 1 && symbols <= MOST_SYMBOLS ? symbols : draft->symbols;
}

/* A sort of formula that suits the style; where there is one rule left at most, every other time one that tells 9 from 7 and 8, or has no rows. */
static unsigned draw_sort(Draft *draft, const Play *play) {
    static const unsigned telling[] = {NEVER, ALWAYS, TOO_MANY};
    if (play->board.rules + 1 >= MOST_RULES && random_chance(&draft->random, 50)) return telling[random_below(&draft->random, 3)];
    return random_weighted(&draft->random, sort_weights[draft->style], SORTS);
}

/* Writes the formula of a rule, spelt where text is given, and now and then lends just the table it needs, or one number less. */
static void draw_rule(Draft *draft, const Play *play, Step *step) {
    static Ink ink;
    Random *random = &draft->random;
    start_ink(draft, play, &ink);
    write_formula(&ink, draw_sort(draft, play));
    if (random_chance(random, 20)) spoil_formula(&ink);
    if (random_chance(random, 3)) append_noise(&ink);
    if (spells(step->kind)) draw_spelling(draft, step, &ink);
    else keep_formula(draft, step, &ink);
    if ((step->kind != RULE && step->kind != TEXT_RULE) || !random_chance(random, 12)) return;
    size_t numbers = WIDTH * (play->board.rows + rows_needed(step, ink.symbols));
    if (numbers > 0 && numbers <= WIDTH * MOST_ROWS)
        step->numbers = random_chance(random, 50) ? numbers - 1 : numbers + random_below(random, WIDTH);
}

/* The count for open: good, or not. */
static int draw_opening(Draft *draft) {
    static const int bad[] = {0, 201, 65535, 255, 256, 32768};
    if (random_chance(&draft->random, 80)) return (int)draft->symbols;
    if (random_chance(&draft->random, 50)) return (int)random_between(&draft->random, 1, MOST_SYMBOLS);
    return bad[random_below(&draft->random, 6)];
}

/* Aims a pop: at the other furnace where the stack of the one named is empty, and mostly makes it a push where both are. */
static void aim_pop(Draft *draft, const Play *play, Step *step) {
    const int16_t *record = play->ours.record + GUARD;
    if (!is_furnace(step->furnace) || stack_count(record, step->furnace) > 0 || random_chance(&draft->random, 15)) return;
    if (stack_count(record, 3 - step->furnace) > 0) {
        step->furnace = 3 - step->furnace;
        return;
    }
    step->kind = PUSH;
    draw_given_literal(draft, play, step);
}

/* Fills in all that a call is given; with this chance in a hundred it names no furnace, where it is to name one. */
static void draw_call(Draft *draft, const Play *play, Step *step, unsigned no_furnace) {
    step->numbers = draw_numbers(draft, play);
    if (names_furnace(step->kind)) name_furnace(draft, step, no_furnace);
    switch (step->kind) {
    case OPEN: step->value = draw_opening(draft); break;
    case RULE: case TEXT_RULE: case TO_BYTES: case TO_TEXT: draw_rule(draft, play, step); break;
    case READ: draw_read(draft, play, step); break;
    case POSITIONS: case PAIRS: draw_variables_given(draft, play, step); break;
    case SMALLEST: draw_smallest(draft, play, step, draft->style == CAUSES && random_chance(&draft->random, 60)); break;
    case LEAST: draw_least(draft, play, step, draft->style == CLASHES && random_chance(&draft->random, 70)); break;
    case POP: case SETTLE: case BLAME: case WRITE: break;
    default: draw_given_literal(draft, play, step);
    }
    draw_lengths(draft, play, step);
}

/* Adds one call with damage around it: any call but open, each as often. */
static void add_damaged_call(Draft *draft, const Play *play) {
    Step call = *add_step(draft, (Kind)random_between(&draft->random, RULE, CALLS - 1)), undo[2];
    unsigned undone = 0;
    draft->count--;
    draw_call(draft, play, &call, 16);
    call.damage = draw_damage(draft, play);
    call.faults++;
    add_damage(draft, play, (Damage)call.damage, &call, undo, &undone);
    *add_step(draft, call.kind) = call;
    while (undone > 0) *add_step(draft, undo[undone - 1].kind) = undo[undone - 1], undone--;
}

/* A call for a spoilt record: mostly one that tests it, of which the three take turns. */
static Kind draw_spoilt_kind(Random *random, unsigned turn) {
    static const Kind kinds[] = {WITHDRAW, PUSH, POP};
    return random_chance(random, 88) ? kinds[turn % 3] : (Kind)random_between(random, RULE, CALLS - 1);
}

/* Puts a spoilt stack right: by the caller, or now and then by a hold of what it has and its furnace does not hold. */
static void add_mending(Draft *draft, Spoilt *spoilt) {
    if (spoilt->by_hold != 0 && random_chance(&draft->random, 40)) {
        Step *step = add_step(draft, HOLD);
        step->furnace = spoilt->furnace;
        step->value = spoilt->by_hold;
        step->mended = true;
        return;
    }
    while (spoilt->undone > 0) *add_step(draft, SET_COUNT) = spoilt->undo[--spoilt->undone];
}

/* Adds up to three calls with a stack spoilt ahead of them, which is put right after them; now and then an open instead, done or refused, after
 * which nothing is. False where nothing can be spoilt. */
static bool add_spoilt_calls(Draft *draft, const Play *play) {
    Random *random = &draft->random;
    Spoilt spoilt;
    size_t before = draft->count;
    if (!spoil_stack(draft, play, &spoilt)) return draft->count = before, false;
    bool opens = random_chance(random, 10);
    unsigned first = random_below(random, 3);
    for (unsigned n = opens ? 1 : spoilt.damage < BAD_STACKS ? random_between(random, 1, 3) : 3; n > 0; n--) {
        Step *step = add_step(draft, opens ? OPEN : draw_spoilt_kind(random, first + n));
        draw_call(draft, play, step, 10);
        step->spoilt = spoilt.damage;
        step->whose = spoilt.furnace;
        step->faults += spoilt.damage < BAD_STACKS;
    }
    if (!opens) add_mending(draft, &spoilt);
    return true;
}

/* Adds a count of rules that leaves few before the last one, 32,767, or none; it stays. */
static void add_high_count(Draft *draft, const Play *play) {
    unsigned rules = MOST_RULES - random_below(&draft->random, draft->style == VALVES ? 20 : 5);
    if (play->board.rules < rules) add_step(draft, SET_RULES)->value = (int)rules;
}

/* Adds one call: now and then the last one's for the other furnace; after a refused open mostly an open. */
static void add_call(Draft *draft, const Play *play) {
    Random *random = &draft->random;
    if (random_chance(random, 20) && add_echo(draft)) return;
    if (random_chance(random, 3)) add_odd_bytes(draft, play);
    if (random_chance(random, draft->style == VALVES ? 4 : 1)) add_high_count(draft, play);
    if (random_chance(random, draft->style == TRIES ? 12 : 3) && add_spoilt_calls(draft, play)) return;
    if (play->board.symbols == 0 && random_chance(random, 70)) {
        add_step(draft, OPEN)->value = (int)draft->symbols;
    } else if (random_chance(random, 19)) {
        add_damaged_call(draft, play);
    } else {
        bool later = draft->style != PACKED && (draft->calls < 12 || draft->style == ROWS || draft->style == FULL || draft->style == KNOTS);
        unsigned time = draft->style == CAUSES ? AMONG_CAUSES : draft->style == CLASHES ? AMONG_CLASHES : later ? LATER : AT_FIRST;
        if (draft->style == VALVES) time = AMONG_VALVES;
        if (draft->style == TRIES) time = draft->calls % 26 < 11 ? TAKING_BACK : TRYING;
        Step *step = add_step(draft, (Kind)random_weighted(random, call_weights[time], CALLS));
        draw_call(draft, play, step, 5);
        if (step->kind == POP) aim_pop(draft, play, step);
        if (gives_variables(step->kind) && random_chance(random, 5)) add_last_rules(draft, play);
    }
}

/* Adds the rule that was written, every fourth time as text. */
static void add_written(Draft *draft, const Ink *ink) {
    Step *step = add_step(draft, RULE);
    if (!random_chance(&draft->random, 25) || !spell_rule(draft, step, ink)) keep_formula(draft, step, ink);
}

/* Adds a rule "from implies to". */
static void add_implication(Draft *draft, const Play *play, unsigned from, unsigned to) {
    static Ink ink;
    start_ink(draft, play, &ink);
    write_implication(&ink, from, to);
    add_written(draft, &ink);
}

/* Adds a rule of a sort. */
static void add_rule(Draft *draft, const Play *play, unsigned sort) {
    static Ink ink;
    start_ink(draft, play, &ink);
    write_formula(&ink, sort);
    add_written(draft, &ink);
}

/* Adds a sound row of the caller's: literals that the leaning mostly makes false, but for one. */
static void add_row(Draft *draft, unsigned symbols, unsigned most) {
    Random *random = &draft->random;
    Step *step = add_own_row(draft);
    unsigned length = random_between(random, random_chance(random, 3) ? 1 : 2, most), used = 0;
    if (length > symbols) length = symbols;
    unsigned head = random_below(random, length);
    for (unsigned s = 1; s <= symbols && used < length; s++) {
        if (random_below(random, symbols - s + 1) >= length - used) continue;
        int literal = leaning_literal(draft, s);
        step->row[used] = (int16_t)(used == head ? literal : -literal);
        used++;
    }
}

/* Adds a link of a chain as the caller's own row; a turn leads back along the opposites. */
static void add_link(Draft *draft, unsigned from, bool turn) {
    Step *step = add_own_row(draft);
    step->row[0] = (int16_t)-(int)from;
    step->row[1] = (int16_t)(turn ? -(int)(from + 1) : (int)(from + 1));
}

/* Turns a chain: from a premise, to ranks up to 2S - 2. More than half of the time a row of one literal starts it instead, to ranks up to 2S - 1;
 * then it is settled, and its last literal explained, before anything is held. Says whether a premise is wanted. */
static bool add_turn(Draft *draft, const Play *play) {
    add_link(draft, draft->symbols - 1, true);
    if (!random_chance(&draft->random, 60)) return true;
    add_own_row(draft)->row[0] = 1;
    draw_lengths(draft, play, add_step(draft, SETTLE));
    add_step(draft, EXPLAIN)->value = -1;
    return false;
}

/* Sets up the styles that come with premises of their own; false for the others. */
static bool add_with_premises(Draft *draft) {
    switch (draft->style) {
    case KNOTS: add_knot(draft, draft->setup); return true;
    case CAUSES: add_causes(draft, draft->setup); return true;
    case CLASHES: add_clashes(draft, draft->setup); return true;
    case VALVES: add_network(draft); return true;
    default: return false;
    }
}

/* Sets up the style's rules or rows; says whether premises are wanted. */
static bool add_setup(Draft *draft, const Play *play) {
    Random *random = &draft->random;
    unsigned symbols = draft->symbols, most = random_chance(random, 60) ? 4 : 8;
    if (draft->style == TEXTS) {
        add_reading(draft, play, draft->setup);
        return true;
    }
    if (add_with_premises(draft)) return false;
    bool links = random_chance(random, 50), falling = random_chance(random, 50);
    for (unsigned i = 0; i < draft->setup; i++) {
        unsigned from = falling ? symbols - i : i + 1, to = from < symbols ? from + 1 : 1;
        switch (draft->style) {
        case PLANTS: case TRIES: add_rule(draft, play, PLANT); break;
        case PACKED: add_rule(draft, play, random_chance(random, 99) ? PARITY_OF_8 : WIDE); break;
        case CIRCLE: add_implication(draft, play, from, to); break;
        case CHAIN:
            if (to == 1) break;
            if (links) add_link(draft, from, false);
            else add_implication(draft, play, from, to);
            break;
        default: add_row(draft, symbols, most);
        }
    }
    bool turns = draft->style == CHAIN && symbols > 1 && random_chance(random, 50);
    return !turns || add_turn(draft, play);
}

/* Holds a premise or two after setting up, so that there is something to derive. */
static void add_premises(Draft *draft) {
    for (unsigned n = random_below(&draft->random, 6); n > 0; n--) {
        unsigned symbol = draft->style == CHAIN ? 1 : random_between(&draft->random, 1, draft->symbols);
        add_hold(draft, draft->style == CHAIN ? 1 : leaning_literal(draft, symbol));
    }
}

/* Adds the next steps of the sequence: opening, now and then with a high count of rules, setting up, then call after call; false where it is at its
 * end. */
bool draft_next(Draft *draft, const Play *play) {
    if (draft->count == 0) {
        Step *step = add_step(draft, OPEN);
        step->value = random_chance(&draft->random, 97) ? (int)draft->symbols : draw_opening(draft);
        if (random_chance(&draft->random, 4)) add_high_count(draft, play);
    } else if (draft->setup > 0) {
        if (add_setup(draft, play)) add_premises(draft);
        draft->setup = 0;
    } else if (draft->calls > 0 && draft->count + 40 < MOST_STEPS) {
        add_call(draft, play);
        draft->calls--;
    } else {
        return false;
    }
    return true;
}
