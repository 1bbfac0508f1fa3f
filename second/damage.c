/* Damage to a board or its table, for one call: first what spoils it, and for afterwards what puts it right. */
#include "damage.h"

/* Adds a step of the caller's, and notes the step that undoes it. */
static Step *spoil(Draft *draft, Step undo[2], unsigned *undone, Kind kind, unsigned place, int value, int before) {
    Step *step = add_step(draft, kind);
    step->place = place;
    step->value = value;
    undo[*undone] = *step;
    undo[(*undone)++].value = before;
    return step;
}

/* The literals in a row. */
static unsigned literals_in(const int16_t *row) {
    unsigned count = 0;
    while (count < ROW_LITERALS && row[count] != 0) count++;
    return count;
}

/* A row in use: often the first or the last. */
static unsigned some_row(Draft *draft, const Play *play) {
    unsigned sort = random_below(&draft->random, 4), last = play->board.rows - 1;
    return sort == 0 ? 0 : sort == 1 ? last : random_below(&draft->random, last + 1);
}

/* Spoils one number, or two, of a row in use. */
static void spoil_row(Draft *draft, const Play *play, Damage damage, Step undo[2], unsigned *undone) {
    Random *random = &draft->random;
    unsigned r = some_row(draft, play), base = WIDTH * r, symbols = play->board.symbols;
    const int16_t *row = play->ours.table + GUARD + base;
    unsigned length = literals_in(row) > 0 ? literals_in(row) : 1;
    unsigned at = random_below(random, length), next = at + 1 < ROW_LITERALS ? at + 1 : at - 1;
    int far = (int)random_between(random, symbols + 1, random_chance(random, 50) ? symbols + 2 : 32767);
    switch (damage) {
    case ROW_EMPTY: /* a zero in front; the row may have more after it */
        spoil(draft, undo, undone, SET_NUMBER, base, 0, row[0]);
        break;
    case ROW_ZERO_INSIDE: /* a number after the first zero, or a zero before the last number */
        if (length >= 2 && at + 1 < length) spoil(draft, undo, undone, SET_NUMBER, base + at, 0, row[at]);
        else if (length <= 6) spoil(draft, undo, undone, SET_NUMBER, base + 7, (int)symbols, row[7]);
        else spoil(draft, undo, undone, SET_NUMBER, base + 3, 0, row[3]);
        break;
    case ROW_FALLING: /* a number, and a lower one after it */
        spoil(draft, undo, undone, SET_NUMBER, base, (int)symbols, row[0]);
        spoil(draft, undo, undone, SET_NUMBER, base + 1, symbols > 1 ? (int)symbols - 1 : 1, row[1]);
        break;
    case ROW_REPEATED: /* the same symbol twice, with the same sign or the other one */
        spoil(draft, undo, undone, SET_NUMBER, base + next, random_chance(random, 50) ? row[at] : -row[at], row[next]);
        break;
    case ROW_LOWEST:
        spoil(draft, undo, undone, SET_NUMBER, base + at, -32768, row[at]);
        break;
    default: /* ROW_BEYOND */
        spoil(draft, undo, undone, SET_NUMBER, base + length - 1, random_chance(random, 50) ? far : -far, row[length - 1]);
    }
}

/* Writes one rule number of a row in use that no row may have: 0, below 0, or past the count. */
static void spoil_rule(Draft *draft, const Play *play, Damage damage, Step undo[2], unsigned *undone) {
    Random *random = &draft->random;
    unsigned r = some_row(draft, play), past = play->board.rules + 1, sort = random_below(random, 4);
    int before = rule_number(play->ours.table + GUARD, r), number = 0;
    if (damage == RULE_NEGATIVE) number = sort == 0 ? -1 : sort == 1 ? -32768 : sort == 2 ? -before : -(int)random_between(random, 1, 32768);
    if (damage == RULE_PAST_COUNT) number = (int)random_between(random, past, sort < 2 ? past : MOST_RULES);
    spoil(draft, undo, undone, SET_NUMBER, WIDTH * r + RULE_PLACE, number, before);
}

/* Lets the rule numbers of two rows fall, both of them from 1 to the count: by one of the two, or by both. */
static void spoil_order(Draft *draft, const Play *play, Step undo[2], unsigned *undone) {
    Random *random = &draft->random;
    const int16_t *table = play->ours.table + GUARD;
    unsigned r = random_between(random, 1, play->board.rows - 1), count = play->board.rules, place = WIDTH * r + RULE_PLACE;
    unsigned first = (unsigned)rule_number(table, r - 1), second = (unsigned)rule_number(table, r), low = random_between(random, 1, count - 1);
    unsigned high = random_between(random, low + 1, count), sort = random_below(random, 3);
    if (sort == 0 && first > 1) high = first, low = random_between(random, 1, first - 1);
    if (sort == 1 && second < count) low = second, high = random_between(random, second + 1, count);
    if (high != first) spoil(draft, undo, undone, SET_NUMBER, place - WIDTH, (int)high, (int)first);
    if (low != second) spoil(draft, undo, undone, SET_NUMBER, place, (int)low, (int)second);
}

/* Gives a row in use another rule number that it may have as well, or the same. */
static void change_rule(Draft *draft, const Play *play, Step undo[2], unsigned *undone) {
    const int16_t *table = play->ours.table + GUARD;
    unsigned r = some_row(draft, play), low = r == 0 ? 1 : (unsigned)rule_number(table, r - 1);
    unsigned high = r + 1 < play->board.rows ? (unsigned)rule_number(table, r + 1) : play->board.rules;
    spoil(draft, undo, undone, SET_NUMBER, WIDTH * r + RULE_PLACE, (int)random_between(&draft->random, low, high), rule_number(table, r));
}

/* Sets the count of rules: past 32,767, below the last row's number, or higher and good still. That stays: a rule may be numbered by it. */
static void spoil_count(Draft *draft, const Play *play, Damage damage, Step undo[2], unsigned *undone) {
    Random *random = &draft->random;
    unsigned rows = play->board.rows, rules = play->board.rules, count = damage == RULES_32768 ? 32768 : 65535;
    if (damage == RULES_OTHER) count = random_between(random, 32769, 65534);
    if (damage == RULES_TOO_FEW) count = random_below(random, (unsigned)rule_number(play->ours.table + GUARD, rows - 1));
    if (damage == RULES_MORE) count = random_chance(random, 20) ? MOST_RULES : random_between(random, rules + 1, MOST_RULES);
    spoil(draft, undo, undone, SET_RULES, 0, (int)count, (int)rules);
    if (damage == RULES_MORE) *undone = 0;
}

/* Sets the rows in use past the rows lent. Of a full table the row after the last has a sound number then, and often sound literals. */
static void spoil_rows(Draft *draft, const Play *play, const Step *call, Step undo[2], unsigned *undone) {
    unsigned lent = (unsigned)rows_lent(call->numbers), sort = random_below(&draft->random, 3), place = WIDTH * MOST_ROWS + RULE_PLACE;
    unsigned rows = sort == 0 ? 65535 : sort == 1 ? MOST_ROWS + 1 : lent + 1;
    if (play->board.rows == MOST_ROWS) {
        spoil(draft, undo, undone, SET_NUMBER, place, rule_number(play->ours.table + GUARD, MOST_ROWS - 1), 0);
        *undone = 0;
    }
    spoil(draft, undo, undone, SET_ROWS, 0, (int)rows, (int)play->board.rows);
}

/* Sets a premise of either furnace of a symbol beyond S; S is below 200. */
static void spoil_premises(Draft *draft, const Play *play, Step undo[2], unsigned *undone) {
    unsigned from = 2 * play->board.symbols, sort = random_below(&draft->random, 3), furnace = 1 + random_below(&draft->random, FURNACES);
    unsigned place = sort == 0 ? from : sort == 1 ? PLACES - 1 : random_between(&draft->random, from, PLACES - 1);
    int byte = (int)random_between(&draft->random, 1, 255), before = premises_of(&play->board, furnace)[place];
    spoil(draft, undo, undone, SET_HELD, place, byte, before)->furnace = furnace;
    undo[*undone - 1].furnace = furnace;
}

/* Writes noise into a number that no row in use has: a good board still. */
static void spoil_unused(Draft *draft, const Play *play, Step undo[2], unsigned *undone) {
    unsigned from = WIDTH * play->board.rows;
    unsigned place = random_between(&draft->random, from, TABLE_LENDABLE - 1);
    spoil(draft, undo, undone, SET_NUMBER, place, -32768, play->ours.table[GUARD + place]);
    *undone = 0;
}

/* True if a good board can take the damage. */
static bool can_take(const Board *board, Damage damage) {
    switch (damage) {
    case PREMISE_BEYOND: return board->symbols < MOST_SYMBOLS;
    case TABLE_TOO_SHORT: case RULE_ANOTHER: return board->rows > 0;
    case RULE_FALLING: return board->rows > 1 && board->rules > 1;
    case RULE_PAST_COUNT: return board->rows > 0 && board->rules < MOST_RULES;
    case RULES_MORE: return board->rules < MOST_RULES;
    default: return damage < RULES_TOO_FEW || damage >= BAD_BOARDS || board->rows > 0;
    }
}

/* A sort of damage that this board can take; none for one that is not good. */
Damage draw_damage(Draft *draft, const Play *play) {
    if (!board_is_good(&play->board, play->ours.table + GUARD, TABLE_LENDABLE)) return NO_DAMAGE;
    for (;;) {
        Damage damage = (Damage)random_between(&draft->random, 1, DAMAGES - 1);
        if (can_take(&play->board, damage)) return damage;
    }
}

/* Adds the steps that spoil the board, changes what the call is lent if need be, and hands back the steps that put it right. */
void add_damage(Draft *draft, const Play *play, Damage damage, Step *call, Step undo[2], unsigned *undone) {
    Random *random = &draft->random;
    int symbols = (int)play->board.symbols, rows = (int)play->board.rows;
    *undone = 0;
    switch (damage) {
    case NO_DAMAGE: break;
    case SYMBOLS_0: spoil(draft, undo, undone, SET_SYMBOLS, 0, 0, symbols); break;
    case SYMBOLS_201: spoil(draft, undo, undone, SET_SYMBOLS, 0, 201, symbols); break;
    case SYMBOLS_65535: spoil(draft, undo, undone, SET_SYMBOLS, 0, 65535, symbols); break;
    case SYMBOLS_OTHER: spoil(draft, undo, undone, SET_SYMBOLS, 0, (int)random_between(random, 202, 65534), symbols); break;
    case ROWS_PAST_LENT: spoil_rows(draft, play, call, undo, undone); break;
    case TABLE_TOO_SHORT: call->numbers = WIDTH * (unsigned)rows - random_between(random, 1, WIDTH); break;
    case PREMISE_BEYOND: spoil_premises(draft, play, undo, undone); break;
    case SYMBOLS_FEWER: spoil(draft, undo, undone, SET_SYMBOLS, 0, (int)random_between(random, 1, (unsigned)symbols), symbols); break;
    case ROWS_FEWER: spoil(draft, undo, undone, SET_ROWS, 0, (int)random_between(random, 0, (unsigned)rows), rows); break;
    case NUMBER_UNUSED: spoil_unused(draft, play, undo, undone); break;
    case RULES_32768: case RULES_65535: case RULES_OTHER: case RULES_TOO_FEW: case RULES_MORE: spoil_count(draft, play, damage, undo, undone); break;
    case RULE_0: case RULE_NEGATIVE: case RULE_PAST_COUNT: spoil_rule(draft, play, damage, undo, undone); break;
    case RULE_FALLING: spoil_order(draft, play, undo, undone); break;
    case RULE_ANOTHER: change_rule(draft, play, undo, undone); break;
    default: spoil_row(draft, play, damage, undo, undone);
    }
}

/* Gives a furnace's premises bytes other than 1, which mean the same. */
static void add_odd_bytes_of(Draft *draft, const Play *play, unsigned furnace) {
    for (unsigned p = 0; p < PLACES; p++) {
        if (!premises_of(&play->board, furnace)[p]) continue;
        Step *step = add_step(draft, SET_HELD);
        step->furnace = furnace;
        step->place = p;
        step->value = (int)random_between(&draft->random, 2, 255);
    }
}

/* Gives premises bytes other than 1: of one furnace, the other, or both. */
void add_odd_bytes(Draft *draft, const Play *play) {
    unsigned spared = random_between(&draft->random, 1, 3);
    for (unsigned f = 1; f <= FURNACES; f++)
        if (f != spared) add_odd_bytes_of(draft, play, f);
}
