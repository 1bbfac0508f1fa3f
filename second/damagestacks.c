/* Damage to the record of both stacks: first what spoils one of them, and for afterwards what puts it right. Its count and its numbers are those that
 * document 02's Ticket 14 has a call refused for, and others that say nothing or are as good as those before. */
#include "damagestacks.h"

/* Adds a step of the caller's, and notes the step that undoes it. */
static void spoil(Draft *draft, Spoilt *spoilt, Kind kind, unsigned place, int value, int before) {
    Step *step = add_step(draft, kind);
    step->furnace = spoilt->furnace;
    step->place = place;
    step->value = value;
    spoilt->undo[spoilt->undone] = *step;
    spoilt->undo[spoilt->undone].mended = true;
    spoilt->undo[spoilt->undone++].value = before;
}

/* Writes the count of the stack. */
static void spoil_count(Draft *draft, const Play *play, Spoilt *spoilt, unsigned count) {
    spoil(draft, spoilt, SET_COUNT, 0, (int)count, (int)stack_count(play->ours.record + GUARD, spoilt->furnace));
}

/* Writes a number at a place of the stack. */
static void spoil_number(Draft *draft, const Play *play, Spoilt *spoilt, unsigned place, int number) {
    spoil(draft, spoilt, SET_STACKED, place, number, stacked_at(play->ours.record + GUARD, spoilt->furnace, place));
}

/* True if a literal is one for the damage: not held by either furnace, held by the other one only, not held while its opposite is stacked, or held
 * and not stacked. */
static bool suits(const Play *play, const Spoilt *spoilt, int literal) {
    const bool *its = premises_of(&play->board, spoilt->furnace), *others = premises_of(&play->board, 3 - spoilt->furnace);
    const int16_t *record = play->ours.record + GUARD;
    unsigned place = place_of(literal);
    switch (spoilt->damage) {
    case STACKED_NOT_HELD: return !its[place] && !others[place];
    case STACKED_OTHERS: return !its[place] && others[place];
    case STACKED_OPPOSITE: return !its[place] && is_stacked(record, spoilt->furnace, -literal);
    default: return its[place] && !is_stacked(record, spoilt->furnace, literal);
    }
}

/* A literal for the damage, or 0 where there is none. */
static int draw_suiting(Draft *draft, const Play *play, const Spoilt *spoilt) {
    unsigned count = 0;
    int taken = 0;
    for (unsigned p = 0; p < 2 * play->board.symbols; p++)
        if (suits(play, spoilt, literal_at(p)) && random_below(&draft->random, ++count) == 0) taken = literal_at(p);
    return taken;
}

/* A number that is no literal of symbols 1 to S, and neither 0 nor -32768. */
static int draw_beyond(Random *random, unsigned symbols) {
    int beyond = (int)random_between(random, symbols + 1, random_chance(random, 50) ? symbols + 1 : 32767);
    return random_chance(random, 50) ? beyond : -beyond;
}

/* Numbers of all sorts from the count on, which say nothing: a few, or all there is room for. */
static void add_junk(Draft *draft, const Play *play, const Spoilt *spoilt) {
    Random *random = &draft->random;
    unsigned count = stack_count(play->ours.record + GUARD, spoilt->furnace), most = random_between(random, 1, 6);
    for (unsigned n = 0; n < most; n++) {
        unsigned sort = random_below(random, 5), at = sort < 3 ? count + n : random_between(random, count, PLACES - 1);
        int literal = literal_at(random_below(random, 2 * play->board.symbols));
        Step *step = add_step(draft, SET_STACKED);
        step->furnace = spoilt->furnace;
        step->place = at < PLACES ? at : PLACES - 1;
        step->value = sort == 0 ? -32768 : sort == 1 ? draw_beyond(random, play->board.symbols) : literal;
    }
}

/* Spoils the count. */
static void spoil_counted(Draft *draft, const Play *play, Spoilt *spoilt) {
    unsigned count = stack_count(play->ours.record + GUARD, spoilt->furnace), most = 2 * play->board.symbols;
    switch (spoilt->damage) {
    case COUNT_ONE_MORE: count++; break;
    case COUNT_2S: count = most; break;
    case COUNT_PAST_2S: count = most + 1; break;
    case COUNT_400: count = PLACES; break;
    case COUNT_401: count = PLACES + 1; break;
    case COUNT_65535: count = 65535; break;
    case COUNT_ONE_LESS: count--; break;
    case COUNT_0: count = 0; break;
    default: count = random_chance(&draft->random, 40) ? 32768 + count : random_between(&draft->random, PLACES + 2, 65534);
    }
    spoil_count(draft, play, spoilt, count);
}

/* Spoils two numbers of the stack, or a number of it, or a held byte behind one; false where no literal is there for it. */
static bool spoil_stacked(Draft *draft, const Play *play, Spoilt *spoilt) {
    Random *random = &draft->random;
    const int16_t *record = play->ours.record + GUARD;
    unsigned count = stack_count(record, spoilt->furnace), at = random_below(random, count), next = at;
    if (count > 1) next = (at + random_between(random, 1, count - 1)) % count;
    int literal = stacked_at(record, spoilt->furnace, at), another = draw_suiting(draft, play, spoilt);
    switch (spoilt->damage) {
    case STACKED_0: spoil_number(draft, play, spoilt, at, 0); return true;
    case STACKED_BEYOND: spoil_number(draft, play, spoilt, at, draw_beyond(random, play->board.symbols)); return true;
    case STACKED_LOWEST: spoil_number(draft, play, spoilt, at, -32768); return true;
    case STACKED_REPEATED: spoil_number(draft, play, spoilt, next, literal); return true;
    case PREMISE_GONE:
        spoil(draft, spoilt, SET_HELD, place_of(literal), 0, 1);
        spoilt->by_hold = literal;
        return true;
    case STACKED_SWAPPED:
        spoil_number(draft, play, spoilt, at, stacked_at(record, spoilt->furnace, next));
        spoil_number(draft, play, spoilt, next, literal);
        return true;
    default:
        if (another == 0) return false;
        spoil_number(draft, play, spoilt, at, another);
        spoilt->by_hold = spoilt->damage == STACKED_ANOTHER ? 0 : another;
        return true;
    }
}

/* Puts a held literal on top that is not stacked, as a push of one that is not held would; false where there is none. */
static bool spoil_more(Draft *draft, const Play *play, Spoilt *spoilt) {
    unsigned count = stack_count(play->ours.record + GUARD, spoilt->furnace);
    int another = draw_suiting(draft, play, spoilt);
    if (another == 0) return false;
    spoil_number(draft, play, spoilt, count, another);
    spoil_count(draft, play, spoilt, count + 1);
    return true;
}

/* A sort of damage: more often one that needs a stack with something on it, or a call that is done for all it does. */
static StackDamage draw_sort(Random *random) {
    static const unsigned weights[STACK_DAMAGES] = {
        [COUNT_ONE_MORE] = 2, [COUNT_2S] = 2, [COUNT_PAST_2S] = 2, [COUNT_400] = 2, [COUNT_401] = 2, [COUNT_65535] = 2, [COUNT_OTHER] = 2,
        [STACKED_0] = 5, [STACKED_BEYOND] = 6, [STACKED_LOWEST] = 5, [STACKED_REPEATED] = 9, [STACKED_NOT_HELD] = 4, [STACKED_OTHERS] = 5,
        [STACKED_OPPOSITE] = 4, [PREMISE_GONE] = 4, [COUNT_0] = 6, [COUNT_ONE_LESS] = 6, [STACKED_SWAPPED] = 18, [STACKED_ANOTHER] = 10,
        [STACKED_MORE] = 5, [JUNK_BEYOND] = 5};
    return (StackDamage)random_weighted(random, weights, STACK_DAMAGES);
}

/* True if the stack, which is a good one, can take the damage. */
static bool can_take(const Play *play, const Spoilt *spoilt) {
    unsigned count = stack_count(play->ours.record + GUARD, spoilt->furnace), symbols = play->board.symbols;
    switch (spoilt->damage) {
    case COUNT_ONE_MORE: case COUNT_2S: return count < 2 * symbols;
    case COUNT_400: return symbols < MOST_SYMBOLS;
    case COUNT_PAST_2S: case COUNT_401: case COUNT_65535: case COUNT_OTHER: case STACKED_MORE: return true;
    case STACKED_REPEATED: case STACKED_SWAPPED: return count > 1;
    case JUNK_BEYOND: return count < PLACES;
    default: return count > 0;
    }
}

/* Adds the steps that spoil one of the stacks, and notes those that put it right; none where it stays good. False where nothing is spoilt: the board
 * or the record is not good, or nothing suits. */
bool spoil_stack(Draft *draft, const Play *play, Spoilt *spoilt) {
    if (stack_tests(&play->board, play->ours.table + GUARD, TABLE_LENDABLE, play->ours.record + GUARD, 1) != 0) return false;
    *spoilt = (Spoilt){.furnace = 1 + random_below(&draft->random, FURNACES)};
    if (stack_count(play->ours.record + GUARD, spoilt->furnace) == 0 && random_chance(&draft->random, 70)) spoilt->furnace = 3 - spoilt->furnace;
    spoilt->damage = draw_sort(&draft->random);
    for (unsigned tries = 0; tries < 8 && !can_take(play, spoilt); tries++) spoilt->damage = draw_sort(&draft->random);
    if (!can_take(play, spoilt)) return false;
    bool counted = spoilt->damage <= COUNT_OTHER || spoilt->damage == COUNT_0 || spoilt->damage == COUNT_ONE_LESS, done = true;
    if (counted) spoil_counted(draft, play, spoilt);
    else if (spoilt->damage == JUNK_BEYOND) add_junk(draft, play, spoilt);
    else done = spoilt->damage == STACKED_MORE ? spoil_more(draft, play, spoilt) : spoil_stacked(draft, play, spoilt);
    if (spoilt->damage >= BAD_STACKS) spoilt->undone = 0;
    return done;
}
