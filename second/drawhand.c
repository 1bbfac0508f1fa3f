/* Drawing candidates: how many of them, in which order, and how they are at fault. Which literals they are is for the call that is given them. */
#include "drawhand.h"

#include "draw.h"

enum { MOST_WORK = 150000 };

/* The symbols that a board has; where it has none, those that the sequence is for. */
unsigned symbols_of(const Draft *draft, const Play *play) {
    unsigned symbols = play->board.symbols;
    return symbols >= 1 && symbols <= MOST_SYMBOLS ? symbols : draft->symbols;
}

/* A literal of the rows in use, any or the last one of its row, and often of the last row; where there are no rows, any literal. */
int draw_of_rows(Draft *draft, const Play *play, bool last) {
    unsigned rows = play->board.rows, length = 0;
    if (rows == 0 || rows > MOST_ROWS) return draw_literal(draft, play);
    unsigned taken = random_chance(&draft->random, 15) ? rows - 1 : random_below(&draft->random, rows);
    const int16_t *row = play->ours.table + GUARD + WIDTH * taken;
    while (length < ROW_LITERALS && row[length] != 0) length++;
    if (length == 0) return draw_literal(draft, play);
    return row[last ? length - 1 : random_below(&draft->random, length)];
}

/* Starts with none, and draws how many are wanted, each number as often as its weight says: few where there are many rows or many rounds are to be
 * reckoned with, since each set is propagated, but for 12, which come seldom; and no more than there are literals. From 13 on they are too many, now
 * and then more than a byte or 16 bits can count. */
void hand_start(Draft *draft, const Play *play, Hand *hand, const unsigned weights[HANDS], unsigned rounds) {
    Random *random = &draft->random;
    unsigned symbols = symbols_of(draft, play), work = 1 + play->board.rows * rounds, sort = random_below(random, 100);
    unsigned wanted = random_weighted(random, weights, HANDS);
    hand->count = 0;
    if (wanted > MOST_CANDIDATES) {
        if (sort < 66) hand->wanted = random_between(random, wanted, sort < 40 ? wanted : 20);
        else hand->wanted = random_below(random, MOST_CANDIDATES + 1) + (sort < 83 ? 256 : 65536);
        return;
    }
    if (wanted == MOST_CANDIDATES) work /= 8;
    while (wanted > 2 && work << wanted > MOST_WORK) wanted--;
    hand->wanted = wanted <= 2 * symbols ? wanted : 2 * symbols;
}

/* Takes a candidate that was not taken yet, as long as one is wanted. */
void hand_take(Hand *hand, int literal) {
    for (unsigned i = 0; i < hand->count; i++)
        if (hand->candidates[i] == literal) return;
    if (hand->count < hand->wanted) hand->candidates[hand->count++] = (int16_t)literal;
}

/* Takes all premises of a furnace, as many as are wanted. */
void hand_take_premises(const Play *play, Hand *hand, unsigned furnace) {
    for (unsigned p = 0; p < PLACES; p++)
        if (premises_of(&play->board, furnace)[p]) hand_take(hand, literal_at(p));
}

/* Puts the candidates into a random order. */
void hand_shuffle(Random *random, Hand *hand) {
    for (unsigned i = hand->count; i > 1; i--) {
        unsigned at = random_below(random, i);
        int16_t last = hand->candidates[i - 1];
        hand->candidates[i - 1] = hand->candidates[at];
        hand->candidates[at] = last;
    }
}

/* Of a great many the last ones may be the same as others, and are literals all the same. */
void hand_fill(Draft *draft, const Play *play, Hand *hand) {
    if (hand->wanted <= MOST_CANDIDATES) return;
    for (; hand->count < hand->wanted; hand->count++)
        hand->candidates[hand->count] = hand->count == 0 ? (int16_t)draw_literal(draft, play) : (int16_t)-hand->candidates[hand->count - 1];
}

/* Gives one of the candidates again: at the end or in the place of another, of the one next to it or of any. */
static void repeat_one(Random *random, Hand *hand) {
    if (hand->count == 0) return;
    unsigned last = hand->count - 1, from = random_chance(random, 40) ? 0 : random_below(random, hand->count);
    unsigned to = random_chance(random, 40) ? last : random_chance(random, 40) ? from + 1 : random_below(random, hand->count);
    if (to == from || to > last) to = hand->count++;
    hand->candidates[to] = hand->candidates[from];
}

/* Puts a number that is no literal among the candidates: often the last of them, or past the twelfth. */
static void spoil_one(Random *random, Hand *hand, unsigned symbols) {
    if (hand->count == 0) hand->count = 1;
    unsigned last = hand->count - 1, sort = random_below(random, 100), at = random_below(random, hand->count);
    if (sort < 40) at = last;
    if (sort >= 70 && last > MOST_CANDIDATES) at = random_between(random, MOST_CANDIDATES, last);
    hand->candidates[at] = (int16_t)draw_bad_literal(random, symbols);
}

/* Lets the candidates be at fault now and then; where something is already, more often. */
void hand_faults(Draft *draft, const Play *play, Hand *hand, Step *step) {
    Random *random = &draft->random;
    step->faults += hand->wanted > MOST_CANDIDATES;
    if (random_chance(random, step->faults > 0 ? 25 : 7)) repeat_one(random, hand), step->faults++;
    if (random_chance(random, step->faults > 0 ? 25 : 5)) spoil_one(random, hand, symbols_of(draft, play)), step->faults++;
}

/* Lets up to three numbers stand after the candidates, which no call may take for some of them: no literals, one of them again, or others. Returns
 * how many there are then. */
static unsigned draw_after(Draft *draft, const Play *play, Hand *hand) {
    Random *random = &draft->random;
    unsigned length = hand->count;
    for (unsigned more = random_chance(random, 50) ? 0 : random_between(random, 1, MOST_AFTER); more > 0; more--, length++) {
        unsigned sort = random_below(random, 3);
        int another = sort == 0 ? draw_bad_literal(random, symbols_of(draft, play)) : draw_of_rows(draft, play, false);
        hand->candidates[length] = sort == 1 && hand->count > 0 ? hand->candidates[0] : (int16_t)another;
    }
    return length;
}

/* Gives the candidates to the step. */
void hand_keep(Draft *draft, const Play *play, Hand *hand, Step *step) {
    unsigned length = draw_after(draft, play, hand);
    step->candidates = keep_candidates(draft, step, hand->candidates, length, hand->count);
}
