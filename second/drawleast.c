/* Drawing the steps of a sequence that ask for the least to withdraw: candidates that the furnace holds, all of them or some. Now and then one that
 * it does not hold is among them, the other furnace's often; they are at fault in other ways as well, in several at once. */
#include "drawleast.h"

#include "draw.h"
#include "drawfurnace.h"
#include "drawhand.h"

enum { FEW_ROUNDS = 4 };

/* Takes premises of the furnace at random, as many as are wanted. */
static void take_held(Draft *draft, const Play *play, Hand *hand, unsigned furnace) {
    unsigned wanted = hand->wanted;
    hand->wanted = PLACES;
    hand_take_premises(play, hand, furnace);
    hand_shuffle(&draft->random, hand);
    hand->wanted = wanted;
    if (hand->count > wanted) hand->count = wanted;
}

/* A literal that the furnace mostly does not hold: one that only the other furnace holds, the opposite of a candidate, or any. */
static int draw_stranger(Draft *draft, const Play *play, const Step *step, const Hand *hand) {
    Random *random = &draft->random;
    unsigned sort = random_below(random, 100);
    int telling = draw_telling(draft, play, step, true);
    if (sort < 50 && telling != 0) return telling;
    if (sort < 75 && hand->count > 0) return -hand->candidates[random_below(random, hand->count)];
    return draw_literal(draft, play);
}

/* Puts such a literal in the place of a candidate, often of the first or the last one; where there is none, it is the only one. */
static void put_stranger(Draft *draft, const Play *play, Step *step, Hand *hand) {
    Random *random = &draft->random;
    int literal = draw_stranger(draft, play, step, hand);
    unsigned sort = random_below(random, 100);
    for (unsigned i = 0; i < hand->count; i++)
        if (hand->candidates[i] == literal) return;
    if (hand->count == 0) hand->count = 1;
    unsigned at = sort < 30 ? 0 : sort < 60 ? hand->count - 1 : random_below(random, hand->count);
    hand->candidates[at] = (int16_t)literal;
    step->faults++;
}

/* Fills in a step that asks for the least to withdraw, of few candidates mostly; or of many, where clashes of premises take few rounds. */
void draw_least(Draft *draft, const Play *play, Step *step, bool many) {
    static const unsigned weights[2][HANDS] = {{4, 8, 14, 16, 16, 14, 10, 8, 4, 2, 1, 1, 1, 6}, {1, 1, 2, 5, 9, 12, 15, 15, 14, 11, 6, 3, 5, 8}};
    static Hand hand;
    hand_start(draft, play, &hand, weights[many], many ? FEW_ROUNDS : symbols_of(draft, play));
    take_held(draft, play, &hand, furnace_meant(step));
    if (hand.count > MOST_CANDIDATES && random_chance(&draft->random, 60)) hand.wanted = hand.count;
    for (unsigned tries = 0; tries < 60 && hand.wanted > MOST_CANDIDATES && hand.count < hand.wanted; tries++)
        hand_take(&hand, draw_stranger(draft, play, step, &hand));
    hand_fill(draft, play, &hand);
    if (random_chance(&draft->random, step->faults > 0 ? 30 : 10)) put_stranger(draft, play, step, &hand);
    hand_faults(draft, play, &hand, step);
    hand_keep(draft, play, &hand, step);
}
