/* The least to withdraw, told again by the library in other ways: with the candidates in another order, which leaves the size of the set as it is;
 * over other premises of the other furnace, which change nothing; and with the candidates of the set alone, all of which are needed. The model has no
 * part in it. */
#include "random.h"
#include "steps.h"

/* Candidates to be given instead of the step's: so many, and for each which one of the step's it is. */
typedef struct Order {
    unsigned count, from[MOST_CANDIDATES];
} Order;

/* The candidates of a set, in the order of the step. */
static Order order_of(const Step *step, unsigned set) {
    Order order = {0};
    for (unsigned i = 0; i < step->bytes; i++)
        if (set >> i & 1) order.from[order.count++] = i;
    return order;
}

/* Makes the call again, on a board and with these candidates. */
static tup_withdrawal call_again(Play *play, const Step *step, const tup_board *board, const Order *order) {
    int16_t candidates[MOST_CANDIDATES];
    for (unsigned i = 0; i < order->count; i++) candidates[i] = step->candidates[order->from[i]];
    play->told_again++;
    return tup_least(*board, play->theirs.table + GUARD, step->numbers, (uint8_t)step->furnace, candidates, order->count);
}

/* Puts the candidates into a random order. */
static void reorder(Order *order, Random *random) {
    for (unsigned i = order->count; i > 1; i--) {
        unsigned at = random_below(random, i), last = order->from[i - 1];
        order->from[i - 1] = order->from[at];
        order->from[at] = last;
    }
}

/* True if another order gives a set of the same size, or the same refusal. Of equal size it is the one with the smallest number: the set that was
 * told, spelt in that order, has no smaller one. */
static bool order_keeps_size(Play *play, const Step *step, Order order, Random *random) {
    const Outcome *told = &play->library_last;
    unsigned respelt = 0;
    reorder(&order, random);
    for (unsigned i = 0; i < order.count; i++) respelt |= (told->set >> order.from[i] & 1u) << i;
    tup_withdrawal again = call_again(play, step, &play->library_board, &order);
    if (!same(play, "least, refusal (library: in another order, model: the library's)", NONE, again.refusal, told->refusal)) return false;
    if (told->refusal != 0) return true;
    return same(play, "least, size (library: in another order, model: the library's)", NONE, set_size(again.set), set_size(told->set)) &&
           same(play, "least, in another order a smaller number that ends the conflict, set", again.set, respelt < again.set, false);
}

/* True if other premises of the other furnace change nothing: all literals, any, or none. */
static bool premises_change_nothing(Play *play, const Step *step, const Order *order, Random *random) {
    const Outcome *told = &play->library_last;
    tup_board board = play->library_board;
    uint8_t *others = board.held[2 - step->furnace];
    unsigned sort = random_below(random, 3);
    for (unsigned p = 0; p < 2u * board.symbols; p++) others[p] = sort == 0 || (sort == 1 && random_chance(random, 50));
    tup_withdrawal again = call_again(play, step, &board, order);
    return same(play, "least, refusal (library: over other premises of the other, model: the library's)", NONE, again.refusal, told->refusal) &&
           same(play, "least, set (library: over other premises of the other, model: the library's)", NONE, again.set, told->set);
}

/* True if of the set's candidates alone all are told. */
static bool set_alone_is_told(Play *play, const Step *step, unsigned set) {
    Order order = order_of(step, set);
    tup_withdrawal again = call_again(play, step, &play->library_board, &order);
    return same(play, "least, refusal with the candidates of the set alone", NONE, again.refusal, 0) &&
           same(play, "least, set with its candidates alone (model: all of them)", NONE, again.set, (1u << order.count) - 1);
}

/* True if the library tells the least to withdraw again as it told it; notes where not. Of more than 12 candidates it has nothing to tell. */
bool least_told_again(Play *play, const Step *step) {
    Random random = random_for(step->noise, step->bytes);
    if (step->bytes > MOST_CANDIDATES) return true;
    Order order = order_of(step, (1u << step->bytes) - 1);
    return order_keeps_size(play, step, order, &random) && premises_change_nothing(play, step, &order, &random) &&
           (play->library_last.refusal != 0 || set_alone_is_told(play, step, play->library_last.set));
}
