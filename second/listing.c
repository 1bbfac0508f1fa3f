/* What document 02's Ticket 10 says of every list of smallest sets, tested on the library's own and without the model. A list has no more sets than
 * there are, nor than places were lent; each is a set of the candidates, and they come by size, then by number, none of them inside another. Each is
 * held on a copy of the board, for one furnace and alone: settle derives the literal without conflict, and no longer where a candidate is withdrawn.
 * Then candidates are held as they come: without conflict they derive the literal exactly where some listed set is among them, and by Ticket 9 some
 * listed set is then inside the literal's ground. */
#include <stdio.h>
#include <string.h>

#include "random.h"
#include "steps.h"

enum { TRIED = 2 }; /* sets of candidates held as they come */

/* A copy of the board, the furnace that it is settled for, and what settle said: whether the literal is derived, and whether there is a conflict. */
typedef struct Copy {
    tup_board board;
    unsigned furnace;
    bool derives, conflict;
} Copy;

/* Notes what is wrong with a set of a list; returns false so that the caller can return it. */
static bool wrong_set(Play *play, unsigned at, unsigned set, const char *words) {
    snprintf(play->difference, sizeof play->difference, "sets place %u: library %u, %s", at, set, words);
    return false;
}

/* True if a comes before b: by size, then by number. */
static bool comes_before(unsigned a, unsigned b) {
    return set_size(a) != set_size(b) ? set_size(a) < set_size(b) : a < b;
}

/* True if every candidate of the one set is in the other. */
static bool is_inside(unsigned inner, unsigned outer) {
    return (inner & outer) == inner;
}

/* True if a list that the library has written can be one at all; notes what is wrong with it. */
bool list_is_bounded(Play *play, const Step *step, unsigned count, const uint16_t *sets) {
    size_t candidates = step->bytes, room = step->lent[0];
    if (!candidates_are_bounded(play, step)) return false;
    if (count > room || count > 1u << candidates) {
        snprintf(play->difference, sizeof play->difference, "sets listed: library %u, of %zu candidates with %zu places lent", count, candidates,
                 room);
        return false;
    }
    for (unsigned i = 0; i < count; i++) {
        if (sets[i] >> candidates != 0) return wrong_set(play, i, sets[i], "which is no set of the candidates");
        if (i > 0 && !comes_before(sets[i - 1], sets[i])) return wrong_set(play, i, sets[i], "which does not come after the set before it");
        for (unsigned j = 0; j < i; j++)
            if (is_inside(sets[j], sets[i])) return wrong_set(play, i, sets[i], "which has a listed set inside it");
    }
    return true;
}

/* Settles the copy by the library; false where that is refused. */
static bool settle(Play *play, const Step *step, Copy *copy) {
    Settled said = library_settle(&copy->board, play->theirs.table + GUARD, step->numbers, copy->furnace);
    if (!same(play, "sets held alone, refusal of settle", NONE, said.refusal, 0)) return false;
    copy->derives = said.ranks[place_of(step->value)] != NONE;
    copy->conflict = memchr(said.labels, 3, copy->board.symbols) != NULL;
    return true;
}

/* Makes a copy of the board on which the furnace holds a set of candidates alone, by the library's hold, and settles it; what the other furnace holds
 * stays. */
static bool hold_alone(Play *play, const Step *step, unsigned set, Copy *copy) {
    copy->board = play->library_board;
    memset(copy->board.held[copy->furnace - 1], 0, PLACES);
    for (unsigned i = 0; i < step->bytes; i++) {
        if ((set >> i & 1) == 0) continue;
        tup_change change = tup_hold(copy->board, play->theirs.table + GUARD, step->numbers, (uint8_t)copy->furnace, step->candidates[i]);
        copy->board = change.board;
        if (!same(play, "sets held alone, refusal of hold", i, change.refusal, 0)) return false;
    }
    return settle(play, step, copy);
}

/* True if the literal falls where one candidate of the set held alone is withdrawn, whichever it is. */
static bool needs_all(Play *play, const Step *step, unsigned at, unsigned set, const Copy *held) {
    for (unsigned i = 0; i < step->bytes; i++) {
        if ((set >> i & 1) == 0) continue;
        Copy less = *held;
        tup_stacks empty = {0};
        uint8_t furnace = (uint8_t)held->furnace;
        tup_change change = tup_withdraw(held->board, play->theirs.table + GUARD, step->numbers, &empty, furnace, step->candidates[i]);
        less.board = change.board;
        if (!same(play, "sets held alone, refusal of withdraw", i, change.refusal, 0) || !settle(play, step, &less)) return false;
        if (less.derives) return wrong_set(play, at, set, "and a smaller set inside it derives the literal");
    }
    return true;
}

/* True if a listed set, held alone, derives the literal without conflict, and no smaller set inside it does. */
static bool set_carries(Play *play, const Step *step, unsigned at, unsigned set, Copy *copy) {
    if (!hold_alone(play, step, set, copy)) return false;
    if (!copy->derives) return wrong_set(play, at, set, "and held alone it does not derive the literal");
    if (copy->conflict) return wrong_set(play, at, set, "and held alone it is in conflict");
    play->carried++;
    return needs_all(play, step, at, set, copy);
}

/* True if some listed set is inside the set. */
static bool has_listed(const Play *play, unsigned set) {
    for (unsigned i = 0; i < play->library_last.listed; i++)
        if (is_inside(play->theirs.sets[GUARD + i], set)) return true;
    return false;
}

/* The candidates among the premises marked, by their places, as a set; false where a premise is marked that is no candidate. */
static bool set_of(const Step *step, const uint8_t marks[PLACES], unsigned places, unsigned *set) {
    unsigned count = 0;
    *set = 0;
    for (unsigned i = 0; i < step->bytes; i++)
        if (marks[place_of(step->candidates[i])] != 0) *set |= 1u << i;
    for (unsigned p = 0; p < places; p++) count += marks[p] != 0;
    return count == set_size(*set);
}

/* True if some listed set is inside the literal's ground, which the library tells of a copy that derives the literal without conflict from candidates
 * alone. */
static bool ground_has_listed(Play *play, const Step *step, const Copy *copy) {
    uint8_t marks[PLACES];
    const int16_t *table = play->theirs.table + GUARD;
    unsigned set, refusal = tup_ground(copy->board, table, step->numbers, (uint8_t)copy->furnace, (int16_t)step->value, marks, PLACES);
    if (!same(play, "candidates held, refusal of ground", NONE, refusal, 0)) return false;
    if (!same(play, "candidates held, a ground of candidates alone", NONE, set_of(step, marks, 2u * copy->board.symbols, &set), true)) return false;
    play->grounds++;
    return same(play, "candidates held, a listed set inside the ground, set", set, has_listed(play, set), true);
}

/* True if candidates held for the furnace of the copy, which was settled, derive the literal exactly where a listed set is among them; in conflict
 * they may derive it without one. */
static bool held_agrees(Play *play, const Step *step, unsigned set, const Copy *copy) {
    bool listed = has_listed(play, set);
    if (!same(play, "candidates held, derived with a listed set among them, set", set, listed && !copy->derives, false)) return false;
    if (copy->conflict) return true;
    if (!same(play, "candidates held, derived without conflict (model: a listed set among them), set", set, copy->derives, listed)) return false;
    return !copy->derives || ground_has_listed(play, step, copy);
}

/* Holds sets of candidates as they come for the furnace, now and then with a listed set among them. */
static bool tried_agree(Play *play, const Step *step, Random *random, Copy *copy) {
    unsigned listed = play->library_last.listed;
    for (unsigned n = 0; n < TRIED; n++) {
        unsigned set = random_below(random, 1u << step->bytes);
        if (listed > 0 && random_chance(random, 50)) set |= play->theirs.sets[GUARD + random_below(random, listed)];
        if (!hold_alone(play, step, set, copy) || !held_agrees(play, step, set, copy)) return false;
    }
    return true;
}

/* The same for what each furnace holds on the board itself, where these are candidates, all of them. */
static bool own_agree(Play *play, const Step *step) {
    unsigned set, before = play->grounds;
    for (Copy copy = {play->library_board, .furnace = 1}; copy.furnace <= FURNACES; copy.furnace++) {
        if (!set_of(step, copy.board.held[copy.furnace - 1], PLACES, &set)) continue;
        if (!settle(play, step, &copy) || !held_agrees(play, step, set, &copy)) return false;
    }
    play->own_grounds = play->grounds - before;
    return true;
}

/* True if every set of the list that the library has written carries the literal, and no set of candidates does without one of them; notes where not.
 * Where 2 was due there is nothing to hold. */
bool list_carries(Play *play, const Step *step) {
    Random random = random_for(step->noise, step->bytes);
    Copy copy = {.furnace = 1 + random_below(&random, FURNACES)};
    if (!gives_literals(step, play->library_board.symbols)) return true;
    for (unsigned i = 0; i < play->library_last.listed; i++)
        if (!set_carries(play, step, i, play->theirs.sets[GUARD + i], &copy)) return false;
    return tried_agree(play, step, &random, &copy) && own_agree(play, step);
}
