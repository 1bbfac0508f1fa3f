/* Random tries nested in one another, for both furnaces, which take turns: each furnace goes down to a depth by pushes and up to another by pops,
 * again and again, and in between rules are added, literals are held and withdrawn, calls are refused and boards opened. After each pop the furnace's
 * stack, every number of its part of the record, has to be what it was ahead of the push, since nothing else wrote into it; the premises, and what
 * settle tells, are looked at in takenback.c. At last all is popped, and the record has nothing but zeros. */
#include <stdio.h>
#include <string.h>

#include "cover.h"
#include "draw.h"
#include "stacktries.h"
#include "tries.h"

enum { WALKS = 500, MOST_TURNS = 60, WALK_STEPS = 2 * MOST_TURNS + 2 * PLACES, RULE_TEXT = 24, MOST_RULES_ADDED = 30 };

/* Where both furnaces are going, how their stacks were ahead of each push, and the calls made. */
typedef struct Walk {
    Random random;
    unsigned symbols, goal[FURNACES], rules;
    int16_t before[FURNACES][PLACES][STACK_NUMBERS];
    char text[MOST_RULES_ADDED][RULE_TEXT];
    Step made[WALK_STEPS];
    unsigned count;
} Walk;

/* A furnace's part of the library's record. */
static const int16_t *numbers_of(const Play *play, unsigned furnace) {
    return play->theirs.record + GUARD + STACK_NUMBERS * (furnace - 1);
}

/* How deep a furnace's tries are nested now. */
static unsigned depth_of(const Play *play, unsigned furnace) {
    return stack_count(play->theirs.record + GUARD, furnace);
}

/* Makes a call and counts it; false where the sides differ or the refusal is another. */
static bool make(Play *play, Walk *walk, Step step, unsigned refusal) {
    step.noise = random_next(&walk->random);
    if (random_chance(&walk->random, 50) && !adds_rows(step.kind)) step.numbers = WIDTH * play->board.rows + random_below(&walk->random, WIDTH);
    if (walk->count < WALK_STEPS) walk->made[walk->count++] = step;
    return try_counted(play, &step) && same(play, "refusal (model: the one due)", NONE, play->last.refusal, refusal);
}

/* A literal that the furnace holds, or does not; of those that it holds one that is stacked, or is not. 0 where there is none. */
static int choose(const Play *play, Walk *walk, unsigned furnace, bool held, bool stacked) {
    unsigned count = 0;
    int taken = 0;
    for (unsigned p = 0; p < 2 * walk->symbols; p++) {
        bool is = premises_of(&play->board, furnace)[p], on = is && is_stacked(play->ours.record + GUARD, furnace, literal_at(p));
        if (is == held && on == stacked && random_below(&walk->random, ++count) == 0) taken = literal_at(p);
    }
    return taken;
}

/* Opens a board; nothing is on the stacks then. */
static bool open_board(Play *play, Walk *walk) {
    static const unsigned few[] = {1, 2, 3, 4, 6, 9, 14, MOST_SYMBOLS};
    walk->symbols = few[random_below(&walk->random, random_chance(&walk->random, 10) ? 8 : 7)];
    return make(play, walk, try_step(OPEN, 0, (int)walk->symbols), 0);
}

/* Adds a rule: that one literal implies another, or now and then a literal alone. */
static bool add_rule(Play *play, Walk *walk) {
    Step step = try_step(TEXT_RULE, 0, 0);
    int from = literal_at(random_below(&walk->random, 2 * walk->symbols)), to = literal_at(random_below(&walk->random, 2 * walk->symbols));
    if (walk->rules == MOST_RULES_ADDED || from == -to) return true;
    char *text = walk->text[walk->rules++];
    step.text = (const uint8_t *)text;
    step.bytes = step.standing = (size_t)(random_chance(&walk->random, 85) ? sprintf(text, "%d>%d", from, to) : sprintf(text, "%d", from));
    return make(play, walk, step, 0);
}

/* Holds what the furnace does not hold, or withdraws what it holds and has not stacked. */
static bool change_premise(Play *play, Walk *walk, unsigned furnace) {
    bool hold = random_chance(&walk->random, 50);
    int literal = choose(play, walk, furnace, !hold, false);
    return literal == 0 || make(play, walk, try_step(hold ? HOLD : WITHDRAW, furnace, literal), 0);
}

/* Makes a call that a stack has refused. */
static bool make_refused(Play *play, Walk *walk, unsigned furnace) {
    int stacked = choose(play, walk, furnace, true, true);
    if (stacked == 0) return make(play, walk, try_step(POP, furnace, 0), 20);
    switch (random_below(&walk->random, 4)) {
    case 0: return make(play, walk, try_step(PUSH, furnace, stacked), 10);
    case 1: return make(play, walk, try_step(HOLD, furnace, stacked), 10);
    case 2: return make(play, walk, try_step(PUSH, furnace, draw_bad_literal(&walk->random, walk->symbols)), 2);
    default: return make(play, walk, try_step(WITHDRAW, furnace, stacked), 21);
    }
}

/* Pushes, where there is something to push. */
static bool go_down(Play *play, Walk *walk, unsigned furnace) {
    int literal = choose(play, walk, furnace, false, false);
    if (literal == 0) return walk->goal[furnace - 1] = 0, true;
    memcpy(walk->before[furnace - 1][depth_of(play, furnace)], numbers_of(play, furnace), sizeof walk->before[0][0]);
    return make(play, walk, try_step(PUSH, furnace, literal), 0);
}

/* Pops; false where the stack is not what it was ahead of the push. */
static bool go_up(Play *play, Walk *walk, unsigned furnace) {
    if (!make(play, walk, try_step(POP, furnace, 0), 0)) return false;
    const int16_t *now = numbers_of(play, furnace), *then = walk->before[furnace - 1][depth_of(play, furnace)];
    return same(play, "the stack is what it was ahead of the push", NONE, memcmp(now, then, sizeof walk->before[0][0]) == 0, true);
}

/* Goes on towards the furnace's goal, or to a new one. */
static bool go_on(Play *play, Walk *walk, unsigned furnace) {
    unsigned depth = depth_of(play, furnace), most = 2 * walk->symbols < 12 ? 2 * walk->symbols : 12;
    if (depth == walk->goal[furnace - 1]) walk->goal[furnace - 1] = random_below(&walk->random, most + 1);
    if (depth == walk->goal[furnace - 1]) return true;
    return depth < walk->goal[furnace - 1] ? go_down(play, walk, furnace) : go_up(play, walk, furnace);
}

/* One turn: mostly one of the furnaces goes on. */
static bool turn(Play *play, Walk *walk) {
    unsigned furnace = 1 + random_below(&walk->random, FURNACES), sort = random_below(&walk->random, 100);
    if (sort < 76) return go_on(play, walk, furnace);
    if (sort < 84) return add_rule(play, walk);
    if (sort < 91) return change_premise(play, walk, furnace);
    if (sort < 96) return make_refused(play, walk, furnace);
    if (sort < 98) return make(play, walk, try_step(SETTLE, furnace, 0), 0);
    return (sort == 98 || make(play, walk, try_step(OPEN, 0, 201), 2)) && open_board(play, walk);
}

/* Pops all that is left, the furnaces taking turns as it comes; true if the record has nothing but zeros then. */
static bool go_home(Play *play, Walk *walk) {
    bool good = true;
    while (good && depth_of(play, 1) + depth_of(play, 2) > 0) {
        unsigned furnace = 1 + random_below(&walk->random, FURNACES);
        good = go_up(play, walk, depth_of(play, furnace) > 0 ? furnace : 3 - furnace);
    }
    const int16_t *record = play->theirs.record + GUARD;
    for (unsigned i = 0; i < RECORD_NUMBERS && good; i++) good = same(play, "the record at last, number", i, (uint16_t)record[i], 0);
    return good;
}

/* Says which walk went wrong, after which calls; false, so that the caller can return it. */
static bool walk_wrong(const Play *play, const Walk *walk, unsigned number) {
    printf("second: nested tries, walk %u, wrong at the last of these calls: %s\n", number, play->difference);
    for (unsigned i = 0; i < walk->count; i++) print_step(&walk->made[i], i + 1);
    print_board(play, TABLE_LENDABLE);
    return false;
}

/* True if all random walks come out so. */
bool nested_tries_agree(Play *play, uint64_t seed) {
    static Walk walk;
    for (unsigned n = 0; n < WALKS; n++) {
        walk.random = random_for(seed ^ 0x6E6573746564, n);
        walk.count = walk.rules = walk.goal[0] = walk.goal[1] = 0;
        play_start(play, random_next(&walk.random), true);
        bool good = open_board(play, &walk);
        for (unsigned t = random_between(&walk.random, 20, MOST_TURNS); t > 0 && good; t--) good = turn(play, &walk);
        if (!good || !go_home(play, &walk)) return walk_wrong(play, &walk, n);
    }
    return true;
}
