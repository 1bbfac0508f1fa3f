/* Ticket 13 on networks: "conflict exactly when removing positions without an allowed partner, repeated until none is left to remove, empties some
 * variable; otherwise a position is ruled out exactly when it is removed." The library is told the variables, the tables and the premises, and says
 * what follows from their rows; what is left of the positions is worked out on these alone. The model of the calls has no part in it: no clause has.
 *
 * Premises are held and withdrawn one by one, for either furnace, and after each the furnace is looked at again; the other one's premises are there
 * meanwhile and change nothing. */
#include <stdio.h>
#include <string.h>

#include "cover.h"
#include "network.h"
#include "tries.h"

enum { NETWORKS = 10000, MOST_MOVES = 10, ARCS_MADE = 1 + MOST_ENTERED + MOST_MOVES };

/* A network on the library's board, the premises by what was done, what was left of each furnace's positions last, and the calls made. */
typedef struct Arcs {
    Random random;
    Network network;
    bool held[FURNACES][PLACES];
    Removal removal[FURNACES];
    Step made[ARCS_MADE];
    unsigned count;
} Arcs;

/* Makes a call by the library that has to be done; of a variable or a table the rows are counted too. */
static bool make(Play *play, Arcs *arcs, Step step) {
    unsigned its = step.variables[0].count, others = step.variables[1].count;
    step.noise = random_next(&arcs->random);
    arcs->made[arcs->count++] = step;
    Outcome told = library_call(&step, &play->library_board, &play->theirs);
    unsigned rows = step.kind == POSITIONS ? its * (its - 1) / 2 + 1 : step.kind == PAIRS ? its + others : 0;
    return same(play, "refusal", NONE, told.refusal, 0) && same(play, "rows added", NONE, told.added, rows);
}

/* Numbers of the clause table lent: all, or just the rows in use. */
static size_t lend_some(const Play *play, Arcs *arcs) {
    return random_chance(&arcs->random, 50) ? TABLE_LENDABLE : WIDTH * play->library_board.rows;
}

/* True if settle finds a conflict exactly where a variable is emptied, and else labels every symbol so: 2 for a position that is removed, which the
 * ticket says. That the only position left has 1, and any other symbol 0, follows: nothing else is derived. */
static bool labels_agree(Play *play, Arcs *arcs, const Removal *removal, unsigned furnace) {
    Settled said = library_settle(&play->library_board, play->theirs.table + GUARD, lend_some(play, arcs), furnace);
    uint8_t labels[MOST_SYMBOLS] = {0};
    if (!same(play, "settle, refusal", NONE, said.refusal, 0)) return false;
    bool conflict = memchr(said.labels, 3, arcs->network.symbols) != NULL;
    if (!same(play, "settle, a conflict (model: a variable is emptied)", NONE, conflict, removal->emptied)) return false;
    for (unsigned v = 0; v < arcs->network.variables; v++)
        for (unsigned i = 0; i < arcs->network.variable[v].count; i++) {
            bool left = (removal->left[v] >> i & 1) != 0;
            labels[arcs->network.variable[v].first + i - 1] = !left ? 2 : removal->left[v] == 1u << i ? 1 : 0;
        }
    bool alike = true;
    for (unsigned s = 0; s < arcs->network.symbols && alike && !conflict; s++)
        alike = same(play, "settle, label (model: 2 where the position is removed, 1 where it alone is left)", s, said.labels[s], labels[s]);
    return alike;
}

/* True if both calls that ask answer for a position that it is ruled out exactly where it is removed; where a variable is emptied, that the whole
 * board is in conflict. */
static bool answers_agree(Play *play, Arcs *arcs, const Removal *removal, unsigned furnace, unsigned variable, unsigned position) {
    unsigned symbol = arcs->network.variable[variable].first + position;
    bool removed = (removal->left[variable] >> position & 1) == 0;
    tup_answer whole = tup_ask_whole(play->library_board, play->theirs.table + GUARD, lend_some(play, arcs), (uint8_t)furnace, (int16_t)symbol);
    if (!same(play, "ask whole, refusal", symbol, whole.refusal, 0)) return false;
    if (!same(play, "ask whole, conflict (model: a variable is emptied)", symbol, whole.standing == TUP_CONFLICT, removal->emptied)) return false;
    if (removal->emptied) return true;
    tup_answer answer = tup_ask(play->library_board, play->theirs.table + GUARD, lend_some(play, arcs), (uint8_t)furnace, (int16_t)symbol);
    return same(play, "ask, refusal", symbol, answer.refusal, 0) &&
           same(play, "ask whole, ruled out (model: removed)", symbol, whole.standing == TUP_RULED_OUT, removed) &&
           same(play, "ask, ruled out (model: removed)", symbol, answer.standing == TUP_RULED_OUT, removed);
}

/* True if the library says of a furnace what is left of the positions. Each position is asked for; where a variable is emptied one is enough, since
 * all get the same answer. */
static bool furnace_agrees(Play *play, Arcs *arcs, unsigned furnace, bool fewer) {
    const Network *network = &arcs->network;
    Removal before = arcs->removal[furnace - 1], removal = remove_positions(network, arcs->held[furnace - 1]);
    Seen seen = {furnace, fewer, arcs->held[furnace - 1], &removal, &before, &arcs->removal[2 - furnace]};
    arcs->removal[furnace - 1] = removal;
    if (!labels_agree(play, arcs, &removal, furnace)) return false;
    for (unsigned v = 0; v < network->variables; v++)
        for (unsigned i = 0; i < network->variable[v].count; i++) {
            if (!answers_agree(play, arcs, &removal, furnace, v, i)) return false;
            if (removal.emptied) v = network->variables - 1, i = MOST_POSITIONS;
        }
    cover_seen(network, &seen);
    return true;
}

/* A literal of a position that the furnace does not hold; now and then the opposite of one that it holds. */
static int draw_literal_of(Arcs *arcs, const bool held[PLACES]) {
    Random *random = &arcs->random;
    bool opposite = random_chance(random, 12);
    int literal = 0;
    for (unsigned tries = 0; tries < 60; tries++) {
        const Variable *its = &arcs->network.variable[random_below(random, arcs->network.variables)];
        int symbol = (int)(its->first + random_below(random, its->count));
        literal = random_chance(random, 30) ? symbol : -symbol;
        if (!held[place_of(literal)] && (!opposite || held[place_of(-literal)])) return literal;
    }
    return held[place_of(literal)] ? -literal : literal;
}

/* Holds a premise for a furnace, or withdraws one, and looks at it again. Where both signs of the literal drawn are held, one of them goes. */
static bool move(Play *play, Arcs *arcs) {
    Random *random = &arcs->random;
    unsigned furnace = 1 + random_below(random, FURNACES), count = 0, place = 0;
    bool *held = arcs->held[furnace - 1];
    for (unsigned p = 0; p < PLACES; p++)
        if (held[p] && random_below(random, ++count) == 0) place = p;
    int literal = count > 0 && random_chance(random, 35) ? literal_at(place) : draw_literal_of(arcs, held);
    bool *premise = &held[place_of(literal)];
    Step step = try_step(*premise ? WITHDRAW : HOLD, furnace, literal);
    *premise = !*premise;
    return make(play, arcs, step) && furnace_agrees(play, arcs, furnace, step.kind == WITHDRAW);
}

/* Says in words on which network the library is wrong, after which calls, and what should be left; false, so that the caller can return it. */
static bool arcs_wrong(const Play *play, const Arcs *arcs, unsigned number) {
    printf("second: positions removed, network %u, after these calls:\n", number);
    for (unsigned i = 0; i < arcs->count; i++) print_step(&arcs->made[i], i + 1);
    printf("  %s\n", play->difference);
    for (unsigned f = 0; f < FURNACES; f++) {
        printf("  left for furnace %u, where it was looked at last:", f + 1);
        for (unsigned v = 0; v < arcs->network.variables; v++)
            for (unsigned i = 0; i < arcs->network.variable[v].count; i++)
                if (arcs->removal[f].left[v] >> i & 1) printf(" %u", arcs->network.variable[v].first + i);
        printf("\n");
    }
    return false;
}

/* Enters a network and looks at both furnaces, with nothing held and after each of some moves. */
static bool network_agrees(Play *play, Arcs *arcs) {
    Random *random = &arcs->random;
    unsigned sort = random_below(random, 100), symbols = random_between(random, 4, sort < 35 ? 16 : 44);
    if (sort >= 90) symbols = sort >= 95 ? MOST_SYMBOLS : random_between(random, 41, MOST_SYMBOLS);
    draw_network(random, symbols, &arcs->network);
    arcs->count = 0;
    memset(arcs->held, 0, sizeof arcs->held);
    play_start(play, random_next(random), true);
    bool good = make(play, arcs, try_step(OPEN, 0, (int)symbols));
    for (unsigned n = 0; n < arcs->network.variables + arcs->network.links; n++) good = good && make(play, arcs, arcs->network.steps[n]);
    for (unsigned f = 1; f <= FURNACES; f++) arcs->removal[f - 1] = remove_positions(&arcs->network, arcs->held[f - 1]);
    for (unsigned f = 1; f <= FURNACES; f++) good = good && furnace_agrees(play, arcs, f, false);
    for (unsigned moves = random_between(random, 1, MOST_MOVES); moves > 0 && good; moves--) good = move(play, arcs);
    if (good) cover_network(&arcs->network);
    return good;
}

/* True if the library removes positions on all networks as it should. */
bool arcs_agree(Play *play, uint64_t seed) {
    static Arcs arcs;
    for (unsigned n = 0; n < NETWORKS; n++) {
        arcs.random = random_for(seed ^ 0x76616C766573, n);
        if (!network_agrees(play, &arcs)) return arcs_wrong(play, &arcs, n);
    }
    return true;
}
