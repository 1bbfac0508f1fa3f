/* Valves with several positions. Limit switches of two regenerative furnaces go to the board one after another, and each valve that changes is
 * printed: how each of its positions stands, and for one that is ruled out the rule or the reading that does it. A reading that leaves a valve no
 * position is a conflict: the premises to blame are named, and the least to withdraw is withdrawn. After each change the positions are worked out
 * again without the board. Ends with 1 where the two disagree, and with 2 where a call is refused.
 * For valves of your own, change the section "The plant": what is below it names no valve. */
#include "checks.h"

/* ---- The plant ---- */

/* The symbols are positions, those of a valve one after another. Left and right are the port that fires, and the port that the gas goes to. */
enum { FIRING_LEFT = 1, NEUTRAL, FIRING_RIGHT, GAS_LEFT, GAS_SHUT, GAS_RIGHT, DAMPER_OPEN, DAMPER_SHUT, SYMBOLS = DAMPER_SHUT };
static const char *const names[] = {"", "firing left", "neutral", "firing right", "gas left", "gas shut", "gas right", "damper open", "damper shut"};

/* The valves, in the order of their symbols. Those whose switches are trusted most come first: see end_conflict. */
enum { REVERSING, GAS, DAMPER, VALVES, TABLES = 2 };
static const struct valve { const char *name; uint16_t first, count; } valves[VALVES] = {
    {"reversing valve", FIRING_LEFT, 3}, {"gas valve", GAS_LEFT, 3}, {"air damper", DAMPER_OPEN, 2}};

/* The pair tables: for each position of the first valve the set of the other's that it may stand with, of which 1, 2 and 4 are the first three. */
#define PAIRS(a, b, c) ((uint64_t)(a) | (uint64_t)(b) << 7 | (uint64_t)(c) << 14)
static const struct pair_table { int first, other; uint64_t pairs; } tables[TABLES] = {
    {REVERSING, GAS, PAIRS(1 | 2, 2, 2 | 4)}, /* gas goes to the port that fires, or nowhere */
    {DAMPER, GAS, PAIRS(1 | 2 | 4, 2, 0)}};   /* and nowhere without air */

/* The rules by their numbers: of a pair table one for each position of the first valve, then of the other; of a valve one. The tables are entered
 * first, since of the rows that rule a position out in the same round explain tells the lowest, and the tables say more. */
static const char *const sentences[] = {
    "", "firing left, gas goes left or is shut", "in neutral the gas is shut", "firing right, gas goes right or is shut",
    "gas to the left needs the valve to fire left", "with the gas shut the valve has a position", "gas to the right needs the valve to fire right",
    "with the damper open the gas valve has a position", "with the damper shut the gas is shut",
    "gas to the left needs air", "with the gas shut the damper has a position", "gas to the right needs air",
    "one position only", "one position only", "one position only", "a reading"};
enum { READING = sizeof sentences / sizeof sentences[0] - 1, RULES = READING - 1 };

/* A switch that is made says that the valve is there, +s; one that is not made says that it is not, -s. */
static const struct step { uint8_t furnace; enum { HOLD, WITHDRAW, LEAST } what; int16_t literal; } steps[] = {
    {1, HOLD, FIRING_LEFT}, {1, HOLD, -GAS_SHUT},
    {2, HOLD, -GAS_SHUT}, {2, HOLD, -FIRING_LEFT}, /* the reversing valve is found with none of its switches made */
    {2, HOLD, -GAS_RIGHT},                         /* any two of these three go together; all of them leave the gas no way */
    {1, WITHDRAW, -GAS_SHUT}, {1, WITHDRAW, FIRING_LEFT}, {1, HOLD, NEUTRAL}, {1, WITHDRAW, NEUTRAL}, {1, HOLD, FIRING_RIGHT}}; /* reversing */

/* ---- The board ---- */
enum { NUMBERS = 64 * TUP_ROW_WIDTH, PLACES = 2 * SYMBOLS };
static tup_board board;
static int16_t table[NUMBERS];
static tup_stacks stacks;                         /* nothing is tried here: they stay empty */
static uint8_t held[TUP_FURNACES][PLACES];        /* kept beside the board's premises, so that the check leans on nothing of the board */
static uint16_t shown[TUP_FURNACES][SYMBOLS + 1]; /* the sentence by which the position is ruled out, or 0 */

/* Prints a valve where its positions are not ruled out as they were. A position is ruled out by what derives the opposite of its literal. */
static void show(uint8_t furnace, const struct valve *v) {
    static const char *const words[] = {"possible", "stands", "ruled out", "in conflict"};
    uint16_t *by = shown[furnace - 1];
    int end = v->first + v->count, changed = 0;
    for (int p = v->first; p < end; p++) {
        tup_reason reason = tup_explain(board, table, NUMBERS, furnace, (int16_t)-p);
        must("tup_explain", reason.refusal == TUP_NOTHING_TO_SHOW ? TUP_DONE : reason.refusal); /* held, or not derived: the rule is 0 */
        uint16_t now = held[furnace - 1][2 * p - 1] ? READING : reason.rule;
        changed |= now != by[p];
        by[p] = now;
    }
    if (changed) {
        printf("  furnace %d, %s", furnace, v->name);
        for (int p = v->first; p < end; p++) {
            tup_answer answer = tup_ask(board, table, NUMBERS, furnace, (int16_t)p);
            must("tup_ask", answer.refusal);
            printf("%s %s %s", p == v->first ? ":" : ",", names[p], words[answer.standing]);
            printf("%s%s%s", by[p] ? " (" : "", sentences[by[p]], by[p] ? ")" : "");
        }
        printf("\n");
    }
}

/* Removes positions without a partner in a table until there is none to remove: each pass over the tables removes one or is the last. */
static void remove_positions(const uint8_t premises[PLACES], unsigned left[VALVES]) {
    for (int v = 0; v < VALVES; v++) {
        left[v] = (1u << valves[v].count) - 1;
        for (int i = 0; i < valves[v].count; i++) {
            const uint8_t *is = premises + 2 * (valves[v].first + i - 1);
            left[v] &= (is[0] ? 1u << i : ~0u) & (is[1] ? ~(1u << i) : ~0u);
        }
    }
    for (int turn = 0; turn < SYMBOLS * TABLES; turn++) {
        const struct pair_table *t = &tables[turn % TABLES];
        unsigned first = 0, other = 0;
        for (int i = 0; i < TUP_MOST_POSITIONS; i++) {
            unsigned partners = (left[t->first] >> i & 1) != 0 ? (unsigned)(t->pairs >> 7 * i) & left[t->other] : 0;
            first |= (unsigned)(partners != 0) << i;
            other |= partners;
        }
        left[t->first] = first;
        left[t->other] = other;
    }
}

/* In a conflict only the whole board is asked: of the positions one by one nothing is promised then. */
static void check_positions(uint8_t furnace) {
    unsigned left[VALVES], emptied = 0;
    remove_positions(held[furnace - 1], left);
    for (int v = 0; v < VALVES; v++) {
        emptied |= left[v] == 0;
    }
    for (int v = 0, p = 1; p <= SYMBOLS; p++) {
        v += p == valves[v].first + valves[v].count; /* the valve of p */
        unsigned it = 1u << (p - valves[v].first);
        int expected = emptied ? TUP_CONFLICT : (left[v] & it) == 0 ? TUP_RULED_OUT : left[v] == it ? TUP_STANDS : TUP_OPEN;
        for (unsigned whole = emptied; whole <= 1; whole++) {
            tup_answer answer = (whole ? tup_ask_whole : tup_ask)(board, table, NUMBERS, furnace, (int16_t)p);
            must(whole ? "tup_ask_whole" : "tup_ask", answer.refusal);
            check(whole ? "tup_ask_whole for furnace" : "tup_ask for furnace", furnace, names[p], answer.standing, expected);
        }
    }
}

static void change(struct step e) {
    static const char *const words[] = {"held", "withdrawn", "withdrawn as the least that ends the conflict"};
    tup_change done = e.what == HOLD ? tup_hold(board, table, NUMBERS, e.furnace, e.literal)
                                     : tup_withdraw(board, table, NUMBERS, &stacks, e.furnace, e.literal);
    must(e.what == HOLD ? "tup_hold" : "tup_withdraw", done.refusal);
    board = done.board;
    held[e.furnace - 1][2 * abs(e.literal) - (e.literal > 0 ? 2 : 1)] = e.what == HOLD;
    printf("furnace %d, %s: %s%s\n", e.furnace, words[e.what], e.literal < 0 ? "not " : "", names[abs(e.literal)]);
    for (uint8_t furnace = 1; furnace <= TUP_FURNACES; furnace++) {
        for (int v = 0; v < VALVES; v++) {
            show(furnace, &valves[v]);
        }
        check_positions(furnace);
    }
}

/* Names the premises to blame, and withdraws the least. All that is held may be struck off; the last valve's come first, as most in doubt. */
static void end_conflict(uint8_t furnace) {
    uint8_t marks[PLACES], refusal = tup_blame(board, table, NUMBERS, furnace, marks, PLACES);
    if (refusal == TUP_NOTHING_TO_SHOW) {
        return;
    }
    must("tup_blame", refusal);
    const char *before = "  conflict, to blame: ";
    int16_t candidates[PLACES];
    size_t count = 0;
    for (int place = PLACES - 1; place >= 0; place--) {
        if (marks[place]) {
            printf("%s%s%s", before, place % 2 == 0 ? "" : "not ", names[place / 2 + 1]);
            before = ", ";
        }
        if (held[furnace - 1][place]) {
            candidates[count++] = (int16_t)(place % 2 == 0 ? place / 2 + 1 : -(place / 2 + 1));
        }
    }
    printf("\n");
    tup_withdrawal least = tup_least(board, table, NUMBERS, furnace, candidates, count);
    must("tup_least", least.refusal);
    for (size_t i = 0; i < count; i++) {
        if ((least.set >> i & 1) != 0) {
            change((struct step){furnace, LEAST, candidates[i]});
        }
    }
}

int main(void) {
    tup_change opened = tup_open(SYMBOLS, &stacks);
    must("tup_open", opened.refusal);
    board = opened.board;
    for (int i = 0; i < TABLES; i++) {
        const struct valve *a = &valves[tables[i].first], *b = &valves[tables[i].other];
        tup_addition added = tup_add_pairs(board, table, NUMBERS, a->first, a->count, b->first, b->count, tables[i].pairs);
        must("tup_add_pairs", added.refusal);
        board = added.board;
    }
    for (int v = 0; v < VALVES; v++) {
        tup_addition added = tup_add_positions(board, table, NUMBERS, valves[v].first, valves[v].count);
        must("tup_add_positions", added.refusal);
        board = added.board;
    }
    check("rules on board", 1, "as many as sentences", board.rules, RULES); /* or a number would lead to a wrong sentence */
    for (size_t i = 0; i < sizeof steps / sizeof steps[0]; i++) {
        change(steps[i]);
        end_conflict(steps[i].furnace);
    }
    printf("%d checks: positions removed without the board, and the board agrees\n", checks);
    return 0;
}
