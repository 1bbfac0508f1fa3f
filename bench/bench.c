/* The measure: open, rule, every call that names a furnace, and DIMACS text in and out through the library, against the same by hand in plain C
 * (bench/plain.c and bench/dimacs.c), and settle, both asks and ground against plain C with an index of the rows by literal (bench/indexed.c);
 * "whole" is ask_whole. Then the smallest sets against the same search over the indexed ask_whole (bench/sets.c), the least to withdraw against the
 * same search over the indexed blame (bench/least.c), and rules from formula text against the same rules from their bytes (bench/spelt.c).
 *
 * All sides in one program, one process, same inputs, same outputs (compared first), calls by the same kind of pointer.
 * A figure is the best of several runs, the sides taking turns within each run; times are the processor's, not the wall's.
 * "other" is another way in plain C: settle by the index with the exclusive or of the places left of each row, where "indexed" looks at the row;
 * reading in one pass with the rows kept aside, where "plain" tests the text in a pass of its own; the least by trying set after set by size, where
 * "indexed" passes over those that leave a conflict already found.
 * A withdraw has the stacks empty; a push, and a pop, has all premises of the furnace on its stack. Ahead of each push and pop the record is put back
 * as it was, by two numbers, since the one before changed it: that is in the times of both sides. */
#include <math.h>
#include <stdbool.h>
#include <stdio.h>
#include <stdlib.h>
#include <string.h>

#include "boards.h"
#include "indexed.h"
#include "least.h"
#include "plain.h"
#include "sets.h"
#include "spelt.h"
#include "timing.h"

enum { OPEN, SETTLE, ASK, ASK_WHOLE, EXPLAIN, GROUND, BLAME, HOLD, WITHDRAW, PUSH, POP, RULE, READ, WRITE, SMALLEST, LEAST, CALLS };
enum { LIBRARY, PLAIN, INDEXED, OTHER, SIDES };

typedef struct side {
    tup_change (*open)(uint16_t, tup_stacks *);
    uint8_t (*settle)(tup_board, const int16_t *, size_t numbers, uint8_t furnace, uint8_t *, size_t, uint16_t *, size_t, uint16_t *, size_t);
    tup_answer (*ask)(tup_board, const int16_t *, size_t numbers, uint8_t furnace, int16_t);
    tup_answer (*ask_whole)(tup_board, const int16_t *, size_t numbers, uint8_t furnace, int16_t);
    tup_reason (*explain)(tup_board, const int16_t *, size_t numbers, uint8_t furnace, int16_t);
    uint8_t (*ground)(tup_board, const int16_t *, size_t numbers, uint8_t furnace, int16_t, uint8_t *, size_t);
    uint8_t (*blame)(tup_board, const int16_t *, size_t numbers, uint8_t furnace, uint8_t *, size_t);
    tup_change (*hold)(tup_board, const int16_t *, size_t numbers, uint8_t furnace, int16_t);
    tup_change (*withdraw)(tup_board, const int16_t *, size_t numbers, tup_stacks *, uint8_t furnace, int16_t);
    tup_change (*push)(tup_board, const int16_t *, size_t numbers, tup_stacks *, uint8_t furnace, int16_t);
    tup_change (*pop)(tup_board, const int16_t *, size_t numbers, tup_stacks *, uint8_t furnace);
    tup_addition (*rule)(tup_board, int16_t *, size_t numbers, const uint8_t *, size_t);
    tup_reading (*read)(tup_board, int16_t *, size_t numbers, const uint8_t *, size_t);
    tup_writing (*write)(tup_board, const int16_t *, size_t numbers, uint8_t *, size_t);
    tup_listing (*smallest)(tup_board, const int16_t *, size_t numbers, const int16_t *, size_t, int16_t, uint16_t *, size_t);
    tup_withdrawal (*least)(tup_board, const int16_t *, size_t numbers, uint8_t furnace, const int16_t *, size_t);
} side;

static const side sides[SIDES] = {
    {tup_open, tup_settle, tup_ask, tup_ask_whole, tup_explain, tup_ground, tup_blame, tup_hold, tup_withdraw, tup_push, tup_pop, tup_rule,
     tup_read_dimacs, tup_write_dimacs, tup_smallest, tup_least},
    {plain_open, plain_settle, plain_ask, plain_ask_whole, plain_explain, plain_ground, plain_blame, plain_hold, plain_withdraw, plain_push,
     plain_pop, plain_rule, plain_read_dimacs, plain_write_dimacs, NULL, NULL},
    {.settle = indexed_settle, .ask = indexed_ask, .ask_whole = indexed_ask_whole, .ground = indexed_ground, .smallest = indexed_smallest,
     .least = indexed_least},
    {.settle = indexed_settle_summing, .read = plain_read_dimacs_once, .least = indexed_least_in_turn},
};
static const char *const side_words[SIDES] = {"library", "plain", "indexed", "other"};
static const char *const call_words[CALLS] = {"open", "settle", "ask", "whole", "explain", "ground", "blame", "hold", "withdraw", "push", "pop",
                                              "rule", "read", "write", "smallest", "least"};
static const char *const conflict_words[CONFLICTS] = {"one conflict", "three conflicts", "six of opposites", "many cores", "no conflict",
                                                      "one that stays"};

/* All that calls write, and what is compared of what they return. */
typedef struct outputs {
    uint8_t labels[TUP_MOST_SYMBOLS], marks[TUP_PLACES];
    uint16_t ranks[TUP_PLACES], supports[TUP_PLACES];
    int16_t table[NUMBERS];
    uint8_t text[TUP_MOST_TEXT];
    uint16_t sets[TUP_MOST_SETS];
    tup_board board;
    tup_stacks stacks;
    tup_reason reason;
    uint8_t refusal;
    uint16_t clauses;
    size_t place;
    unsigned result;
} outputs;

static volatile unsigned sink;

/* The goals set for ticket 3, and how far they are met: the library's largest ratio to the index by hand, and the chain's last exponent. */
static const double ratio_goal = 1.3, growth_goal = 1.1;
static double worst_ratio, chain_growth;
static const char *worst_board, *worst_call;

/* The goals set for ticket 10, and how far they are met: the same ratio for the smallest sets, and their time on the typical board. */
static const double typical_goal_ms = 100;
static double worst_sets_ratio, typical_sets_ms;
static const char *worst_sets_board;

/* The same goals for the least to withdraw. */
static double worst_least_ratio, typical_least_ms;
static const char *worst_least_board, *worst_least_conflict;

/* ---- Measuring ---- */

/* Notes the refusal of an answer; how the literal stands. */
static unsigned made_answer(tup_answer answer, outputs *out) {
    out->refusal = answer.refusal;
    return answer.standing;
}

/* Takes the board over, as a caller does; the refusal. */
static unsigned made_change(tup_change change, outputs *out) {
    out->board = change.board;
    return change.refusal;
}

/* Notes the whole answer of an explain; its row. */
static unsigned made_reason(tup_reason reason, outputs *out) {
    out->reason = reason;
    return reason.row;
}

/* Notes the whole answer of a rule; the rows that it added. */
static unsigned made_rule(tup_addition addition, outputs *out) {
    out->refusal = addition.refusal;
    out->place = addition.place;
    out->board = addition.board;
    return addition.added;
}

/* Notes the whole answer of a reading; the rows that it added. */
static unsigned made_reading(tup_reading reading, outputs *out) {
    out->refusal = reading.refusal;
    out->clauses = reading.clauses;
    out->board = reading.board;
    return reading.added;
}

/* Notes the refusal of a writing; the bytes that it wrote. */
static unsigned made_writing(tup_writing writing, outputs *out) {
    out->refusal = writing.refusal;
    return (unsigned)writing.bytes;
}

/* Notes the refusal of a listing; the sets that it listed. */
static unsigned made_listing(tup_listing listing, outputs *out) {
    out->refusal = listing.refusal;
    return (unsigned)listing.count;
}

/* Notes the refusal of a withdrawal; its set. */
static unsigned made_withdrawal(tup_withdrawal withdrawal, outputs *out) {
    out->refusal = withdrawal.refusal;
    return withdrawal.set;
}

/* The stacks that a push or a pop is given. They match the board that it is given, so what the one before changed is put back. */
static tup_stacks *stacks_for(outputs *out) {
    tup_stack *stack = &out->stacks.of[FURNACE - 1];
    const tup_stack *before = &now.stacks.of[FURNACE - 1];
    stack->count = before->count;
    if (before->count != 0) stack->literals[before->count - 1] = before->literals[before->count - 1];
    return &out->stacks;
}

/* Makes one call on one side. */
static unsigned make(const side *with, unsigned call, outputs *out, int16_t *table) {
    switch (call) {
    case OPEN: return made_change(with->open(now.board.symbols, &out->stacks), out);
    case SETTLE:
        return with->settle(now.board, table, NUMBERS, FURNACE, out->labels, sizeof out->labels, out->ranks, TUP_PLACES, out->supports, TUP_PLACES);
    case ASK: return made_answer(with->ask(now.board, table, NUMBERS, FURNACE, now.literal), out);
    case ASK_WHOLE: return made_answer(with->ask_whole(now.board, table, NUMBERS, FURNACE, now.literal), out);
    case EXPLAIN: return made_reason(with->explain(now.board, table, NUMBERS, FURNACE, now.literal), out);
    case GROUND: return with->ground(now.board, table, NUMBERS, FURNACE, now.literal, out->marks, sizeof out->marks);
    case BLAME: return with->blame(now.board, table, NUMBERS, FURNACE, out->marks, sizeof out->marks);
    case HOLD: return made_change(with->hold(now.board, table, NUMBERS, FURNACE, now.literal), out);
    case WITHDRAW: return made_change(with->withdraw(now.board, table, NUMBERS, &out->stacks, FURNACE, now.premise), out);
    case PUSH: return made_change(with->push(now.board, table, NUMBERS, stacks_for(out), FURNACE, now.literal), out);
    case POP: return made_change(with->pop(now.board, table, NUMBERS, stacks_for(out), FURNACE), out);
    case RULE: return made_rule(with->rule(now.board, table, NUMBERS, now.formula, now.bytes), out);
    case READ: return made_reading(with->read(now.board, table, NUMBERS, now.text, now.text_bytes), out);
    case WRITE: return made_writing(with->write(now.board, table, NUMBERS, out->text, sizeof out->text), out);
    case SMALLEST:
        return made_listing(with->smallest(now.board, table, NUMBERS, now.candidates, TUP_MOST_CANDIDATES, now.literal, out->sets, TUP_MOST_SETS),
                            out);
    default: return made_withdrawal(with->least(now.board, table, NUMBERS, FURNACE, now.candidates, TUP_MOST_CANDIDATES), out);
    }
}

/* True if the side has the call. */
static bool has(const side *with, unsigned call) {
    switch (call) {
    case OPEN: return with->open != NULL;
    case SETTLE: return with->settle != NULL;
    case ASK: return with->ask != NULL;
    case ASK_WHOLE: return with->ask_whole != NULL;
    case EXPLAIN: return with->explain != NULL;
    case GROUND: return with->ground != NULL;
    case BLAME: return with->blame != NULL;
    case HOLD: return with->hold != NULL;
    case WITHDRAW: return with->withdraw != NULL;
    case PUSH: return with->push != NULL;
    case POP: return with->pop != NULL;
    case RULE: return with->rule != NULL;
    case READ: return with->read != NULL;
    case WRITE: return with->write != NULL;
    case SMALLEST: return with->smallest != NULL;
    default: return with->least != NULL;
    }
}

/* Ends the program if a side writes or returns anything else than the library. */
static void compare_sides(unsigned call) {
    static outputs first, other;
    for (unsigned s = 0; s < SIDES; s++) {
        if (!has(&sides[s], call)) continue;
        outputs *out = s == 0 ? &first : &other;
        memset(out, 0xA5, sizeof *out);
        memcpy(out->table, now.table, sizeof out->table);
        if (call != OPEN) out->stacks = now.stacks; /* an open may be lent any bytes */
        out->result = make(&sides[s], call, out, out->table);
        if (s == 0 || memcmp(&first, &other, sizeof first) == 0) continue;
        fprintf(stderr, "bench: %s differs in %s\n", side_words[s], call_words[call]);
        exit(1);
    }
}

/* Nanoseconds for one call, over so many. */
static double time_calls(const side *with, unsigned call, unsigned count) {
    static outputs out;
    out.stacks = now.stacks;
    double begin = clock_ns();
    for (unsigned i = 0; i < count; i++) sink += make(with, call, &out, now.table);
    return (clock_ns() - begin) / count;
}

/* How many calls take long enough to be timed. */
static unsigned batch(const side *with, unsigned call) {
    unsigned count = 1;
    while (count < 1u << 20 && time_calls(with, call, count) * count < BATCH_NS) count *= 2;
    return count;
}

/* The best time of each side, the sides taking turns. */
static void measure(unsigned call, double best[SIDES]) {
    unsigned count[SIDES] = {0};
    compare_sides(call);
    for (unsigned s = 0; s < SIDES; s++) {
        best[s] = INFINITY;
        if (has(&sides[s], call)) count[s] = batch(&sides[s], call);
    }
    for (unsigned run = 0; run < RUNS; run++)
        for (unsigned s = 0; s < SIDES; s++)
            if (count[s] != 0) best[s] = fmin(best[s], time_calls(&sides[s], call, count[s]));
}

/* ---- Tables ---- */

/* Keeps the largest ratio to the index by hand. */
static void note_ratio(const char *board, unsigned call, double ratio) {
    if (ratio <= worst_ratio) return;
    worst_ratio = ratio;
    worst_board = board;
    worst_call = call_words[call];
}

/* Measures one call on the setting and prints a line: for each side but the library its time and the library's ratio to it, or blanks. */
static void print_call(const char *board, unsigned call) {
    double best[SIDES];
    int blanks = 0;
    measure(call, best);
    printf("%-28s%-8s%14.1f", board, call_words[call], best[LIBRARY]);
    for (unsigned s = PLAIN; s < SIDES; s++) {
        if (has(&sides[s], call)) printf("%*s%14.1f%9.2f", blanks, "", best[s], best[LIBRARY] / best[s]);
        blanks = has(&sides[s], call) ? 0 : blanks + 23;
    }
    printf("\n");
    if (has(&sides[INDEXED], call)) note_ratio(board, call, best[LIBRARY] / best[INDEXED]);
}

/* Measures a push and a pop, with all premises on the stack. The setting stays as it is. */
static void print_stacked(const char *board) {
    tup_stacks before = now.stacks;
    stack_premises();
    print_call(board, PUSH), print_call(board, POP);
    now.stacks = before;
}

/* Measures the calls that name a furnace on the setting, which stays as it is; blame with a conflict, in which both asks are compared too. */
static void print_named(const char *board) {
    tup_board before = now.board;
    for (unsigned call = SETTLE; call <= WITHDRAW; call++)
        if (call != BLAME) print_call(board, call);
    print_stacked(board);
    in_conflict();
    compare_sides(ASK), compare_sides(ASK_WHOLE);
    print_call(board, BLAME);
    now.board = before;
}

/* Measures what can be done on a board without rows and premises. */
static void print_empty(void) {
    static const unsigned calls[] = {OPEN, SETTLE, ASK, ASK_WHOLE, HOLD, PUSH, RULE};
    empty_board();
    for (unsigned i = 0; i < sizeof calls / sizeof calls[0]; i++) print_call("empty, 200 symbols", calls[i]);
}

/* The table of calls. */
static void print_calls(void) {
    printf("%-28s%-8s%14s", "ns per call", "call", side_words[LIBRARY]);
    for (unsigned s = PLAIN; s < SIDES; s++) printf("%14s%9s", side_words[s], "ratio");
    printf("\n");
    full_board(false), print_named("full, 2,048 rows of 2 to 4");
    full_board(true), print_call("full but for one row", RULE);
    chain(200), print_named("chain of 200"), print_call("chain of 200", RULE);
    long_rows(false), print_named("2,048 rows of 8");
    long_rows(true), print_call("2,047 rows of 8", RULE);
    typical(), print_named("typical, 150 rows");
    chain(8), print_named("chain of 8"), print_call("chain of 8", RULE);
    parity_rule(), print_call("parity of 8 symbols", RULE);
    print_empty();
    deep_stack(), print_call("399 premises stacked", PUSH), print_call("399 premises stacked", POP);
    full_board(false), print_call("full, 2,048 rows of 2 to 4", WRITE), as_text(), print_call("text of 2,048 of 2 to 4", READ);
    long_rows(false), print_call("2,048 rows of 8", WRITE), as_text(), print_call("text of 2,048 of 8", READ);
}

/* Measures the smallest sets on the setting, prints a line, and returns the library's time in milliseconds. The propagations are those of indexed. */
static double print_smallest(const char *board) {
    static outputs out;
    double best[SIDES];
    measure(SMALLEST, best);
    unsigned count = make(&sides[INDEXED], SMALLEST, &out, now.table);
    if (out.refusal != 0) {
        fprintf(stderr, "bench: smallest is refused, %u\n", out.refusal);
        exit(1);
    }
    double ratio = best[LIBRARY] / best[INDEXED];
    printf("%-36s%14.1f%14.1f%9.2f%9u%14u\n", board, best[LIBRARY], best[INDEXED], ratio, count, sets_propagated());
    if (ratio > worst_sets_ratio) {
        worst_sets_ratio = ratio;
        worst_sets_board = board;
    }
    return best[LIBRARY] / 1e6;
}

/* The table of the smallest sets. */
static void print_sets(void) {
    printf("\nthe smallest sets of 12 candidates: ns per call, sets listed, and sets held alone and propagated\n");
    printf("%-36s%14s%14s%9s%9s%14s\n", "", side_words[LIBRARY], side_words[INDEXED], "ratio", "listed", "propagated");
    typical_sets(), typical_sets_ms = print_smallest("typical, 150 rows");
    typical(), no_sets(), typical_sets_ms = fmax(typical_sets_ms, print_smallest("typical, 150 rows, no set"));
    full_sets(), print_smallest("full, 2,048 rows of 2 to 4");
    full_board(false), no_sets(), print_smallest("full, 2,048 rows of 2 to 4, no set");
}

/* The set of the least on the setting, TUP_NONE where it is refused; how many sets each way in plain C propagated. Ends the program where the
 * conflict is not as its kind says. */
static unsigned least_found(unsigned kind, unsigned propagated[SIDES]) {
    static outputs out;
    unsigned set = TUP_NONE;
    for (unsigned s = INDEXED; s <= OTHER; s++) {
        set = make(&sides[s], LEAST, &out, now.table);
        propagated[s] = least_propagated();
    }
    if (out.refusal == (kind == LASTING_CONFLICT ? TUP_CONFLICT_STAYS : TUP_DONE) && (set == 0) == (kind == NO_CONFLICT)) return set;
    fprintf(stderr, "bench: least, %s: refusal %u, set %u\n", conflict_words[kind], out.refusal, set);
    exit(1);
}

/* Measures the least on the setting, prints a line, and returns the library's time in milliseconds. */
static double print_least(const char *board, unsigned kind) {
    double best[SIDES];
    unsigned propagated[SIDES];
    char size[16] = "refused";
    measure(LEAST, best);
    unsigned set = least_found(kind, propagated);
    if (set != TUP_NONE) snprintf(size, sizeof size, "%u", set_size(set));
    double ratio = best[LIBRARY] / best[INDEXED];
    printf("%-28s%-18s%14.1f%14.1f%9.2f%14.1f%9.2f%9s%12u%9u\n", board, conflict_words[kind], best[LIBRARY], best[INDEXED], ratio, best[OTHER],
           best[LIBRARY] / best[OTHER], size, propagated[INDEXED], propagated[OTHER]);
    if (ratio > worst_least_ratio) {
        worst_least_ratio = ratio;
        worst_least_board = board;
        worst_least_conflict = conflict_words[kind];
    }
    return best[LIBRARY] / 1e6;
}

/* The table of the least to withdraw. */
static void print_leasts(void) {
    printf("\nthe least of 12 candidates to withdraw: ns per call, candidates in the answer, and sets withdrawn and propagated, by indexed and by\n");
    printf("other; the library's are those of indexed\n");
    printf("%-46s%14s%14s%9s%14s%9s%9s%12s%9s\n", "", side_words[LIBRARY], side_words[INDEXED], "ratio", side_words[OTHER], "ratio", "least",
           "propagated", "other");
    for (unsigned kind = 0; kind < CONFLICTS; kind++)
        typical_conflicts(kind), typical_least_ms = fmax(typical_least_ms, print_least("typical, 150 rows", kind));
    for (unsigned kind = 0; kind < CONFLICTS; kind++) full_conflicts(kind), print_least("full, 2,048 rows of 2 to 4", kind);
}

/* Prints the head of a table of sizes: the sides that have the call. */
static void print_sizes_head(const char *size, unsigned call) {
    printf("%8s", size);
    for (unsigned s = 0; s < SIDES; s++)
        if (has(&sides[s], call)) printf("%14s%9s", side_words[s], "");
    printf("\n");
}

/* The table of reading by bytes: linear where the time of a byte stays as it is. */
static void print_bytes(void) {
    printf("\nread by bytes of the text: ns, and ns a byte\n");
    printf("%8s", "rows");
    print_sizes_head("bytes", READ);
    for (unsigned rows = 256; rows <= TUP_MOST_ROWS; rows *= 2) {
        double best[SIDES];
        text_of(rows);
        measure(READ, best);
        printf("%8u%8zu", rows, now.text_bytes);
        for (unsigned s = 0; s < SIDES; s++)
            if (has(&sides[s], READ)) printf("%14.1f%9.3f", best[s], best[s] / (double)now.text_bytes);
        printf("\n");
    }
}

/* Prints one line of growth: the times, and the exponent since the line before. Returns the library's. */
static double print_growth(unsigned size, unsigned before, double last[SIDES]) {
    double best[SIDES], exponent[SIDES];
    measure(SETTLE, best);
    printf("%8u", size);
    for (unsigned s = 0; s < SIDES; s++) {
        exponent[s] = before == 0 ? 0 : log(best[s] / last[s]) / log((double)size / before);
        last[s] = best[s];
        printf("%14.1f", best[s]);
        if (before == 0) printf("%9s", "");
        else printf("%9.2f", exponent[s]);
    }
    printf("\n");
    return exponent[LIBRARY];
}

/* The tables of growth. */
static void print_growths(void) {
    double last[SIDES];
    printf("\nsettle by rows, nine rounds: ns, and the exponent since the line before\n");
    print_sizes_head("rows", SETTLE);
    for (unsigned rows = 128, before = 0; rows <= TUP_MOST_ROWS; before = rows, rows *= 2) many_rows(rows), print_growth(rows, before, last);
    printf("\nsettle by symbols of a chain, rounds and rows growing alike\n");
    print_sizes_head("symbols", SETTLE);
    for (unsigned symbols = 25, before = 0; symbols <= 200; before = symbols, symbols *= 2)
        chain(symbols), chain_growth = print_growth(symbols, before, last);
}

/* Says which goals are met. */
static void print_goals(void) {
    printf("\ngoals: settle, both asks and ground at most %.1f times indexed on every board: %s (at most %.2f, %s on %s);\n", ratio_goal,
           worst_ratio <= ratio_goal ? "met" : "not met", worst_ratio, worst_call, worst_board);
    printf("the chain's exponent at most %.1f over the last doubling: %s (%.2f);\n", growth_goal, chain_growth <= growth_goal ? "met" : "not met",
           chain_growth);
    printf("the smallest sets of 12 candidates at most %.1f times indexed on every board: %s (at most %.2f, on %s);\n", ratio_goal,
           worst_sets_ratio <= ratio_goal ? "met" : "not met", worst_sets_ratio, worst_sets_board);
    printf("and on the typical board in less than %.0f ms: %s (at most %.1f);\n", typical_goal_ms,
           typical_sets_ms < typical_goal_ms ? "met" : "not met", typical_sets_ms);
    printf("the least of 12 candidates to withdraw at most %.1f times indexed on every board: %s (at most %.2f, %s on %s);\n", ratio_goal,
           worst_least_ratio <= ratio_goal ? "met" : "not met", worst_least_ratio, worst_least_conflict, worst_least_board);
    printf("and on the typical board in less than %.0f ms: %s (at most %.1f);\n", typical_goal_ms,
           typical_least_ms < typical_goal_ms ? "met" : "not met", typical_least_ms);
    print_spelt_goal();
}

/* Prints everything. */
int main(void) {
    print_calls();
    print_growths();
    print_bytes();
    print_sets();
    print_leasts();
    print_spelt();
    print_goals();
    return 0;
}
