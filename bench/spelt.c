/* Formula text: typical rules added from text beside the same rules from their bytes, on an empty board, one of the usual size and one that is nearly
 * full; and text read to bytes and written from them. Both ways have to leave the same rows and the same board before they are timed. */
#include "spelt.h"

#include <math.h>
#include <stdbool.h>
#include <stdio.h>
#include <stdlib.h>
#include <string.h>

#include "boards.h"
#include "timing.h"

enum { BY_BYTES, BY_TEXT, WAYS };
enum { FREE_ROWS = 64, MOST_FORMULA = TUP_MOST_FORMULA, MOST_SPELLING = TUP_MOST_SPELLING };

/* A formula: its text, and its bytes. */
typedef struct formula {
    size_t length, count;
    uint8_t text[MOST_SPELLING], bytes[MOST_FORMULA];
} formula;

/* The board that a rule leaves, with its table. */
typedef struct outcome {
    tup_addition addition;
    int16_t table[NUMBERS];
} outcome;

static const char *const rules[] = {"1>2", "(2&3)>4", "-(1&2)=(-3|4)", "(1&-2&3)|(4=5)", "( 10 & -11 & 12 ) > ( 7 | 8 )", "(1&2&-3&4)>(5|6|-7|8)"};
enum { RULES = sizeof rules / sizeof rules[0] };

/* The goal, and how far it is met: the time from text in parts of what is allowed. */
static const double times_goal = 1.5, more_goal_us = 1;
static double worst_part;
static const char *worst_rule, *worst_board;
static formula given;
static volatile unsigned sink;

/* Ends the program where a call is refused, or the two ways differ. */
static void demand(bool good, const char *what) {
    if (good) return;
    fprintf(stderr, "bench: formula text: %s\n", what);
    exit(1);
}

/* Takes a text, and the bytes that it spells. */
static void take_text(const char *text) {
    given.length = strlen(text);
    memcpy(given.text, text, given.length);
    tup_spelling spelling = tup_read_text(now.board, now.table, NUMBERS, given.text, given.length, given.bytes, sizeof given.bytes);
    demand(spelling.refusal == 0, text);
    given.count = spelling.bytes;
}

/* Adds the rule in one way. */
static tup_addition add(unsigned way, int16_t *table) {
    if (way == BY_BYTES) return tup_rule(now.board, table, NUMBERS, given.bytes, given.count);
    return tup_rule_text(now.board, table, NUMBERS, given.text, given.length);
}

/* Ends the program if the two ways leave anything else, or are refused. */
static void compare_ways(void) {
    static outcome left[WAYS];
    memset(left, 0, sizeof left);
    for (unsigned way = 0; way < WAYS; way++) {
        memcpy(left[way].table, now.table, sizeof now.table);
        left[way].addition = add(way, left[way].table);
    }
    const tup_addition *one = &left[BY_BYTES].addition, *other = &left[BY_TEXT].addition;
    demand(one->refusal == 0 && other->refusal == 0, "a rule is refused");
    demand(one->added == other->added && one->place == other->place && memcmp(&one->board, &other->board, sizeof one->board) == 0 &&
               memcmp(left[BY_BYTES].table, left[BY_TEXT].table, sizeof now.table) == 0,
           "a rule from text differs from its bytes");
}

/* Nanoseconds for one rule, over so many. */
static double time_rules(unsigned way, unsigned count) {
    double begin = clock_ns();
    for (unsigned i = 0; i < count; i++) sink += add(way, now.table).added;
    return (clock_ns() - begin) / count;
}

/* Nanoseconds for one reading to bytes, or writing from them, over so many. */
static double time_turns(unsigned way, unsigned count) {
    static formula out;
    double begin = clock_ns();
    for (unsigned i = 0; i < count; i++)
        sink += (unsigned)(way == BY_TEXT
                               ? tup_read_text(now.board, now.table, NUMBERS, given.text, given.length, out.bytes, sizeof out.bytes).bytes
                               : tup_write_text(now.board, now.table, NUMBERS, given.bytes, given.count, out.text, sizeof out.text).bytes);
    return (clock_ns() - begin) / count;
}

/* The best time of each way, the ways taking turns. */
static void measure(double (*time)(unsigned, unsigned), double best[WAYS]) {
    unsigned count[WAYS];
    for (unsigned way = 0; way < WAYS; way++) {
        best[way] = INFINITY;
        for (count[way] = 1; count[way] < 1u << 20 && time(way, count[way]) * count[way] < BATCH_NS;) count[way] *= 2;
    }
    for (unsigned run = 0; run < RUNS; run++)
        for (unsigned way = 0; way < WAYS; way++) best[way] = fmin(best[way], time(way, count[way]));
}

/* Measures every rule on the setting, and prints a line for each. */
static void print_rules(const char *board) {
    for (unsigned i = 0; i < RULES; i++) {
        double best[WAYS];
        take_text(rules[i]);
        compare_ways();
        measure(time_rules, best);
        double allowed = times_goal * best[BY_BYTES] + 1000 * more_goal_us, part = best[BY_TEXT] / allowed;
        printf("%-28s%-32s%12.1f%12.1f%12.1f  %s\n", board, rules[i], best[BY_BYTES], best[BY_TEXT], allowed, part <= 1 ? "met" : "not met");
        if (part <= worst_part) continue;
        worst_part = part;
        worst_rule = rules[i];
        worst_board = board;
    }
}

/* All rows in use but for a few. */
static void nearly_full(void) {
    full_board(false);
    now.board.rows = now.board.rules = TUP_MOST_ROWS - FREE_ROWS;
    memset(now.table + TUP_ROW_WIDTH * now.board.rows, 0, FREE_ROWS * TUP_ROW_WIDTH * sizeof now.table[0]);
}

/* Writes the formula that has symbols at the given depth and "and" everywhere above; returns its length. */
static size_t write_largest(uint8_t *bytes, unsigned depth) {
    bytes[0] = depth == 1 ? 0x10 : 0x12;
    if (depth == 1) bytes[1] = TUP_MOST_SYMBOLS;
    if (depth == 1) return 2;
    size_t first = 1 + write_largest(bytes + 1, depth - 1);
    return first + write_largest(bytes + first, depth - 1);
}

/* Takes the largest formula, and its text. */
static void take_largest(void) {
    given.count = write_largest(given.bytes, 16);
    given.length = tup_write_text(now.board, now.table, NUMBERS, given.bytes, given.count, given.text, sizeof given.text).bytes;
    demand(given.count == MOST_FORMULA && given.length == MOST_SPELLING, "the largest formula");
}

/* Measures text to bytes and back, and prints a line for each. */
static void print_turns(const char *what) {
    double best[WAYS];
    measure(time_turns, best);
    printf("%-28s%-32s%12.1f%12.3f\n", "text to bytes", what, best[BY_TEXT], best[BY_TEXT] / (double)given.length);
    printf("%-28s%-32s%12.1f%12.3f\n", "bytes to text", what, best[BY_BYTES], best[BY_BYTES] / (double)given.length);
}

/* Prints the tables of formula text. */
void print_spelt(void) {
    printf("\na rule from bytes and from text: ns, and the most that the goal allows\n");
    printf("%-28s%-32s%12s%12s%12s\n", "board", "rule", "bytes", "text", "goal");
    empty_board(), print_rules("empty, 200 symbols");
    typical(), print_rules("typical, 150 rows");
    nearly_full(), print_rules("full but for 64 rows");
    printf("\nformula text and bytes on an empty board: ns, and ns a byte of the text\n");
    empty_board();
    take_text(rules[3]), print_turns(rules[3]);
    take_largest(), print_turns("the largest, 196,603 bytes");
}

/* Says whether the goal is met. */
void print_spelt_goal(void) {
    printf("a rule from text at most %.1f times its bytes plus %.0f us on every board: %s (at most %.2f of that, %s on %s)\n", times_goal,
           more_goal_us, worst_part <= 1 ? "met" : "not met", worst_part, worst_rule, worst_board);
}
