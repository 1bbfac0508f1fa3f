/* How many bytes of native stack each of the twenty-one calls takes at most.
 *
 * Each call is made on a stack of its own, filled with one byte; the lowest byte that is another afterwards tells how deep it went. That is done with
 * two bytes, since a call may write the very byte that stood there. What an empty function takes in the same way is taken off, and the call is made
 * once beforehand on the program's own stack, so that what the loader does at the first call of a function does not count. So a figure is all that
 * the call costs its caller: the board that is passed by value, room for the answer, and the library's frames.
 *
 * The inputs: the boards of the measure (bench/boards.c), with premises stacked and in conflict; formulae that are nested to 16 levels on either
 * side, the largest, and random ones, as bytes and as text, with 16 brackets open and in texts long enough for the library's large buffer; and random
 * boards, some of them spoilt. A figure is the most that was met, which no proof bounds. */
#define _XOPEN_SOURCE 700
#include <stdbool.h>
#include <stdio.h>
#include <stdlib.h>
#include <string.h>
#include <ucontext.h>

#include "boards.h"
#include "plain.h"

enum { OPEN, RULE, READ_DIMACS, WRITE_DIMACS, READ_TEXT, RULE_TEXT, WRITE_TEXT, POSITIONS, PAIRS, SMALLEST, HOLD, WITHDRAW, PUSH, POP, SETTLE, ASK,
       ASK_WHOLE, EXPLAIN, GROUND, BLAME, LEAST, CALLS };
enum { STACK_BYTES = 1 << 19, LEVELS = 16, BRACKETS = 16, LONG_TEXT = 129, RANDOM_BOARDS = 400, RANDOM_FORMULAE = 1000, MOST_DRAWN = 4096 };

/* What the calls are given beside `now`. */
static struct given {
    uint8_t furnace, text[TUP_MOST_SPELLING + LONG_TEXT], formula[TUP_MOST_FORMULA + 1];
    size_t length, candidates;
    uint16_t first, count, other_first, other_count;
    uint64_t pairs;
} given;

/* What the calls are lent to write, and what they return. */
static struct made {
    tup_stacks stacks;
    uint8_t labels[TUP_MOST_SYMBOLS], marks[TUP_PLACES], text[TUP_MOST_SPELLING];
    uint16_t ranks[TUP_PLACES], supports[TUP_PLACES], sets[TUP_MOST_SETS];
    uint8_t refusal;
    tup_change change;
    tup_addition addition;
    tup_reading reading;
    tup_writing writing;
    tup_spelling spelling;
    tup_listing listing;
    tup_withdrawal withdrawal;
    tup_answer answer;
    tup_reason reason;
} made;

/* ---- The calls ---- */

#define LENT now.board, now.table, NUMBERS

static void nothing(void) {}
static void make_open(void) { made.change = tup_open(now.board.symbols, &made.stacks); }
static void make_rule(void) { made.addition = tup_rule(LENT, now.formula, now.bytes); }
static void make_read_dimacs(void) { made.reading = tup_read_dimacs(LENT, now.text, now.text_bytes); }
static void make_write_dimacs(void) { made.writing = tup_write_dimacs(LENT, made.text, sizeof made.text); }
static void make_read_text(void) { made.spelling = tup_read_text(LENT, given.text, given.length, made.text, sizeof made.text); }
static void make_rule_text(void) { made.addition = tup_rule_text(LENT, given.text, given.length); }
static void make_write_text(void) { made.spelling = tup_write_text(LENT, now.formula, now.bytes, made.text, sizeof made.text); }
static void make_positions(void) { made.addition = tup_add_positions(LENT, given.first, given.count); }
static void make_pairs(void) {
    made.addition = tup_add_pairs(LENT, given.first, given.count, given.other_first, given.other_count, given.pairs);
}
static void make_smallest(void) {
    made.listing = tup_smallest(LENT, now.candidates, given.candidates, now.literal, made.sets, TUP_MOST_SETS);
}
static void make_hold(void) { made.change = tup_hold(LENT, given.furnace, now.literal); }
static void make_withdraw(void) { made.change = tup_withdraw(LENT, &made.stacks, given.furnace, now.premise); }
static void make_push(void) { made.change = tup_push(LENT, &made.stacks, given.furnace, now.literal); }
static void make_pop(void) { made.change = tup_pop(LENT, &made.stacks, given.furnace); }
static void make_settle(void) {
    made.refusal = tup_settle(LENT, given.furnace, made.labels, TUP_MOST_SYMBOLS, made.ranks, TUP_PLACES, made.supports, TUP_PLACES);
}
static void make_ask(void) { made.answer = tup_ask(LENT, given.furnace, now.literal); }
static void make_ask_whole(void) { made.answer = tup_ask_whole(LENT, given.furnace, now.literal); }
static void make_explain(void) { made.reason = tup_explain(LENT, given.furnace, now.literal); }
static void make_ground(void) { made.refusal = tup_ground(LENT, given.furnace, now.literal, made.marks, TUP_PLACES); }
static void make_blame(void) { made.refusal = tup_blame(LENT, given.furnace, made.marks, TUP_PLACES); }
static void make_least(void) { made.withdrawal = tup_least(LENT, given.furnace, now.candidates, given.candidates); }

/* The calls, with the most bytes met. */
static struct { const char *name; void (*make)(void); size_t most; } calls[CALLS] = {
    {"tup_open", make_open, 0}, {"tup_rule", make_rule, 0}, {"tup_read_dimacs", make_read_dimacs, 0}, {"tup_write_dimacs", make_write_dimacs, 0},
    {"tup_read_text", make_read_text, 0}, {"tup_rule_text", make_rule_text, 0}, {"tup_write_text", make_write_text, 0},
    {"tup_add_positions", make_positions, 0}, {"tup_add_pairs", make_pairs, 0}, {"tup_smallest", make_smallest, 0}, {"tup_hold", make_hold, 0},
    {"tup_withdraw", make_withdraw, 0}, {"tup_push", make_push, 0}, {"tup_pop", make_pop, 0}, {"tup_settle", make_settle, 0},
    {"tup_ask", make_ask, 0}, {"tup_ask_whole", make_ask_whole, 0}, {"tup_explain", make_explain, 0}, {"tup_ground", make_ground, 0},
    {"tup_blame", make_blame, 0}, {"tup_least", make_least, 0}};

/* ---- The measure ---- */

static _Alignas(64) unsigned char stack[STACK_BYTES];
static ucontext_t here, there;
static unsigned long inputs;

/* Runs a function on the stack, filled with the byte; returns how deep it went. */
static size_t depth_over(void (*run)(void), unsigned char fill) {
    memset(stack, fill, sizeof stack);
    made.stacks = now.stacks;
    getcontext(&there);
    there.uc_stack.ss_sp = stack;
    there.uc_stack.ss_size = sizeof stack;
    there.uc_link = &here;
    makecontext(&there, run, 0);
    swapcontext(&here, &there);
    size_t untouched = 0;
    while (untouched < sizeof stack && stack[untouched] == fill) untouched++;
    if (untouched < sizeof stack / 8) {
        fprintf(stderr, "stack: a call has left less than an eighth of %d bytes\n", STACK_BYTES);
        exit(1);
    }
    return sizeof stack - untouched;
}

/* The same, over two bytes. */
static size_t depth(void (*run)(void)) {
    size_t one = depth_over(run, 0xa5), other = depth_over(run, 0x5a);
    return one > other ? one : other;
}

/* Makes the calls from one to another with what there is now, and keeps the most of each. */
static void try_calls(unsigned from, unsigned to) {
    size_t own = depth(nothing);
    for (unsigned i = from; i <= to; i++) {
        made.stacks = now.stacks;
        calls[i].make();
        size_t bytes = depth(calls[i].make) - own;
        if (bytes > calls[i].most) calls[i].most = bytes;
    }
    inputs++;
}

/* Makes all calls, for either furnace. */
static void try_all(void) {
    for (unsigned f = 1; f <= TUP_FURNACES; f++) {
        given.furnace = (uint8_t)f;
        try_calls(OPEN, LEAST);
    }
}

/* ---- Numbers by chance, the same in each run ---- */

static uint64_t state = 1;

/* A number from 0 to limit - 1. */
static unsigned draw(unsigned limit) {
    state = state * UINT64_C(6364136223846793005) + UINT64_C(1442695040888963407);
    return (unsigned)((state >> 33) % limit);
}

/* A literal of the board. */
static int16_t draw_literal(void) {
    int symbol = 1 + (int)draw(now.board.symbols);
    return (int16_t)(draw(2) == 0 ? symbol : -symbol);
}

/* ---- Formulae ---- */

/* Writes a formula of so many levels, which grows on one side, or on either by chance (side 2), of one kind, or of any (kind 0); its symbols are of 1
 * to 8. Returns its length. */
static size_t write_spine(uint8_t *bytes, unsigned levels, unsigned side, unsigned kind) {
    if (levels == 1) {
        bytes[0] = 0x10;
        bytes[1] = (uint8_t)(1 + draw(8));
        return 2;
    }
    bytes[0] = (uint8_t)(kind == 0 ? 0x11 + draw(5) : kind);
    if (bytes[0] == 0x11) return 1 + write_spine(bytes + 1, levels - 1, side, kind);
    unsigned left = side == 2 ? draw(2) : side, twig = side == 2 ? 1 + draw(levels < 4 ? levels - 1 : 3) : 1;
    size_t first = 1 + write_spine(bytes + 1, left ? levels - 1 : twig, side, kind);
    return first + write_spine(bytes + first, left ? twig : levels - 1, side, kind);
}

/* Writes the largest formula of so many levels, its symbols 1 to 8 in turn. */
static size_t write_largest(uint8_t *bytes, unsigned levels) {
    static unsigned turn;
    bytes[0] = levels == 1 ? 0x10 : 0x12;
    if (levels == 1) bytes[1] = (uint8_t)(1 + turn++ % 8);
    if (levels == 1) return 2;
    size_t first = 1 + write_largest(bytes + 1, levels - 1);
    return first + write_largest(bytes + first, levels - 1);
}

/* Puts so many bytes round the text, at its front and at its end. */
static void put_round(size_t count, char front, char end) {
    memmove(given.text + count, given.text, given.length);
    memset(given.text, front, count);
    memset(given.text + count + given.length, end, count);
    given.length += 2 * count;
}

/* Takes the formula in given.formula, and its text. */
static void take_formula(size_t bytes) {
    now.formula = given.formula;
    now.bytes = bytes;
    given.length = tup_write_text(LENT, now.formula, now.bytes, given.text, TUP_MOST_SPELLING).bytes;
}

/* Makes the calls for formulae with what there is: the text as it is, in a bracket, and made long by spaces. */
static void try_formula(void) {
    try_calls(RULE, WRITE_TEXT);
    put_round(1, '(', ')');
    try_calls(READ_TEXT, RULE_TEXT);
    if (given.length >= LONG_TEXT) return;
    put_round(LONG_TEXT / 2 + 1, ' ', ' ');
    try_calls(READ_TEXT, RULE_TEXT);
}

/* Spoils the formula: cuts it, changes a byte, or has one byte too many. */
static void spoil_formula(void) {
    switch (draw(3)) {
    case 0: now.bytes = draw((unsigned)now.bytes); break;
    case 1: given.formula[draw((unsigned)now.bytes)] = (uint8_t)draw(256); break;
    default: given.formula[now.bytes++] = 0x10;
    }
}

/* ---- Texts ---- */

/* Writes a chain by chance, with so many brackets to be opened in one of its units and few in the others. */
static void write_chain(unsigned brackets);

static void put(char byte) {
    if (given.length < MOST_DRAWN) given.text[given.length++] = (uint8_t)byte;
}

static void write_unit(unsigned brackets) {
    for (unsigned i = draw(3); i > 0; i--) put('-');
    if (brackets == 0) {
        put((char)('1' + draw(8)));
        return;
    }
    put('(');
    write_chain(brackets - 1);
    put(')');
}

static void write_chain(unsigned brackets) {
    static const char marks[] = "&|>=";
    char mark = marks[draw(4)];
    unsigned units = mark == '&' || mark == '|' ? 1 + draw(3) : 2, deep = draw(units);
    for (unsigned i = 0; i < units; i++) {
        if (i > 0) put(mark);
        write_unit(i == deep ? brackets : brackets > 0 && draw(4) == 0 ? 1 : 0);
    }
}

/* ---- Boards ---- */

/* Adds a row of so many literals, at most as many as there are symbols. */
static void add_row(unsigned length) {
    int16_t *row = now.table + TUP_ROW_WIDTH * now.board.rows++;
    unsigned used = 0, symbols = now.board.symbols;
    row[TUP_ROW_LITERALS] = (int16_t)++now.board.rules;
    for (unsigned i = 0; i < symbols && used < length; i++) {
        if (draw(symbols - i) >= length - used) continue;
        row[used++] = (int16_t)(draw(3) == 0 ? (int)i + 1 : -(int)i - 1);
    }
}

/* Has both furnaces hold some literals, stacks some of these, and takes some as candidates. */
static void draw_premises(void) {
    for (unsigned i = draw(12); i > 0; i--) {
        int16_t literal = draw_literal();
        tup_stack *on = &now.stacks.of[i % TUP_FURNACES];
        uint8_t *held = &now.board.held[i % TUP_FURNACES][place(literal)];
        if (*held != 0) continue;
        *held = 1;
        now.premise = literal;
        if (draw(3) == 0) on->literals[on->count++] = literal;
        if (given.candidates < 5 && draw(2) == 0) now.candidates[given.candidates++] = literal;
    }
}

/* A board by chance: few rows or many, most of them short. */
static void draw_board(void) {
    static const unsigned most[] = {1, 65, 400, TUP_MOST_ROWS + 1};
    memset(&now, 0, sizeof now);
    now.board.symbols = (uint16_t)(1 + draw(TUP_MOST_SYMBOLS));
    for (unsigned rows = draw(most[draw(4)]); rows > 0; rows--) {
        unsigned length = draw(4) == 0 ? 1 + draw(8) : 2 + draw(2);
        add_row(length < now.board.symbols ? length : now.board.symbols);
    }
    given.candidates = 0;
    draw_premises();
    now.literal = draw_literal();
    now.text_bytes = tup_write_dimacs(LENT, now.text, sizeof now.text).bytes;
    now.formula = given.formula;
    now.bytes = write_spine(given.formula, 1 + draw(LEVELS), 2, 0);
    if (draw(8) == 0) now.table[draw(TUP_ROW_WIDTH * (now.board.rows + 1u)) % NUMBERS] = (int16_t)draw(1 << 16);
}

/* Draws a position variable and another. */
static void draw_positions(void) {
    given.first = (uint16_t)(1 + draw(now.board.symbols));
    given.count = (uint16_t)(2 + draw(6));
    given.other_first = (uint16_t)(1 + draw(now.board.symbols));
    given.other_count = (uint16_t)(2 + draw(6));
    given.pairs = (uint64_t)draw(1u << 31) << 31 | draw(1u << 31);
}

/* ---- What is tried ---- */

/* The boards of the measure, each also in conflict and with its premises stacked. */
static void try_boards(void) {
    for (unsigned kind = 0; kind < 9; kind++) {
        if (kind < 2) full_board(kind == 1);
        else if (kind < 4) long_rows(kind == 3);
        else if (kind == 4) chain(TUP_MOST_SYMBOLS);
        else if (kind == 5) typical();
        else if (kind == 6) empty_board();
        else if (kind == 7) deep_stack();
        else chain(8);
        try_all();
        stack_premises(), try_all();
        in_conflict(), try_all();
        as_text(), try_all();
    }
}

/* The boards with candidates: to explain a literal by, and to withdraw. */
static void try_candidates(void) {
    given.candidates = TUP_MOST_CANDIDATES;
    typical_sets(), try_all();
    full_sets(), try_all();
    typical(), no_sets(), try_all();
    for (unsigned kind = 0; kind < CONFLICTS; kind++) {
        typical_conflicts(kind), try_all();
        full_conflicts(kind), try_all();
    }
}

/* Formulae and texts, on an empty board, on one of the usual size, and on one whose table has one row left. */
static void try_formulae(void) {
    for (unsigned board = 0; board < 3; board++) {
        if (board == 0) empty_board();
        else if (board == 1) typical();
        else full_board(true);
        take_formula(write_largest(given.formula, LEVELS)), try_formula();
        for (unsigned kind = 0; kind <= 0x15; kind = kind == 0 ? 0x11 : kind + 1)
            for (unsigned side = 0; side < 3; side++) take_formula(write_spine(given.formula, LEVELS, side, kind)), try_formula();
        for (unsigned i = 0; i < RANDOM_FORMULAE; i++) {
            take_formula(write_spine(given.formula, 1 + draw(LEVELS + 1), 2, 0));
            if (draw(4) == 0) spoil_formula();
            try_calls(RULE, RULE), try_calls(WRITE_TEXT, WRITE_TEXT);
            given.length = 0;
            write_chain(draw(BRACKETS + 2));
            if (draw(8) == 0) given.text[draw((unsigned)given.length)] = (uint8_t)draw(256);
            try_calls(READ_TEXT, RULE_TEXT);
        }
    }
}

/* Valves on an empty board and on a full one, and boards by chance. */
static void try_random(void) {
    for (unsigned i = 0; i < RANDOM_BOARDS; i++) {
        draw_board();
        draw_positions();
        try_all();
    }
    for (unsigned i = 0; i < RANDOM_BOARDS; i++) {
        if (i % 2 == 0) empty_board();
        else full_board(true);
        draw_positions();
        try_calls(POSITIONS, PAIRS);
    }
}

int main(void) {
    try_boards();
    try_candidates();
    try_formulae();
    try_random();
    printf("bytes of native stack, at most, of %lu inputs\n", inputs);
    for (unsigned i = 0; i < CALLS; i++) printf("%-20s%8zu\n", calls[i].name, calls[i].most);
    return 0;
}
