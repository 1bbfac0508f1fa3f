/* Open, rule and the calls that name a furnace as a C programmer would write them at once: rounds over the rows, each support by the search that its
 * definition describes, prime implicates by marking all 3^n clauses. The same tests, the same outputs, no proof. */
#include "plain.h"

#include <stdlib.h>
#include <string.h>

enum { WIDTH = TUP_ROW_WIDTH, LITERALS = TUP_ROW_LITERALS, NONE = TUP_NONE, CLAUSES = 6561, DEEPEST = 16 };

/* ---- The board ---- */

/* Rows lent. */
size_t plain_rows_lent(size_t numbers) {
    return numbers / WIDTH < TUP_MOST_ROWS ? numbers / WIDTH : TUP_MOST_ROWS;
}

/* True if the row holds one to eight literals with rising symbols up to S, and zeros after them. */
static bool sound(const int16_t *row, int symbols) {
    int before = 0, i = 0;
    for (; i < LITERALS && row[i] != 0; i++) {
        int symbol = abs(row[i]);
        if (symbol <= before || symbol > symbols) return false;
        before = symbol;
    }
    if (i == 0) return false;
    for (; i < LITERALS; i++)
        if (row[i] != 0) return false;
    return true;
}

/* The test behind refusal 1. The rule numbers of the rows are from 1 to the count, and none is below the one before it. */
bool plain_good(const tup_board *board, const int16_t *table, size_t numbers) {
    int least = 1;
    if (board->symbols < 1 || board->symbols > TUP_MOST_SYMBOLS || board->rows > plain_rows_lent(numbers)) return false;
    if (board->rules > TUP_MOST_RULES) return false;
    for (unsigned f = 0; f < TUP_FURNACES; f++)
        for (size_t p = 2u * board->symbols; p < TUP_PLACES; p++)
            if (board->held[f][p] != 0) return false;
    for (size_t r = 0; r < board->rows; r++) {
        const int16_t *row = table + WIDTH * r;
        if (!sound(row, board->symbols) || row[LITERALS] < least || row[LITERALS] > board->rules) return false;
        least = row[LITERALS];
    }
    return true;
}

/* The tests of a call that names a furnace. */
uint8_t plain_tests(const tup_board *board, const int16_t *table, size_t numbers, uint8_t furnace) {
    if (!plain_good(board, table, numbers)) return 1;
    return furnace < 1 || furnace > TUP_FURNACES ? 16 : 0;
}

/* True if the number is a literal of the board. */
bool plain_fits(int literal, const tup_board *board) {
    return literal != 0 && abs(literal) <= board->symbols;
}

/* Writes the held bytes as 0 and 1. */
void plain_tidy(tup_board *board) {
    for (unsigned f = 0; f < TUP_FURNACES; f++)
        for (size_t p = 0; p < TUP_PLACES; p++) board->held[f][p] = board->held[f][p] != 0;
}

/* ---- Premises and stacks ---- */

tup_change plain_open(uint16_t symbols, tup_stacks *stacks) {
    bool good = symbols >= 1 && symbols <= TUP_MOST_SYMBOLS;
    if (good) memset(stacks, 0, sizeof *stacks);
    return (tup_change){.refusal = good ? 0 : 2, .board = {.symbols = good ? symbols : 0}};
}

/* True if the stack has at most 2S literals, each of them held and none twice. */
static bool good_stack(const tup_stack *stack, const tup_board *board, const uint8_t *held) {
    bool seen[TUP_PLACES] = {false};
    if (stack->count > 2u * board->symbols) return false;
    for (unsigned i = 0; i < stack->count; i++) {
        if (!plain_fits(stack->literals[i], board)) return false;
        unsigned p = place(stack->literals[i]);
        if (held[p] == 0 || seen[p]) return false;
        seen[p] = true;
    }
    return true;
}

/* The tests of a call that names a furnace and is lent the stacks, of which a bad one is told ahead of a bad furnace. */
static uint8_t stacks_tests(const tup_board *board, const int16_t *table, size_t numbers, const tup_stacks *stacks, uint8_t furnace) {
    uint8_t refusal = plain_tests(board, table, numbers, furnace);
    if (refusal == 1) return 1;
    for (unsigned f = 0; f < TUP_FURNACES; f++)
        if (!good_stack(&stacks->of[f], board, board->held[f])) return 1;
    return refusal;
}

/* True if the literal is on the stack. */
static bool is_on(const tup_stack *stack, int16_t literal) {
    for (unsigned i = 0; i < stack->count; i++)
        if (stack->literals[i] == literal) return true;
    return false;
}

/* Puts the literal into the furnace's premises, or takes it out, where no test before it refused: refused where it is so already. */
static tup_change change(tup_board board, uint8_t refusal, uint8_t furnace, int16_t literal, bool hold) {
    if (refusal == 0 && !plain_fits(literal, &board)) refusal = 2;
    if (refusal == 0 && (board.held[furnace - 1][place(literal)] != 0) == hold) refusal = hold ? 10 : 11;
    if (refusal == 0) {
        plain_tidy(&board);
        board.held[furnace - 1][place(literal)] = hold;
    }
    return (tup_change){.refusal = refusal, .board = board};
}

tup_change plain_hold(tup_board board, const int16_t *table, size_t numbers, uint8_t furnace, int16_t literal) {
    return change(board, plain_tests(&board, table, numbers, furnace), furnace, literal, true);
}

tup_change plain_withdraw(tup_board board, const int16_t *table, size_t numbers, tup_stacks *stacks, uint8_t furnace, int16_t literal) {
    tup_change done = change(board, stacks_tests(&board, table, numbers, stacks, furnace), furnace, literal, false);
    if (done.refusal == 0 && is_on(&stacks->of[furnace - 1], literal)) return (tup_change){.refusal = 21, .board = board};
    return done;
}

tup_change plain_push(tup_board board, const int16_t *table, size_t numbers, tup_stacks *stacks, uint8_t furnace, int16_t literal) {
    tup_change done = change(board, stacks_tests(&board, table, numbers, stacks, furnace), furnace, literal, true);
    if (done.refusal != 0) return done;
    tup_stack *stack = &stacks->of[furnace - 1];
    stack->literals[stack->count++] = literal; /* there is room: what is stacked is held, and this one was not */
    return done;
}

tup_change plain_pop(tup_board board, const int16_t *table, size_t numbers, tup_stacks *stacks, uint8_t furnace) {
    uint8_t refusal = stacks_tests(&board, table, numbers, stacks, furnace);
    if (refusal == 0 && stacks->of[furnace - 1].count == 0) refusal = 20;
    if (refusal != 0) return (tup_change){.refusal = refusal, .board = board};
    tup_stack *stack = &stacks->of[furnace - 1];
    int16_t top = stack->literals[--stack->count];
    stack->literals[stack->count] = 0;
    return change(board, 0, furnace, top, false);
}

/* ---- Rounds ---- */

/* Gives the literal rank k if it has none. */
static inline bool give(uint16_t *ranks, unsigned p, unsigned k) {
    if (ranks[p] != NONE) return false;
    ranks[p] = (uint16_t)k;
    return true;
}

/* One row in round k: with one opposite missing, that literal is given the rank; with none missing, all are. */
static bool fire(const int16_t *row, unsigned k, uint16_t *ranks) {
    unsigned missing = NONE;
    int i = 0;
    bool any = false;
    for (; i < LITERALS && row[i] != 0; i++) {
        if (ranks[place(opposite(row[i]))] < k) continue;
        if (missing != NONE) return false;
        missing = place(row[i]);
    }
    if (missing != NONE) return give(ranks, missing, k);
    while (i-- > 0) any |= give(ranks, place(row[i]), k);
    return any;
}

/* Ranks by rounds over the rows until one adds nothing. */
static void rank_all(const tup_board *board, const uint8_t *held, const int16_t *table, uint16_t *ranks) {
    bool any = true;
    for (unsigned p = 0; p < 2u * board->symbols; p++) ranks[p] = held[p] ? 0 : NONE;
    for (unsigned k = 1; any; k++) {
        any = false;
        for (size_t r = 0; r < board->rows; r++) any |= fire(table + WIDTH * r, k, ranks);
    }
}

/* The lowest-numbered row that gave place p its rank. */
static uint16_t support(const tup_board *board, const int16_t *table, const uint16_t *ranks, unsigned p) {
    for (size_t r = 0; r < board->rows; r++) {
        const int16_t *row = table + WIDTH * r;
        bool has = false;
        int i = 0;
        for (; i < LITERALS && row[i] != 0; i++) {
            if (place(row[i]) == p) has = true;
            else if (ranks[place(opposite(row[i]))] >= ranks[p]) break;
        }
        if (has && (i == LITERALS || row[i] == 0)) return (uint16_t)r;
    }
    return NONE;
}

/* True if some symbol has both literals derived. */
static bool conflict(const tup_board *board, const uint16_t *ranks) {
    for (unsigned s = 0; s < board->symbols; s++)
        if (ranks[2 * s] != NONE && ranks[2 * s + 1] != NONE) return true;
    return false;
}

/* Writes the labels from the ranks. */
void plain_label_all(const tup_board *board, const uint16_t *ranks, uint8_t *labels) {
    unsigned symbols = board->symbols;
    for (unsigned s = 0; s < symbols; s++)
        labels[s] = (uint8_t)((ranks[2 * s] != NONE) + 2 * (ranks[2 * s + 1] != NONE));
}

/* Tests of settle. */
uint8_t plain_settle_tests(const tup_board *board, const int16_t *table, size_t numbers, uint8_t furnace, size_t labels, size_t ranks,
                           size_t supports) {
    uint8_t refusal = plain_tests(board, table, numbers, furnace);
    if (refusal != 0) return refusal;
    size_t s = board->symbols;
    return labels < s || ranks < 2 * s || supports < 2 * s ? 13 : 0;
}

uint8_t plain_settle(tup_board board, const int16_t *table, size_t numbers, uint8_t furnace, uint8_t *labels, size_t label_count,
                     uint16_t *ranks, size_t rank_count, uint16_t *supports, size_t support_count) {
    uint8_t refusal = plain_settle_tests(&board, table, numbers, furnace, label_count, rank_count, support_count);
    if (refusal != 0) return refusal;
    rank_all(&board, board.held[furnace - 1], table, ranks);
    plain_label_all(&board, ranks, labels);
    for (unsigned p = 0; p < 2u * board.symbols; p++)
        supports[p] = ranks[p] == NONE || ranks[p] == 0 ? NONE : support(&board, table, ranks, p);
    return 0;
}

bool plain_clash(const uint16_t *ranks, int16_t literal) {
    return ranks[place(literal)] != NONE && ranks[place(opposite(literal))] != NONE;
}

tup_answer plain_standing(const uint16_t *ranks, int16_t literal, bool clash) {
    if (clash) return (tup_answer){0, TUP_CONFLICT};
    if (ranks[place(literal)] != NONE) return (tup_answer){0, TUP_STANDS};
    if (ranks[place(opposite(literal))] != NONE) return (tup_answer){0, TUP_RULED_OUT};
    return (tup_answer){0, TUP_OPEN};
}

uint8_t plain_ask_tests(const tup_board *board, const int16_t *table, size_t numbers, uint8_t furnace, int16_t literal) {
    uint8_t refusal = plain_tests(board, table, numbers, furnace);
    return refusal == 0 && !plain_fits(literal, board) ? 2 : refusal;
}

/* Both asks. */
static tup_answer answer(const tup_board *board, const int16_t *table, size_t numbers, uint8_t furnace, int16_t literal, bool whole) {
    uint16_t ranks[TUP_PLACES];
    uint8_t refusal = plain_ask_tests(board, table, numbers, furnace, literal);
    if (refusal != 0) return (tup_answer){refusal, TUP_OPEN};
    rank_all(board, board->held[furnace - 1], table, ranks);
    return plain_standing(ranks, literal, whole ? conflict(board, ranks) : plain_clash(ranks, literal));
}

tup_answer plain_ask(tup_board board, const int16_t *table, size_t numbers, uint8_t furnace, int16_t literal) {
    return answer(&board, table, numbers, furnace, literal, false);
}

tup_answer plain_ask_whole(tup_board board, const int16_t *table, size_t numbers, uint8_t furnace, int16_t literal) {
    return answer(&board, table, numbers, furnace, literal, true);
}

/* An explain that is refused. */
static tup_reason no_reason(uint8_t refusal) {
    return (tup_reason){.refusal = refusal, .literals = 0, .rank = NONE, .row = NONE, .rule = 0};
}

tup_reason plain_explain(tup_board board, const int16_t *table, size_t numbers, uint8_t furnace, int16_t literal) {
    uint16_t ranks[TUP_PLACES];
    uint8_t refusal = plain_tests(&board, table, numbers, furnace), count = 0;
    if (refusal != 0) return no_reason(refusal);
    if (!plain_fits(literal, &board)) return no_reason(2);
    rank_all(&board, board.held[furnace - 1], table, ranks);
    unsigned p = place(literal);
    if (ranks[p] == NONE || ranks[p] == 0) return no_reason(12);
    uint16_t row = support(&board, table, ranks, p);
    while (count < LITERALS && table[WIDTH * row + count] != 0) count++;
    return (tup_reason){.refusal = 0, .literals = count, .rank = ranks[p], .row = row, .rule = (uint16_t)table[WIDTH * row + LITERALS]};
}

/* ---- Grounds ---- */

/* Literals whose grounds are wanted. */
typedef struct search {
    unsigned count;
    uint16_t waiting[TUP_PLACES];
    bool seen[TUP_PLACES];
} search;

/* Adds a place that was not seen yet. */
static inline void want(search *s, unsigned p) {
    if (s->seen[p]) return;
    s->seen[p] = true;
    s->waiting[s->count++] = (uint16_t)p;
}

/* Marks the premises that the literals wanted reach. */
static void mark_grounds(search *s, const tup_board *board, const int16_t *table, const uint16_t *ranks, uint8_t *marks) {
    memset(marks, 0, 2u * board->symbols);
    while (s->count > 0) {
        unsigned p = s->waiting[--s->count];
        if (ranks[p] == 0) {
            marks[p] = 1;
            continue;
        }
        const int16_t *row = table + WIDTH * support(board, table, ranks, p);
        for (int i = 0; i < LITERALS && row[i] != 0; i++)
            if (place(row[i]) != p) want(s, place(opposite(row[i])));
    }
}

uint8_t plain_ground(tup_board board, const int16_t *table, size_t numbers, uint8_t furnace, int16_t literal, uint8_t *marks,
                     size_t mark_count) {
    uint16_t ranks[TUP_PLACES];
    search s = {.count = 0};
    uint8_t refusal = plain_tests(&board, table, numbers, furnace);
    if (refusal != 0) return refusal;
    if (!plain_fits(literal, &board)) return 2;
    if (mark_count < 2u * board.symbols) return 13;
    rank_all(&board, board.held[furnace - 1], table, ranks);
    if (ranks[place(literal)] == NONE) return 12;
    want(&s, place(literal));
    mark_grounds(&s, &board, table, ranks, marks);
    return 0;
}

uint8_t plain_blame(tup_board board, const int16_t *table, size_t numbers, uint8_t furnace, uint8_t *marks, size_t mark_count) {
    uint16_t ranks[TUP_PLACES], least = NONE;
    unsigned first = 0;
    search s = {.count = 0};
    uint8_t refusal = plain_tests(&board, table, numbers, furnace);
    if (refusal != 0) return refusal;
    if (mark_count < 2u * board.symbols) return 13;
    rank_all(&board, board.held[furnace - 1], table, ranks);
    for (unsigned p = 0; p < 2u * board.symbols; p += 2) {
        uint16_t larger = ranks[p] > ranks[p + 1] ? ranks[p] : ranks[p + 1]; /* NONE is above every rank */
        if (larger >= least) continue;
        least = larger;
        first = p;
    }
    if (least == NONE) return 12;
    want(&s, first);
    want(&s, first + 1);
    mark_grounds(&s, &board, table, ranks, marks);
    return 0;
}

/* ---- Rules ---- */

/* A formula being read. */
typedef struct reader {
    const uint8_t *at, *end;
    unsigned symbols;
    bool used[256];
} reader;

/* Reads one operand; 0 or the refusal. Refused, `at` stays where the formula breaks. */
static uint8_t read_operand(reader *in, unsigned depth) {
    if (depth > DEEPEST) return 5;
    if (in->at == in->end) return 3;
    uint8_t kind = *in->at;
    if (kind < 0x10 || kind > 0x15) return 4;
    in->at++;
    if (kind == 0x10) {
        if (in->at == in->end) return 3;
        uint8_t symbol = *in->at;
        if (symbol == 0 || symbol > in->symbols) return 2;
        in->at++;
        in->used[symbol] = true;
        return 0;
    }
    uint8_t refusal = read_operand(in, depth + 1);
    if (refusal == 0 && kind > 0x11) refusal = read_operand(in, depth + 1);
    return refusal;
}

/* The value of the operand at *at in an assignment; bit[s] is the bit of symbol s. */
static bool value(const uint8_t **at, const uint8_t *bit, unsigned assignment) {
    uint8_t kind = *(*at)++;
    if (kind == 0x10) return assignment >> bit[*(*at)++] & 1;
    bool a = value(at, bit, assignment);
    if (kind == 0x11) return !a;
    bool b = value(at, bit, assignment);
    switch (kind) {
    case 0x12: return a && b;
    case 0x13: return a || b;
    case 0x14: return !a || b;
    default: return a == b;
    }
}

/* A rule's clauses: number n has in base 3, digit i, 0 for symbol i absent, 1 for +, 2 for -. */
typedef struct clauses {
    unsigned count;
    int16_t symbol[8];
    unsigned power[9];
    bool hit[CLAUSES]; /* some satisfying assignment makes the clause false */
} clauses;

/* Marks the full clause that each satisfying assignment makes false; true if there is one. */
static bool hit_full(clauses *c, const uint8_t *formula, const uint8_t *bit) {
    bool any = false;
    for (unsigned a = 0; a < 1u << c->count; a++) {
        const uint8_t *at = formula;
        if (!value(&at, bit, a)) continue;
        unsigned n = 0;
        for (unsigned i = 0; i < c->count; i++) n += c->power[i] * (a >> i & 1 ? 2 : 1);
        any = c->hit[n] = true;
    }
    return any;
}

/* Spreads the hits: a clause without symbol i is false where the clause with + or with - is. */
static void spread(clauses *c) {
    for (unsigned i = 0; i < c->count; i++) {
        unsigned step = c->power[i];
        for (unsigned base = 0; base < c->power[c->count]; base += 3 * step)
            for (unsigned n = base; n < base + step; n++) c->hit[n] |= c->hit[n + step] | c->hit[n + 2 * step];
    }
}

/* True if leaving out any one literal makes an implicate none. */
static bool prime(const clauses *c, unsigned n) {
    if (c->hit[n]) return false;
    for (unsigned i = 0, rest = n; i < c->count; i++, rest /= 3)
        if (rest % 3 != 0 && !c->hit[n - rest % 3 * c->power[i]]) return false;
    return true;
}

/* Writes all prime clauses with `left` more literals, from symbol i on, in the document's order, each with the rule's number that the row has. */
static unsigned collect(const clauses *c, unsigned i, unsigned left, unsigned n, int16_t *row, unsigned filled, int16_t (*out)[WIDTH],
                        unsigned count) {
    if (left == 0) {
        if (prime(c, n)) memcpy(out[count++], row, WIDTH * sizeof row[0]);
        return count;
    }
    for (; i + left <= c->count; i++) {
        row[filled] = c->symbol[i];
        count = collect(c, i + 1, left - 1, n + c->power[i], row, filled + 1, out, count);
        row[filled] = (int16_t)-c->symbol[i];
        count = collect(c, i + 1, left - 1, n + 2 * c->power[i], row, filled + 1, out, count);
        row[filled] = 0;
    }
    return count;
}

/* Gives the used symbols their bits; false if there are more than eight. */
static bool number_symbols(const reader *in, clauses *c, uint8_t *bit) {
    c->count = 0;
    c->power[0] = 1;
    for (unsigned s = 1; s <= in->symbols; s++) {
        if (!in->used[s]) continue;
        if (c->count == 8) return false;
        bit[s] = (uint8_t)c->count;
        c->symbol[c->count++] = (int16_t)s;
        c->power[c->count] = 3 * c->power[c->count - 1];
    }
    return true;
}

/* A rule refused at a place of its formula, or at none. */
static tup_addition refused(uint8_t refusal, size_t at, const tup_board *board) {
    return (tup_addition){.refusal = refusal, .place = at, .added = 0, .board = *board};
}

tup_addition plain_rule(tup_board board, int16_t *table, size_t numbers, const uint8_t *formula, size_t bytes) {
    int16_t out[CLAUSES][WIDTH], row[WIDTH] = {0};
    reader in = {formula, formula + bytes, board.symbols, {false}};
    uint8_t bit[256];
    clauses c;
    unsigned count = 0;
    if (!plain_good(&board, table, numbers)) return refused(1, TUP_NO_PLACE, &board);
    uint8_t refusal = read_operand(&in, 1);
    if (refusal == 0 && in.at != in.end) refusal = 6;
    if (refusal != 0) return refused(refusal, (size_t)(in.at - formula), &board);
    if (!number_symbols(&in, &c, bit)) return refused(7, TUP_NO_PLACE, &board);
    memset(c.hit, 0, c.power[c.count]);
    if (!hit_full(&c, formula, bit)) return refused(8, TUP_NO_PLACE, &board);
    spread(&c);
    row[LITERALS] = (int16_t)(board.rules + 1);
    for (unsigned length = 1; length <= c.count; length++) count = collect(&c, 0, length, 0, row, 0, out, count);
    if (board.rows + count > plain_rows_lent(numbers) || board.rules == TUP_MOST_RULES) return refused(9, TUP_NO_PLACE, &board);
    if (count != 0) memcpy(table + WIDTH * board.rows, out, count * sizeof out[0]);
    board.rows = (uint16_t)(board.rows + count);
    board.rules++;
    plain_tidy(&board);
    return (tup_addition){.refusal = 0, .place = TUP_NO_PLACE, .added = (uint16_t)count, .board = board};
}
