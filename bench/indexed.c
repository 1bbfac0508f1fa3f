/* Settle, both asks, ground and blame as a C programmer would write them with the rows found by literal: in the call, one list for each place of the
 * cells of the table that have its literal, made from the last row on so that each list rises; a queue of the places that got a rank; and a count for
 * each row of its literals that are not ruled out yet. A row is looked at when its count falls to 1 or 0. Each support is searched for, as its
 * definition says, over the rows that have the literal. The same tests, the same outputs, no proof. */
#include "indexed.h"

#include <string.h>

#include "plain.h"

/* Cells are the places for literals, counted through all rows. */
enum { WIDTH = TUP_ROW_WIDTH, LITERALS = TUP_ROW_LITERALS, NONE = TUP_NONE, CELLS = TUP_MOST_ROWS * LITERALS };

/* The memory of a call. */
typedef struct work {
    unsigned count;              /* places in the queue */
    uint16_t queue[TUP_PLACES];  /* places with a rank, the ranks rising */
    uint16_t head[TUP_PLACES];   /* the first cell that has the literal of the place, or NONE */
    uint8_t left[TUP_MOST_ROWS]; /* literals of the row that are not ruled out */
    uint16_t next[CELLS];        /* the next cell that has the same literal, or NONE */
    uint16_t sum[TUP_MOST_ROWS]; /* where the call sums: the places left of the row, joined by exclusive or; with one left it is that one */
} work;

/* Gives the literal rank k if it has none. */
static inline void give(work *w, uint16_t *ranks, unsigned p, unsigned k) {
    if (ranks[p] != NONE) return;
    ranks[p] = (uint16_t)k;
    w->queue[w->count++] = (uint16_t)p;
}

/* Gives rank 0 to the premises. */
static void rank_premises(work *w, const uint8_t *held, unsigned places, uint16_t *ranks) {
    w->count = 0;
    memset(ranks, 0xFF, places * sizeof ranks[0]);
    for (unsigned p = 0; p < places; p++)
        if (held[p] != 0) give(w, ranks, p, 0);
}

/* Makes the lists and the counts; a row of one literal gives it rank 1. */
static inline void index_rows(work *w, const tup_board *board, const int16_t *table, uint16_t *ranks, bool summing) {
    memset(w->head, 0xFF, sizeof w->head);
    for (size_t r = board->rows; r-- > 0;) {
        const int16_t *row = table + WIDTH * r;
        unsigned i = 0, sum = 0;
        for (; i < LITERALS && row[i] != 0; i++) {
            unsigned p = place(row[i]);
            w->next[LITERALS * r + i] = w->head[p];
            w->head[p] = (uint16_t)(LITERALS * r + i);
            sum ^= p;
        }
        w->left[r] = (uint8_t)i;
        if (summing) w->sum[r] = (uint16_t)sum;
        if (i == 1) give(w, ranks, place(row[0]), 1);
    }
}

/* Gives rank k to every literal of the row. */
static inline void give_all(work *w, const int16_t *row, unsigned k, uint16_t *ranks) {
    for (int i = 0; i < LITERALS && row[i] != 0; i++) give(w, ranks, place(row[i]), k);
}

/* A row with one literal left or none in round k: that one is given the rank, or all are. */
static inline void look(work *w, const int16_t *row, unsigned k, uint16_t *ranks) {
    int i = 0;
    for (; i < LITERALS && row[i] != 0; i++) {
        if (ranks[place(-row[i])] >= k) {
            give(w, ranks, place(row[i]), k);
            return;
        }
    }
    while (i-- > 0) give(w, ranks, place(row[i]), k);
}

/* Round k for the literal of place p, which is ruled out: counts down the rows that have it. */
static inline void rule_out(work *w, const int16_t *table, unsigned p, unsigned k, uint16_t *ranks) {
    for (unsigned cell = w->head[p]; cell != NONE; cell = w->next[cell]) {
        unsigned r = cell / LITERALS;
        if (--w->left[r] <= 1) look(w, table + WIDTH * r, k, ranks);
    }
}

/* The same with sums: the place of the only literal left is known. */
static inline void rule_out_summing(work *w, const int16_t *table, unsigned p, unsigned k, uint16_t *ranks) {
    for (unsigned cell = w->head[p]; cell != NONE; cell = w->next[cell]) {
        unsigned r = cell / LITERALS, left = --w->left[r];
        w->sum[r] ^= (uint16_t)p;
        if (left == 1) give(w, ranks, w->sum[r], k);
        else if (left == 0) give_all(w, table + WIDTH * r, k, ranks);
    }
}

/* Ranks by rounds: round k takes the places of rank k - 1 from the queue, and gives rank k. */
static void rank_all(work *w, const tup_board *board, const uint8_t *held, const int16_t *table, uint16_t *ranks, bool summing) {
    rank_premises(w, held, 2u * board->symbols, ranks);
    unsigned at = 0, end = w->count;
    index_rows(w, board, table, ranks, summing);
    for (unsigned k = 1; at < w->count; k++, end = w->count)
        for (; at < end; at++) {
            if (summing) rule_out_summing(w, table, w->queue[at] ^ 1u, k, ranks);
            else rule_out(w, table, w->queue[at] ^ 1u, k, ranks);
        }
}

/* The lowest-numbered row that gave place p its rank. */
static uint16_t support(const work *w, const int16_t *table, const uint16_t *ranks, unsigned p) {
    uint16_t rank = ranks[p];
    for (unsigned cell = w->head[p]; cell != NONE; cell = w->next[cell]) {
        const int16_t *row = table + WIDTH * (cell / LITERALS);
        int i = 0;
        for (; i < LITERALS && row[i] != 0; i++)
            if (place(row[i]) != p && ranks[place(-row[i])] >= rank) break;
        if (i == LITERALS || row[i] == 0) return (uint16_t)(cell / LITERALS);
    }
    return NONE;
}

/* Settles a board that was tested. */
static inline void settle(const tup_board *board, const uint8_t *held, const int16_t *table, uint8_t *labels, uint16_t *ranks, uint16_t *supports,
                          bool summing) {
    work w;
    rank_all(&w, board, held, table, ranks, summing);
    plain_label_all(board, ranks, labels);
    memset(supports, 0xFF, 2u * board->symbols * sizeof supports[0]);
    for (unsigned i = 0; i < w.count; i++)
        if (ranks[w.queue[i]] != 0) supports[w.queue[i]] = support(&w, table, ranks, w.queue[i]);
}

uint8_t indexed_settle(tup_board board, const int16_t *table, size_t numbers, uint8_t furnace, uint8_t *labels, size_t label_count,
                       uint16_t *ranks, size_t rank_count, uint16_t *supports, size_t support_count) {
    uint8_t refusal = plain_settle_tests(&board, table, numbers, furnace, label_count, rank_count, support_count);
    if (refusal == 0) settle(&board, board.held[furnace - 1], table, labels, ranks, supports, false);
    return refusal;
}

uint8_t indexed_settle_summing(tup_board board, const int16_t *table, size_t numbers, uint8_t furnace, uint8_t *labels, size_t label_count,
                               uint16_t *ranks, size_t rank_count, uint16_t *supports, size_t support_count) {
    uint8_t refusal = plain_settle_tests(&board, table, numbers, furnace, label_count, rank_count, support_count);
    if (refusal == 0) settle(&board, board.held[furnace - 1], table, labels, ranks, supports, true);
    return refusal;
}

/* True if a literal of the queue, which has all that are derived, has its opposite derived too. */
static bool conflict(const work *w, const uint16_t *ranks) {
    for (unsigned i = 0; i < w->count; i++)
        if (ranks[w->queue[i] ^ 1u] != NONE) return true;
    return false;
}

/* Both asks. */
static tup_answer answer(const tup_board *board, const int16_t *table, size_t numbers, uint8_t furnace, int16_t literal, bool whole) {
    work w;
    uint16_t ranks[TUP_PLACES];
    uint8_t refusal = plain_ask_tests(board, table, numbers, furnace, literal);
    if (refusal != 0) return (tup_answer){refusal, TUP_OPEN};
    rank_all(&w, board, board->held[furnace - 1], table, ranks, false);
    return plain_standing(ranks, literal, whole ? conflict(&w, ranks) : plain_clash(ranks, literal));
}

tup_answer indexed_ask(tup_board board, const int16_t *table, size_t numbers, uint8_t furnace, int16_t literal) {
    return answer(&board, table, numbers, furnace, literal, false);
}

tup_answer indexed_ask_whole(tup_board board, const int16_t *table, size_t numbers, uint8_t furnace, int16_t literal) {
    return answer(&board, table, numbers, furnace, literal, true);
}

/* Marks the premises that the literals of two places reach, each of which has a rank. */
static void mark_grounds(const work *w, const int16_t *table, const uint16_t *ranks, unsigned places, unsigned p, unsigned q, uint8_t *marks) {
    uint16_t waiting[TUP_PLACES];
    bool seen[TUP_PLACES] = {false};
    unsigned count = 0;
    memset(marks, 0, places);
    seen[waiting[count++] = (uint16_t)p] = true;
    if (q != p) seen[waiting[count++] = (uint16_t)q] = true;
    while (count > 0) {
        unsigned of = waiting[--count];
        if (ranks[of] == 0) {
            marks[of] = 1;
            continue;
        }
        const int16_t *row = table + WIDTH * support(w, table, ranks, of);
        for (int i = 0; i < LITERALS && row[i] != 0; i++) {
            unsigned next = place(-row[i]);
            if (place(row[i]) == of || seen[next]) continue;
            seen[next] = true;
            waiting[count++] = (uint16_t)next;
        }
    }
}

uint8_t indexed_ground(tup_board board, const int16_t *table, size_t numbers, uint8_t furnace, int16_t literal, uint8_t *marks,
                       size_t mark_count) {
    work w;
    uint16_t ranks[TUP_PLACES];
    unsigned places = 2u * board.symbols;
    uint8_t refusal = plain_tests(&board, table, numbers, furnace);
    if (refusal != 0) return refusal;
    if (!plain_fits(literal, &board)) return 2;
    if (mark_count < places) return 13;
    rank_all(&w, &board, board.held[furnace - 1], table, ranks, false);
    unsigned p = place(literal);
    if (ranks[p] == NONE) return 12;
    mark_grounds(&w, table, ranks, places, p, p, marks);
    return 0;
}

uint8_t indexed_blame(tup_board board, const int16_t *table, size_t numbers, uint8_t furnace, uint8_t *marks, size_t mark_count) {
    work w;
    uint16_t ranks[TUP_PLACES], least = NONE;
    unsigned places = 2u * board.symbols, first = 0;
    uint8_t refusal = plain_tests(&board, table, numbers, furnace);
    if (refusal != 0) return refusal;
    if (mark_count < places) return 13;
    rank_all(&w, &board, board.held[furnace - 1], table, ranks, false);
    for (unsigned p = 0; p < places; p += 2) {
        uint16_t larger = ranks[p] > ranks[p + 1] ? ranks[p] : ranks[p + 1]; /* NONE is above every rank */
        if (larger >= least) continue;
        least = larger;
        first = p;
    }
    if (least == NONE) return 12;
    mark_grounds(&w, table, ranks, places, first, first + 1, marks);
    return 0;
}
