/* From a rule to rows: every clause tested against every satisfying assignment, and against every shorter clause in it. */
#include <stdlib.h>
#include <string.h>

#include "model.h"

/* A clause is a pair of sets of the rule's symbols: those with + and those with -. */
static bool implicate[ASSIGNMENTS][ASSIGNMENTS];

/* True if the clause is true in every assignment that satisfies the rule. */
static bool true_in_all(const unsigned *models, unsigned count, unsigned plus, unsigned minus) {
    for (unsigned i = 0; i < count; i++)
        if (((models[i] & plus) | (~models[i] & minus)) == 0) return false;
    return true;
}

/* Marks for every clause over n symbols whether it is an implicate. */
static void mark_implicates(const Rule *rule, unsigned all) {
    unsigned models[ASSIGNMENTS], count = 0;
    for (unsigned a = 0; a < all; a++)
        if (rule->holds[a]) models[count++] = a;
    for (unsigned plus = 0; plus < all; plus++)
        for (unsigned minus = 0; minus < all; minus++)
            if ((plus & minus) == 0) implicate[plus][minus] = true_in_all(models, count, plus, minus);
}

/* True if the clause is an implicate and no clause made by leaving out some of its literals is one. */
static bool is_prime(unsigned plus, unsigned minus) {
    if (!implicate[plus][minus]) return false;
    unsigned all = plus | minus;
    for (unsigned part = all; part != 0;) {
        part = (part - 1) & all;
        if (implicate[plus & part][minus & part]) return false;
    }
    return true;
}

/* Writes a clause as the literals of a row: with rising symbols, zeros after them. */
static void write_row(const Rule *rule, unsigned plus, unsigned minus, int16_t row[ROW_LITERALS]) {
    unsigned used = 0;
    memset(row, 0, ROW_LITERALS * sizeof row[0]);
    for (unsigned i = 0; i < rule->count; i++) {
        if (plus >> i & 1) row[used++] = (int16_t)rule->symbol[i];
        if (minus >> i & 1) row[used++] = (int16_t)-rule->symbol[i];
    }
}

/* The number of literals in a row. */
static int literals_in(const int16_t *row) {
    int count = 0;
    while (count < ROW_LITERALS && row[count] != 0) count++;
    return count;
}

/* Orders rows: fewer literals first; then at the first place that differs the smaller symbol, and + before -. */
static int by_document_order(const void *left, const void *right) {
    const int16_t *a = left, *b = right;
    int shorter = literals_in(a) - literals_in(b);
    if (shorter != 0) return shorter;
    for (int i = 0; i < ROW_LITERALS; i++) {
        if (a[i] == b[i]) continue;
        return abs(a[i]) != abs(b[i]) ? abs(a[i]) - abs(b[i]) : b[i] - a[i];
    }
    return 0;
}

/* Writes the prime implicates of a satisfiable rule, each once, in document 01's order, and counts them. */
unsigned prime_rows(const Rule *rule, int16_t rows[MOST_CLAUSES][ROW_LITERALS]) {
    unsigned all = 1u << rule->count, count = 0;
    mark_implicates(rule, all);
    for (unsigned plus = 0; plus < all; plus++)
        for (unsigned minus = 0; minus < all; minus++)
            if ((plus & minus) == 0 && is_prime(plus, minus)) write_row(rule, plus, minus, rows[count++]);
    qsort(rows, count, sizeof rows[0], by_document_order);
    return count;
}
