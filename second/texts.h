/* Random DIMACS texts: what one is written with, and how one is damaged. */
#ifndef TEXTS_H
#define TEXTS_H

#include "random.h"
#include "steps.h"

enum { PAGE = 131072, PAGE_WORDS = 16384 };

/* A text being written: its words first, literals with a 0 after each clause, then their spelling. */
typedef struct Page {
    Random *random;
    const bool *leaning;     /* the assignment that its clauses lean to */
    unsigned symbols, lean;  /* S of the board, and how much they lean */
    unsigned clauses, odd;   /* clauses so far, and how odd the spelling is, in a hundred */
    size_t words;
    int word[PAGE_WORDS];
    size_t length, given;    /* bytes that stand there, and bytes given */
    uint8_t bytes[PAGE];
} Page;

void write_text(Page *page, unsigned clauses, bool faulty);
void spoil_text(Page *page);
const uint8_t *odd_bytes(unsigned *count);

#endif
