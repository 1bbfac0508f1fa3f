/* Random formula texts: formulae spelt in any of their ways, texts of any bytes, and how a text is damaged. */
#ifndef SPELLER_H
#define SPELLER_H

#include "formulae.h"
#include "random.h"

enum { SHEET = 16384 };

/* A text being written, and how odd it is: how often, in a hundred, it has blanks, leading zeros, brackets without need and numbers above 255. */
typedef struct Sheet {
    Random *random;
    unsigned symbols; /* S of the board */
    unsigned blanks, zeros, brackets, beyond;
    unsigned open;    /* brackets open now */
    size_t length, given;
    uint8_t bytes[SHEET];
} Sheet;

void start_sheet(Sheet *sheet, Random *random, unsigned symbols);
bool spell_formula(Sheet *sheet, const uint8_t *formula, size_t bytes);
void write_soup(Sheet *sheet);
void spoil_sheet(Sheet *sheet);

#endif
