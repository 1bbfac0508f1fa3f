/* The program desk by docs/DESK.md, over the model: what it keeps, and what it has to print for each line that it reads. */
#ifndef DESK_H
#define DESK_H

#include <stdio.h>

#include "model.h"

enum {
    LONGEST_LINE = 500,   /* bytes, without the line's end */
    SHORTEST_NAME = 3,
    LONGEST_NAME = 24,
    KEPT_TEXTS = 2048,    /* "the text of a rule above 2048 is not kept" */
    LARGEST_WORD = 32767, /* "whatever is above 32,767 counts as 32,767" */
    DESK_NUMBERS = MOST_ROWS * WIDTH
};

/* What a line is, by its first word; L_OTHER for a word that none begins with. */
enum {
    L_OPEN, L_NAME, L_RULE, L_VALVE, L_PAIRS, L_FURNACE, L_HOLD, L_DROP, L_PUSH, L_POP, L_ASK, L_WHY, L_GROUND, L_MARKS, L_BLAME, L_LEAST, L_SETS,
    L_ROWS, L_CNF, L_ECHO, L_HELP, L_OTHER, LINES
};

/* Why a line is not taken. */
enum { F_FIRST, F_NUMBER, F_SYMBOL, F_NO_NAME, F_NAME, F_TAKEN, F_MARKS, F_ON_OFF, F_MORE, FAULTS };

/* What there is between one line and the next. A board of no symbols is none: "no board is open". */
typedef struct Desk {
    FILE *out;
    unsigned long lines; /* read so far */
    bool echo;
    unsigned furnace;    /* the one that its lines work */
    Board board;
    int16_t table[DESK_NUMBERS], record[RECORD_NUMBERS];
    char names[MOST_SYMBOLS + 1][LONGEST_NAME + 1]; /* by symbol; empty for none */
    char texts[KEPT_TEXTS + 1][LONGEST_LINE + 1];   /* of the rules, by number */
} Desk;

/* A line being answered. */
typedef struct Order {
    Desk *desk;
    unsigned line;        /* what it is */
    const uint8_t *bytes; /* without its end */
    size_t length, at;    /* words ahead of `at` were looked at */
} Order;

/* A word of a line; a word that is missing has no bytes, and the line's end for its place. */
typedef struct Word {
    size_t place, length;
} Word;

/* desk.c */
void desk_start(Desk *desk, FILE *out);
void desk_line(Desk *desk, const uint8_t *raw, size_t length);
void desk_end(Desk *desk);
const char *line_word(unsigned line);

/* deskwords.c: the words of a line, "looked at from the front"; each says what is wrong, and is false then. */
bool is_letter(uint8_t byte);
bool is_name_byte(uint8_t byte);
bool is_name(const uint8_t *bytes, size_t length);
unsigned symbol_named(const Desk *desk, const uint8_t *bytes, size_t length);
bool number_by(const uint8_t *bytes, size_t length, unsigned *number);
Word next_word(Order *order);
bool word_is(const Order *order, Word word, const char *text);
bool take_number(Order *order, unsigned *number);
bool take_symbol(Order *order, unsigned *symbol);
bool take_literal(Order *order, int *literal);
bool take_literals(Order *order, int16_t *literals, unsigned *count);
bool take_name(Order *order, Word *name);
bool take_end(Order *order);

/* desksays.c: symbols, lists, refusals and faults, as they are printed. */
void print_line(const Order *order);
void print_symbol(const Desk *desk, int literal);
void print_literal(const Desk *desk, int literal);
void print_list(const Desk *desk, const int16_t *literals, unsigned count, const char *between);
unsigned list_marked(const Desk *desk, const uint8_t *marks, int16_t *literals);
void show_place(const Order *order, size_t place, const char *what, const char *sentence);
void refuse(const Order *order, unsigned refusal);
bool is_done(const Order *order, unsigned refusal);
bool not_taken(const Order *order, Word word, unsigned fault);

/* deskboard.c, deskpremises.c, deskrules.c, desktells.c, deskwhy.c, deskchoices.c: what each line does. */
typedef void Work(Order *order);
Work work_open, work_name, work_furnace, work_echo, work_rule, work_valve, work_pairs, work_literal, work_pop, work_ask, work_why, work_ground,
    work_marks, work_blame, work_least, work_sets, work_rows, work_cnf;

#endif
