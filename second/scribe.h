/* Random lines for desk: what one is drawn with. */
#ifndef SCRIBE_H
#define SCRIBE_H

#include "desk.h"
#include "random.h"

enum { LINE_ROOM = 8192, WORD_ROOM = 64, MOST_WORDS = 300, MOST_VALVES = 12, FREE_BOARD = 5 };

/* A script being written, each line of it by what the desk has after the lines before; a line is words, then bytes. */
typedef struct Scribe {
    Random random;
    Desk *desk;
    FILE *in;
    bool leaning[MOST_SYMBOLS + 1];  /* an assignment that rules and premises lean to, so that boards stay out of conflict */
    unsigned blanks;                 /* how often, in a hundred, there are more blanks than are needed */
    Variable valves[MOST_VALVES];    /* entered on this board */
    unsigned valve_count;
    char freed[LONGEST_NAME + 1];    /* a name that some symbol had */
    unsigned words;
    char word[MOST_WORDS][WORD_ROOM];
    size_t length;
    uint8_t bytes[LINE_ROOM];
} Scribe;

/* scribe.c: the words and the bytes of a line, and handing it to the desk. */
void start_words(Scribe *scribe, const char *first);
void add_word(Scribe *scribe, const char *word);
void add_number(Scribe *scribe, unsigned number);
void add_symbol(Scribe *scribe, unsigned symbol);
void add_literal(Scribe *scribe, int literal);
void put_byte(Scribe *scribe, unsigned byte);
void put_text(Scribe *scribe, const char *text);
void put_blanks(Scribe *scribe, unsigned least);
void join_words(Scribe *scribe);
void give_line(Scribe *scribe, bool last);

/* scribeliterals.c: literals to be told of, by what the furnace holds and derives. */
unsigned scribe_symbols(const Scribe *scribe);
int leaning_or_not(Scribe *scribe);
int derived_literal(Scribe *scribe);
int held_literal(Scribe *scribe);
int fresh_literal(Scribe *scribe);
int told_literal(Scribe *scribe);

/* scribenames.c */
void draw_name_line(Scribe *scribe);
void draw_new_name(Scribe *scribe, char name[LONGEST_NAME + 1]);

/* scriberules.c */
void draw_rule_line(Scribe *scribe);

/* scribevalves.c */
void draw_valve_line(Scribe *scribe);
void draw_pairs_line(Scribe *scribe);

/* scribelines.c */
void draw_line(Scribe *scribe, unsigned line);
void draw_quiet_line(Scribe *scribe);

/* scribefaults.c */
void draw_other_line(Scribe *scribe);
void spoil_words(Scribe *scribe);
void spoil_bytes(Scribe *scribe);
void make_long(Scribe *scribe);

#endif
