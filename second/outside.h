/* Ticket 9, "The ground is enough": literals of a board, each tried on a copy of it, by the library and beside it by the model. */
#ifndef OUTSIDE_H
#define OUTSIDE_H

#include "random.h"
#include "steps.h"

enum { MOST_MADE = 200 }; /* calls of a trial that are kept, to print them */

/* What the library said: of a furnace by settle, of a literal by explain, ground and both calls that ask. */
typedef struct Said {
    uint16_t ranks[PLACES], supports[PLACES];
    uint8_t labels[MOST_SYMBOLS];
    bool conflict;         /* some label is 3 */
    Outcome reason, ground, answer, whole;
    int16_t part[WIDTH];   /* the row that explain named, with the number of its rule; zeros where explain was refused */
    uint8_t marks[PLACES]; /* of ground; zeros where it was refused */
} Said;

/* A literal of a furnace, on a copy of the board in play: what was said of it at first, and what is said now. In between calls were made, of them so
 * many to withdraw premises outside its ground, for the other furnace's premises, refused, and only to be told something. */
typedef struct Trial {
    Random random;
    unsigned furnace;
    int literal;
    tup_board board; /* the copy, by the library and by the model */
    Board model;
    Findings found;  /* the model's, of the furnace as it was settled last */
    Outcome last;    /* of the library's last call */
    Said was, now;
    unsigned outside; /* premises outside its ground at first */
    unsigned withdrawn, others, refused, telling;
    Step made[MOST_MADE];
    size_t count;
} Trial;

/* trial.c */
void trial_start(Play *play, Trial *trial);
Step trial_step(Trial *trial, Kind kind, unsigned furnace, int value);
bool trial_call(Play *play, Trial *trial, const Step *step);
void trial_keep(Trial *trial, const Step *step);
bool trial_make(Play *play, Trial *trial, const Step *step, unsigned refusal);
bool trial_settle(Play *play, Trial *trial, Said *said);
bool trial_tell(Play *play, Trial *trial, Said *said);
bool trial_choose(Trial *trial, const bool from[PLACES], unsigned *place);
bool trial_wrong(const Play *play, const Trial *trial, const char *words);

/* outside.c */
bool grounds_are_enough(Play *play, uint64_t seed, uint64_t number);

/* between.c */
bool call_between(Play *play, Trial *trial);

/* moved.c */
bool others_may_move(Play *play, Trial *trial);

#endif
