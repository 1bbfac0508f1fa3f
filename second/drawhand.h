/* The candidates of a step that is being drawn, for both calls that are given some. */
#ifndef DRAWHAND_H
#define DRAWHAND_H

#include "draft.h"

enum {
    MOST_AFTER = 3,             /* numbers standing after the candidates */
    HANDS = MOST_CANDIDATES + 2 /* sorts of hands: of no candidate, of one and so on up to 12, and of more */
};

/* So many candidates wanted, and so many taken yet. */
typedef struct Hand {
    unsigned wanted, count;
    int16_t candidates[CANDIDATES_LENDABLE + MOST_AFTER];
} Hand;

unsigned symbols_of(const Draft *draft, const Play *play);
int draw_of_rows(Draft *draft, const Play *play, bool last);
void hand_start(Draft *draft, const Play *play, Hand *hand, const unsigned weights[HANDS], unsigned rounds);
void hand_take(Hand *hand, int literal);
void hand_take_premises(const Play *play, Hand *hand, unsigned furnace);
void hand_shuffle(Random *random, Hand *hand);
void hand_fill(Draft *draft, const Play *play, Hand *hand);
void hand_faults(Draft *draft, const Play *play, Hand *hand, Step *step);
void hand_keep(Draft *draft, const Play *play, Hand *hand, Step *step);

#endif
