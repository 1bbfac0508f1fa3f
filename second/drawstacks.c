/* Drawing literals that are on a stack: they tell 21 from 11 and from a withdrawal that is done, and a premise on trial from one held for good. */
#include "drawstacks.h"

#include "drawfurnace.h"

/* A literal on the stack of the furnace that the call names, now and then on the other one's; every third time the top. 0 where the stack is empty,
 * or says that it has more than there can be. */
int draw_stacked(Draft *draft, const Play *play, const Step *step) {
    Random *random = &draft->random;
    const int16_t *record = play->ours.record + GUARD;
    unsigned furnace = random_chance(random, 25) ? 3 - furnace_meant(step) : furnace_meant(step), count = stack_count(record, furnace);
    if (count == 0 || count > PLACES) return 0;
    return stacked_at(record, furnace, random_chance(random, 33) ? count - 1 : random_below(random, count));
}
