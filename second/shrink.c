/* The shortest sequence that still shows a difference: steps are dropped in ever smaller runs, then one by one and in pairs.
 * Where rows go with a step, the table lent to the last one may be shorter by as many. */
#include <string.h>

#include "steps.h"

static Step trial[MOST_STEPS];

/* Plays the steps from the start; the number of the first step that differs, or the count. */
static size_t replay(Play *play, const Step *steps, size_t count, uint64_t seed) {
    play_start(play, seed, true);
    for (size_t i = 0; i < count; i++)
        if (!play_step(play, &steps[i])) return i;
    return count;
}

/* Copies the steps without two runs of them; returns how many are left. */
static size_t without(const Step *steps, size_t count, size_t from, size_t run, size_t other) {
    size_t left = 0;
    for (size_t i = 0; i < count; i++)
        if ((i < from || i >= from + run) && i != other) trial[left++] = steps[i];
    return left;
}

/* Rows in use when the last of the steps comes. */
static size_t rows_at_last(Play *play, const Step *steps, size_t count, uint64_t seed) {
    replay(play, steps, count - 1, seed);
    return play->board.rows;
}

/* Lends the last step of the trial a table shorter by the rows that are gone; false where none are. */
static bool shorten_table(Play *play, const Step *steps, size_t count, size_t left, uint64_t seed) {
    if (left == 0) return false;
    size_t before = rows_at_last(play, steps, count, seed), now = rows_at_last(play, trial, left, seed);
    if (now >= before || trial[left - 1].numbers < WIDTH * (before - now)) return false;
    trial[left - 1].numbers -= WIDTH * (before - now);
    return true;
}

/* Takes the trial over if it still differs, as it is or with a shorter table; what comes after the difference goes as well. */
static bool take_over(Play *play, Step *steps, size_t *count, size_t left, uint64_t seed) {
    size_t at = replay(play, trial, left, seed);
    if (at == left && shorten_table(play, steps, *count, left, seed)) at = replay(play, trial, left, seed);
    if (at == left) return false;
    *count = at + 1;
    memcpy(steps, trial, *count * sizeof steps[0]);
    return true;
}

/* Drops runs of a length wherever that can be done. */
static bool drop_runs(Play *play, Step *steps, size_t *count, size_t run, uint64_t seed) {
    bool any = false;
    for (size_t end = *count; end > 0; end = end > run ? end - run : 0) {
        size_t from = end > run ? end - run : 0;
        if (end > *count) continue;
        any |= take_over(play, steps, count, without(steps, *count, from, end - from, MOST_STEPS), seed);
    }
    return any;
}

/* Drops two steps at once wherever that can be done. */
static bool drop_pairs(Play *play, Step *steps, size_t *count, uint64_t seed) {
    for (size_t i = 0; i < *count; i++)
        for (size_t j = i + 1; j < *count; j++)
            if (take_over(play, steps, count, without(steps, *count, i, 1, j), seed)) return true;
    return false;
}

/* Shrinks a sequence that differs; returns its new length. The play is left at the difference. */
size_t shrink(Play *play, Step *steps, size_t count, uint64_t seed) {
    bool again = true;
    for (size_t run = count / 2; run > 1; run /= 2) drop_runs(play, steps, &count, run, seed);
    while (again) {
        again = drop_runs(play, steps, &count, 1, seed);
        if (!again && count <= 60) again = drop_pairs(play, steps, &count, seed);
    }
    replay(play, steps, count, seed);
    return count;
}
