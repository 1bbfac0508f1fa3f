/* Stacks as deep as they can be: every literal of a board is pushed, on both stacks, and popped again in order. Room never runs out before that, and
 * nothing is left to push then; a count beyond it is refused, whatever stands in the places. */
#include "stacktries.h"
#include "tries.h"

/* The literal that is pushed so-manyth: +1, -1, +2, -2 and so on for furnace 1; from the last symbol down, and - before +, for furnace 2. */
static int literal_of(unsigned symbols, unsigned furnace, unsigned at) {
    return furnace == 1 ? literal_at(at) : literal_at(2 * symbols - 1 - at);
}

/* The caller writes the count of a furnace's stack. */
static void set_count(Play *play, unsigned furnace, unsigned count) {
    Step step = {.kind = SET_COUNT, .furnace = furnace, .value = (int)count};
    play_step(play, &step);
}

/* The caller writes a number at a place of a furnace's stack. */
static void set_stacked(Play *play, unsigned furnace, unsigned place, int number) {
    Step step = {.kind = SET_STACKED, .furnace = furnace, .place = place, .value = number};
    play_step(play, &step);
}

/* True if so many are on both stacks, each with this one on top. */
static bool tops_are(const Play *play, unsigned count, unsigned symbols) {
    const int16_t *record = play->theirs.record + GUARD;
    bool good = true;
    for (unsigned f = 1; f <= FURNACES; f++)
        good = good && stack_count(record, f) == count && (count == 0 || stacked_at(record, f, count - 1) == literal_of(symbols, f, count - 1));
    return good;
}

/* Pushes every literal for both furnaces, which take turns. */
static bool fill(Play *play, unsigned symbols) {
    bool good = true;
    for (unsigned i = 0; i < 2 * symbols && good; i++) {
        for (unsigned f = 1; f <= FURNACES; f++) good = good && try_call(play, PUSH, f, literal_of(symbols, f, i), 0);
        good = good && tops_are(play, i + 1, symbols);
    }
    return good;
}

/* Nothing can be pushed or withdrawn on full stacks: all is held, and stacked. */
static bool full_agrees(Play *play, unsigned symbols) {
    const int last = (int)symbols, some[] = {1, -1, last, -last};
    bool good = true;
    for (unsigned i = 0; i < FURNACES * 4; i++) {
        unsigned f = 1 + i % FURNACES;
        good = good && try_call(play, PUSH, f, some[i / FURNACES], 10) && try_call(play, WITHDRAW, f, some[i / FURNACES], 21) &&
               try_call(play, HOLD, f, some[i / FURNACES], 10);
    }
    return good && try_call(play, PUSH, 1, last + 1, 2) && try_call(play, PUSH, 2, -last - 1, 2) && try_call(play, WITHDRAW, 1, last + 1, 2);
}

/* A count beyond 2S, and a number at the top or at the bottom that is wrong, on full stacks: 1. Then all is put back. */
static bool spoilt_agrees(Play *play, unsigned symbols, unsigned furnace) {
    const unsigned full = 2 * symbols, counts[] = {full + 1, PLACES + 1, full + 256, 32768 + full, 65535};
    const unsigned places[] = {0, full - 1};
    bool good = true;
    for (unsigned i = 0; i < 5; i++) {
        set_count(play, furnace, counts[i]);
        for (unsigned f = 1; f <= FURNACES; f++)
            good = good && try_call(play, POP, f, 0, 1) && try_call(play, WITHDRAW, f, 1, 1) && try_call(play, PUSH, f, 1, 1);
        set_count(play, furnace, full);
    }
    for (unsigned i = 0; i < 2; i++) {
        int before = literal_of(symbols, furnace, places[i]), wrong[] = {0, -before, before < 0 ? -(int)symbols - 1 : (int)symbols + 1, -32768};
        for (unsigned w = 0; w < 4; w++) {
            set_stacked(play, furnace, places[i], wrong[w]);
            for (unsigned f = 1; f <= FURNACES; f++) good = good && try_call(play, POP, f, 0, 1) && try_call(play, WITHDRAW, f, 1, 1);
        }
        set_stacked(play, furnace, places[i], before);
    }
    return good && full_agrees(play, symbols);
}

/* Pops all of them, the last one first. */
static bool drain(Play *play, unsigned symbols) {
    bool good = true;
    for (unsigned i = 2 * symbols; i > 0 && good; i--) {
        for (unsigned f = FURNACES; f > 0; f--) good = good && try_call(play, POP, f, 0, 0) && play->tried == literal_of(symbols, f, i - 1);
        good = good && tops_are(play, i - 1, symbols);
    }
    return good && try_call(play, POP, 1, 0, 20) && try_call(play, POP, 2, 0, 20);
}

/* True if stacks of every literal come out so, on boards of 1, 2, 100 and 200 symbols, twice over each. */
bool deep_tries_agree(Play *play) {
    static const unsigned symbols[] = {1, 2, 100, MOST_SYMBOLS};
    for (unsigned i = 0; i < 4; i++) {
        unsigned most = symbols[i];
        play_start(play, 27, true);
        bool good = try_call(play, OPEN, 0, (int)most, 0) && fill(play, most) && full_agrees(play, most) && spoilt_agrees(play, most, 1) &&
                    spoilt_agrees(play, most, 2) && drain(play, most) && fill(play, most) && try_call(play, OPEN, 0, 201, 2) &&
                    tops_are(play, 2 * most, most) && try_call(play, OPEN, 0, (int)most, 0) && tops_are(play, 0, most);
        if (!good) return try_wrong(play, "stacks of every literal", "symbols", most);
    }
    return true;
}
