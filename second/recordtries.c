/* Records made by hand, good and bad, on a board of 2 symbols: furnace 1 holds 1, -1 and 2, furnace 2 holds 2 and -2. Which are bad is worked out
 * from document 02's Ticket 14, and is held against the model and the library alike: then 1 is the answer of the three calls that test the record,
 * whatever else is due, and of no other call. Each is tried with the furnaces exchanged as well. */
#include "stacktries.h"
#include "tries.h"

enum { SYMBOLS = 2, NUMBERS_GIVEN = 6, LAST = PLACES - 1 };

/* The count of each stack, and its first numbers. */
typedef struct Given {
    const char *words;
    bool good;
    unsigned count[FURNACES];
    int numbers[FURNACES][NUMBERS_GIVEN];
} Given;

static const Given given[] = {
    {"empty stacks", true, {0, 0}, {{0}, {0}}},
    {"empty stacks over numbers that say nothing", true, {0, 0}, {{1, 1, 0, -32768, 3, 2}, {-1, 201, 32767, 2, 2, 0}}},
    {"one literal", true, {1, 0}, {{1}, {0}}},
    {"one literal, and the same past the count", true, {1, 0}, {{1, 1, 1, 0, -32768, 7}, {1}}},
    {"all that furnace 1 holds", true, {3, 0}, {{-1, 2, 1}, {0}}},
    {"all that both hold", true, {3, 2}, {{2, 1, -1}, {-2, 2}}},
    {"one of what the other holds too", true, {1, 1}, {{2}, {2}}},
    {"0 on top", false, {1, 0}, {{0}, {0}}},
    {"0 below", false, {2, 0}, {{0, 1}, {0}}},
    {"0 above", false, {2, 0}, {{1, 0}, {0}}},
    {"0 in the middle", false, {3, 0}, {{1, 0, 2}, {0}}},
    {"S + 1", false, {1, 0}, {{3}, {0}}},
    {"-(S + 1)", false, {1, 0}, {{-3}, {0}}},
    {"S + 1 below", false, {2, 0}, {{3, 1}, {0}}},
    {"201", false, {2, 0}, {{1, 201}, {0}}},
    {"32767", false, {1, 0}, {{32767}, {0}}},
    {"-32767", false, {1, 0}, {{-32767}, {0}}},
    {"-32768", false, {1, 0}, {{-32768}, {0}}},
    {"-32768 below", false, {2, 0}, {{-32768, 1}, {0}}},
    {"one twice", false, {2, 0}, {{1, 1}, {0}}},
    {"one twice, apart", false, {3, 0}, {{1, 2, 1}, {0}}},
    {"one twice, and all", false, {4, 0}, {{1, 2, -1, -1}, {0}}},
    {"the other's premise", false, {1, 0}, {{-2}, {0}}},
    {"the other's premise, on its stack too", false, {1, 1}, {{-2}, {-2}}},
    {"the other's premise on top", false, {2, 0}, {{2, -2}, {0}}},
    {"the other's premise below", false, {2, 0}, {{-2, 2}, {0}}},
    {"all literals, one of them not held", false, {4, 0}, {{1, -1, 2, -2}, {0}}},
    {"one held by the first furnace only", false, {0, 1}, {{0}, {1}}},
    {"the same, furnace 1's stack being good", false, {2, 1}, {{1, 2}, {-1}}},
    {"one twice on the second", false, {3, 2}, {{2, 1, -1}, {-2, -2}}},
    {"0 on the second", false, {1, 1}, {{1}, {0}}},
    {"a count of one more", false, {4, 0}, {{1, -1, 2, 0}, {0}}},
    {"a count of 2S + 1", false, {5, 0}, {{1, -1, 2, -2, 1}, {0}}},
    {"a count of 2S + 2", false, {6, 0}, {{1, -1, 2, 1, -1, 2}, {0}}},
    {"a count of 400", false, {400, 0}, {{1, -1, 2}, {0}}},
    {"a count of 401", false, {401, 0}, {{1, -1, 2}, {0}}},
    {"a count of 256", false, {256, 0}, {{1, -1, 2}, {0}}},
    {"a count of 257", false, {257, 1}, {{1}, {2}}},
    {"a count of 32768", false, {32768, 0}, {{1}, {0}}},
    {"a count of 32769", false, {32769, 0}, {{1}, {0}}},
    {"a count of 65535", false, {65535, 0}, {{1}, {0}}},
    {"a count of 65535 on the second", false, {1, 65535}, {{1}, {2}}},
    {"counts of 401 and 65535", false, {401, 65535}, {{1}, {2}}},
};

static const unsigned furnaces[] = {0, 1, 2, 3, 255};
static const int literals[] = {1, -1, 2, -2, 0, SYMBOLS + 1, -SYMBOLS - 1, 32767, -32768};

/* The caller writes a number at a place of a furnace's stack. */
static void set_stacked(Play *play, unsigned furnace, unsigned place, int number) {
    Step step = {.kind = SET_STACKED, .furnace = furnace, .place = place, .value = number};
    play_step(play, &step);
}

/* The caller writes the record; with the furnaces exchanged, or not. Its last places are written too: they are past all counts but some bad ones. */
static void set_record(Play *play, const Given *its, bool exchanged) {
    for (unsigned f = 1; f <= FURNACES; f++) {
        unsigned furnace = exchanged ? 3 - f : f;
        Step step = {.kind = SET_COUNT, .furnace = furnace, .value = (int)its->count[f - 1]};
        play_step(play, &step);
        for (unsigned i = 0; i < NUMBERS_GIVEN; i++) set_stacked(play, furnace, i, its->numbers[f - 1][i]);
        set_stacked(play, furnace, LAST, -32768);
    }
}

/* Opens the board with its premises and the record. */
static bool set_up(Play *play, const Given *its, bool exchanged) {
    static const int held[FURNACES][3] = {{1, -1, 2}, {2, -2}};
    play_start(play, 26, true);
    bool good = try_call(play, OPEN, 0, SYMBOLS, 0);
    for (unsigned f = 1; f <= FURNACES; f++) good = good && try_hold(play, exchanged ? 3 - f : f, held[f - 1], 3);
    set_record(play, its, exchanged);
    return good;
}

/* The refusal that is due where the record is good: by the furnaces and literals alone. */
static unsigned due(const Play *play, Kind kind, unsigned furnace, int literal) {
    const int16_t *record = play->ours.record + GUARD;
    if (furnace != 1 && furnace != 2) return 16;
    if (kind == POP) return stack_count(record, furnace) == 0 ? 20 : 0;
    if (literal == 0 || literal > SYMBOLS || literal < -SYMBOLS) return 2;
    bool held = play->board.held[furnace - 1][place_of(literal)];
    if (kind == PUSH) return held ? 10 : 0;
    return !held ? 11 : is_stacked(record, furnace, literal) ? 21 : 0;
}

/* Makes one of the three calls; false where the sides differ, or the refusal is not 1 for a bad record, and for a good one not what is due. */
static bool call_agrees(Play *play, const Given *its, bool exchanged, Kind kind, unsigned furnace, int literal) {
    unsigned refusal = its->good ? due(play, kind, furnace, literal) : 1;
    if (!try_call(play, kind, furnace, literal, refusal)) return false;
    return refusal != 0 || set_up(play, its, exchanged);
}

/* All furnaces and literals, for the three calls. */
static bool calls_agree(Play *play, const Given *its, bool exchanged) {
    bool good = true;
    for (unsigned f = 0; f < sizeof furnaces / sizeof furnaces[0]; f++) {
        good = good && call_agrees(play, its, exchanged, POP, furnaces[f], 0);
        for (unsigned l = 0; l < sizeof literals / sizeof literals[0]; l++)
            good = good && call_agrees(play, its, exchanged, PUSH, furnaces[f], literals[l]) &&
                   call_agrees(play, its, exchanged, WITHDRAW, furnaces[f], literals[l]);
    }
    return good;
}

/* Every other call over the record: it is not lent it, and does what it does. Then an open that is refused and leaves it, and one that is done. */
static bool others_agree(Play *play, const Given *its) {
    unsigned counts = its->count[0] + its->count[1];
    bool good = true;
    for (Kind kind = RULE; kind < CALLS && good; kind++) {
        Step step = try_lent(kind, 1, 1, PLACES);
        good = tests_record(kind) || (play_step(play, &step) && play->last.refusal != 1);
    }
    const int16_t *record = play->theirs.record + GUARD;
    good = good && try_call(play, OPEN, 0, 201, 2) && stack_count(record, 1) + stack_count(record, 2) == counts &&
           stacked_at(record, 2, LAST) == -32768 && try_call(play, OPEN, 0, SYMBOLS, 0);
    for (unsigned i = 0; i < RECORD_NUMBERS && good; i++) good = record[i] == 0;
    return good && try_call(play, PUSH, 1, 1, 0) && try_call(play, POP, 1, 0, 0) && try_call(play, POP, 2, 0, 20);
}

/* A record beside a bad board, or with S lowered to 1: 1 whatever the record has, and 1 for what is beyond S then. */
static bool boards_agree(Play *play) {
    static const int symbols[] = {0, 201, 65535, 1};
    for (unsigned i = 0; i < 4; i++) {
        bool good = set_up(play, &given[0], false);
        try_act(play, SET_SYMBOLS, 0, symbols[i]);
        for (unsigned f = 0; f < sizeof furnaces / sizeof furnaces[0]; f++)
            good = good && try_call(play, PUSH, furnaces[f], 1, 1) && try_call(play, POP, furnaces[f], 0, 1) &&
                   try_call(play, WITHDRAW, furnaces[f], 0, 1);
        if (!good) return try_wrong(play, "the record beside a bad board", "board", i + 1);
    }
    return true;
}

/* True if all records come out as they were worked out. */
bool record_tries_agree(Play *play) {
    for (size_t i = 0; i < sizeof given / sizeof given[0]; i++)
        for (unsigned exchanged = 0; exchanged < 2; exchanged++) {
            bool good = set_up(play, &given[i], exchanged) && calls_agree(play, &given[i], exchanged) && others_agree(play, &given[i]);
            if (!good) return try_wrong(play, given[i].words, "furnaces exchanged", exchanged);
        }
    return boards_agree(play);
}
