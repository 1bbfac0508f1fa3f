/* Boards to Ticket 11, "Ask by symbol when the board is in conflict": what ask answers for every literal, and what the old answer is, was worked out
 * by hand, and is held against the model and the library alike, for each furnace beside the other. Then what both calls refuse, and in which
 * order. */
#include "asktries.h"

#include <string.h>

#include "tries.h"

enum { RULES = 4, HELD = 5 };

/* A board; what is held for one furnace and for the other; and for each of the two what ask answers, then what the call for the whole board does:
 * two letters a symbol, for + and for -, by which c is conflict, s stands, r ruled out and o open. */
typedef struct Try {
    const char *words;
    unsigned symbols;
    const char *rules[RULES];
    int held[FURNACES][HELD];
    const char *by_symbol[FURNACES], *whole[FURNACES];
} Try;

static const char letters[] = {[IS_OPEN] = 'o', [STANDS] = 's', [RULED_OUT] = 'r', [IN_CONFLICT] = 'c'};

static const Try tries[] = {
    {"a symbol of each answer, by premises", 4, {NULL}, {{1, -1, 2, -3}, {1, 2}}, {"cc sr rs oo", "sr sr oo oo"}, {"cc cc cc cc", "sr sr oo oo"}},
    {"a symbol of each answer, by rules", 5, {"5>1", "5>-1", "5>(2&-3)"}, {{5}, {-5}}, {"cc sr rs oo cc", "oo oo oo oo rs"},
     {"cc cc cc cc cc", "oo oo oo oo rs"}},
    {"a symbol of each answer for the one furnace, nothing for the other", 4, {"1>2", "1>-3"}, {{1, -1}, {0}}, {"cc sr rs oo", "oo oo oo oo"},
     {"cc cc cc cc", "oo oo oo oo"}},
    {"the printed journal", 4, {"1>2", "(2&3)>4"}, {{3, -3}, {1, 3}}, {"oo oo cc oo", "sr sr sr sr"}, {"cc cc cc cc", "sr sr sr sr"}},
    {"hold 3 and -3", 3, {NULL}, {{3, -3}, {-3}}, {"oo oo cc", "oo oo rs"}, {"cc cc cc", "oo oo rs"}},
    {"both signs of the only symbol", 1, {NULL}, {{1, -1}, {0}}, {"cc", "oo"}, {"cc", "oo"}},
    {"a conflict of the last symbol, and for the other of the first", 3, {NULL}, {{3, -3}, {1, -1}}, {"oo oo cc", "cc oo oo"},
     {"cc cc cc", "cc cc cc"}},
    {"conflicts by other symbols for each", 3, {"1>3"}, {{1, 2, -2}, {1, -3}}, {"sr cc sr", "cc oo cc"}, {"cc cc cc", "cc cc cc"}},
    {"marks that stand on a premise in conflict", 3, {"1>2", "1>-3"}, {{1, -1}, {1}}, {"cc sr rs", "sr sr rs"}, {"cc cc cc", "sr sr rs"}},
    {"a conflict that leads to one of every symbol", 3, {"1=2", "2=3"}, {{1, -1}, {2}}, {"cc cc cc", "sr sr sr"}, {"cc cc cc", "sr sr sr"}},
    {"a row whose literals are all ruled out", 3, {"1|2"}, {{-1, -2}, {-1}}, {"cc cc oo", "rs sr oo"}, {"cc cc cc", "rs sr oo"}},
    {"the rules alone in conflict", 3, {"1", "-1"}, {{2}, {0}}, {"cc sr oo", "cc oo oo"}, {"cc cc cc", "cc cc cc"}},
    {"a rule always true beside a conflict", 2, {"1|-1"}, {{2, -2}, {0}}, {"oo cc", "oo oo"}, {"cc cc", "oo oo"}},
    {"two conflicts, and marks before, between and after", 5, {"1>2", "1>-4"}, {{3, -3, 5, -5, 1}, {-1}}, {"sr sr cc rs cc", "rs oo oo oo oo"},
     {"cc cc cc cc cc", "rs oo oo oo oo"}},
    {"a mark beside a conflict of many rounds", 6, {"1>(2&6)", "2>3", "(3&4)>5", "1>-5"}, {{1, 4}, {1}}, {"cc cc cc cc cc sr", "sr sr sr rs rs sr"},
     {"cc cc cc cc cc cc", "sr sr sr rs rs sr"}},
    {"no conflict for either", 3, {"1>2", "3>-2"}, {{1}, {3}}, {"sr sr rs", "rs rs sr"}, {"sr sr rs", "rs rs sr"}},
};

/* True if one of the calls answers for every literal as the letters say. */
static bool answers(Play *play, Kind kind, unsigned furnace, const char *said) {
    bool good = strlen(said) == 3 * play->board.symbols - 1;
    for (unsigned p = 0; p < 2 * play->board.symbols && good; p++)
        good = try_call(play, kind, furnace, literal_at(p), 0) && letters[play->last.standing] == said[3 * (p / 2) + p % 2];
    return good;
}

/* Opens a board, with its rules, and its premises for a furnace and for the other one. */
static bool set_up(Play *play, const Try *try, unsigned furnace) {
    play_start(play, 23, true);
    return try_open(play, try->symbols, try->rules, RULES) && try_hold(play, furnace, try->held[0], HELD) &&
           try_hold(play, 3 - furnace, try->held[1], HELD);
}

/* True if both calls answer for both furnaces as it was worked out, whichever of them is furnace 1. */
static bool try_agrees(Play *play, const Try *try) {
    for (unsigned f = 1; f <= FURNACES; f++) {
        bool good = set_up(play, try, f) && answers(play, ASK, f, try->by_symbol[0]) && answers(play, ASK, 3 - f, try->by_symbol[1]) &&
                    answers(play, ASK_WHOLE, f, try->whole[0]) && answers(play, ASK_WHOLE, 3 - f, try->whole[1]);
        if (!good) return try_wrong(play, try->words, "furnace", f);
    }
    return true;
}

/* With 200 symbols, the first or the last of them in conflict, all others are open, and in conflict by the old answer. */
static bool ends_agree(Play *play) {
    static const int symbols[] = {1, 2, 100, 127, 128, 129, 199, 200};
    for (unsigned i = 0; i < FURNACES * 8; i++) {
        int literal = symbols[i / FURNACES], both = i % FURNACES == 0 ? MOST_SYMBOLS : 1;
        unsigned due = literal == both ? IN_CONFLICT : IS_OPEN, furnace = 1 + i % FURNACES;
        play_start(play, 24, true);
        bool good = try_open(play, MOST_SYMBOLS, NULL, 0) && try_hold(play, furnace, (int[]){both, -both}, 2);
        for (int sign = 1; sign >= -1; sign -= 2)
            good = good && try_call(play, ASK, furnace, sign * literal, 0) && play->last.standing == due &&
                   try_call(play, ASK_WHOLE, furnace, sign * literal, 0) && play->last.standing == IN_CONFLICT &&
                   try_call(play, ASK_WHOLE, 3 - furnace, sign * literal, 0) && play->last.standing == IS_OPEN;
        if (!good) return try_wrong(play, "200 symbols, the first or the last in conflict", "symbol", (unsigned)literal);
    }
    return true;
}

/* What a call is given on the second board above, which has 5 symbols: the furnace, the literal, and the refusal. */
static const struct {
    unsigned furnace;
    int literal;
    unsigned refusal;
} given[] = {
    {1, 5, 0}, {2, -5, 0}, {1, -1, 0},
    /* 2: no literal */
    {1, 0, 2}, {2, 0, 2}, {1, 6, 2}, {2, -6, 2}, {1, 200, 2}, {2, 257, 2}, {1, -255, 2}, {1, 32767, 2}, {2, -32767, 2}, {1, -32768, 2},
    /* 16: no furnace */
    {0, 1, 16}, {3, -5, 16}, {128, 4, 16}, {255, 2, 16},
    /* 16 ahead of 2 */
    {0, 0, 16}, {3, 6, 16}, {128, -6, 16}, {255, -32768, 16},
};

/* Makes a call with so many numbers of the clause table; false where the sides differ or the refusal is another. */
static bool refuses(Play *play, Kind kind, size_t i, size_t numbers, unsigned refusal) {
    Step step = try_step(kind, given[i].furnace, given[i].literal);
    step.numbers = numbers;
    return play_step(play, &step) && play->last.refusal == refusal;
}

/* Both calls refuse alike, a board in conflict or not, and 1 comes ahead of all: with a number too few for the rows in use, or with S = 0. */
static bool refusals_agree(Play *play) {
    for (size_t i = 0; i < 2 * sizeof given / sizeof given[0]; i++) {
        Kind kind = i % 2 == 0 ? ASK : ASK_WHOLE;
        bool good = set_up(play, &tries[1], 1);
        size_t numbers = WIDTH * play->board.rows;
        good = good && refuses(play, kind, i / 2, numbers, given[i / 2].refusal) && refuses(play, kind, i / 2, numbers - 1, 1);
        try_act(play, SET_SYMBOLS, 0, 0);
        if (!good || !refuses(play, kind, i / 2, numbers, 1)) return try_wrong(play, "what both calls refuse", "call", (unsigned)i / 2 + 1);
    }
    return true;
}

/* True if all answers and refusals come out as they were worked out. */
bool ask_tries_agree(Play *play) {
    for (size_t i = 0; i < sizeof tries / sizeof tries[0]; i++)
        if (!try_agrees(play, &tries[i])) return false;
    return ends_agree(play) && refusals_agree(play);
}
