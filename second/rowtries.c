/* Boards on which rows are easily found too late, too early, once too often or not at all, boards on which blame easily takes another symbol, and
 * chains to the highest ranks. The ranks and supports of each, and the premises to blame, were worked out by hand from documents 01 and 02; they are
 * held against the model and the library alike, for each furnace while the other one holds the opposites. */
#include "rowtries.h"

#include "tries.h"

enum { TRY_ROWS = 6, TRY_HELD = 7, TRY_FOUND = 14 };

/* A derived literal, its rank and its support. */
typedef struct Found {
    int literal;
    unsigned rank, support;
} Found;

/* A board: S, its rows, the first of them written so many times over, the premises, all literals that are derived, and in conflict the premises that
 * blame marks. */
typedef struct Try {
    const char *words;
    unsigned symbols, times;
    int16_t row[TRY_ROWS][ROW_LITERALS];
    int held[TRY_HELD];
    Found found[TRY_FOUND];
    int blamed[TRY_HELD];
} Try;

static const Try tries[] = {
    {"one-literal rows of both signs, one of them twice", 3, 1, {{-2}, {2}, {2}, {-2, 3}}, {0}, {{-2, 1, 0}, {2, 1, 1}, {3, 2, 3}}, {0}},
    {"a one-literal row that is held", 2, 1, {{1}, {-1, 2}}, {1}, {{1, 0, NONE}, {2, 1, 1}}, {0}},
    {"a one-literal row against a premise", 2, 1, {{-1}, {1, 2}}, {1}, {{1, 0, NONE}, {-1, 1, 0}, {2, 2, 1}}, {1}},
    {"rows in the order of the chain", 4, 1, {{1}, {-1, 2}, {-2, 3}, {-3, 4}}, {0}, {{1, 1, 0}, {2, 2, 1}, {3, 3, 2}, {4, 4, 3}}, {0}},
    {"rows against the order of the chain", 4, 1, {{-3, 4}, {-2, 3}, {-1, 2}, {1}}, {0}, {{1, 1, 3}, {2, 2, 2}, {3, 3, 1}, {4, 4, 0}}, {0}},
    {"a row gives 2, and in a later round 1", 4, 1, {{1, 2}, {-1, -3}, {1, 4}, {-2, -4}}, {3},
     {{3, 0, NONE}, {-1, 1, 1}, {2, 2, 0}, {4, 2, 2}, {-2, 3, 3}, {-4, 3, 3}, {1, 4, 0}, {-3, 5, 1}}, {3}},
    {"a row whose opposites are all held", 3, 1, {{-1, -2, 3}}, {1, 2, -3},
     {{1, 0, NONE}, {2, 0, NONE}, {-3, 0, NONE}, {-1, 1, 0}, {-2, 1, 0}, {3, 1, 0}}, {1, 2, -3}},
    {"the last two opposites in one round", 4, 1, {{2, 3, 4}, {-1, -2}, {-1, -3}}, {1},
     {{1, 0, NONE}, {-2, 1, 1}, {-3, 1, 2}, {4, 2, 0}}, {0}},
    {"a lower row in a later round", 4, 1, {{-3, 4}, {-1, 2}, {-2, 3}, {-1, 4}}, {1}, {{1, 0, NONE}, {2, 1, 1}, {3, 2, 2}, {4, 1, 3}}, {0}},
    {"the lowest row of two, found last", 4, 1, {{-3, 4}, {-2, 4}, {-1, 2}, {-1, 3}}, {1},
     {{1, 0, NONE}, {2, 1, 2}, {3, 1, 3}, {4, 2, 0}}, {0}},
    {"a lower row of the same round", 3, 1, {{-2, 3}, {-1, 2}, {-1, 3}}, {1}, {{1, 0, NONE}, {2, 1, 1}, {3, 1, 2}}, {0}},
    {"an opposite that comes in the same round", 2, 1, {{-1, -2}, {-1, 2}}, {1}, {{1, 0, NONE}, {-2, 1, 0}, {2, 1, 1}, {-1, 2, 0}}, {1}},
    {"a row of 8, two left", 8, 1, {{-1, -2, -3, -4, -5, -6, -7, 8}}, {1, 2, 3, 4, 5, 6},
     {{1, 0, NONE}, {2, 0, NONE}, {3, 0, NONE}, {4, 0, NONE}, {5, 0, NONE}, {6, 0, NONE}}, {0}},
    {"a row of 8, one left", 8, 1, {{-1, -2, -3, -4, -5, -6, -7, 8}}, {1, 2, 3, 4, 5, 6, 7},
     {{1, 0, NONE}, {2, 0, NONE}, {3, 0, NONE}, {4, 0, NONE}, {5, 0, NONE}, {6, 0, NONE}, {7, 0, NONE}, {8, 1, 0}}, {0}},
    {"one literal in every row of a full table", 200, 2047, {{-1, 2}, {-1, 3}}, {1}, {{1, 0, NONE}, {2, 1, 0}, {3, 1, 2047}}, {0}},
    {"a full table, its last row to 200", 200, 2047, {{1}, {-1, 200}}, {0}, {{1, 1, 0}, {200, 2, 2047}}, {0}},
    {"a full table, its last row to -200", 200, 2047, {{-199, 200}, {-200}}, {0}, {{-200, 1, 2047}, {-199, 2, 0}}, {0}},
    {"a full table of one row", 200, 2048, {{-193, -194, -195, -196, -197, -198, -199, -200}}, {200}, {{200, 0, NONE}}, {0}},
    {"a conflict of 6 that leads to one of 1", 6, 1, {{-3, 6}, {-4, -6}, {5, -6}, {1, -2, -5}, {-1, 6}}, {2, 3, 4},
     {{2, 0, NONE}, {3, 0, NONE}, {4, 0, NONE}, {6, 1, 0}, {-6, 1, 1}, {-1, 2, 4}, {-3, 2, 0}, {-4, 2, 1}, {5, 2, 2}, {1, 3, 3}, {-2, 3, 3},
      {-5, 3, 3}}, {3, 4}},
    {"the same with every sign turned", 6, 1, {{3, -6}, {4, 6}, {-5, 6}, {-1, 2, 5}, {1, -6}}, {-2, -3, -4},
     {{-2, 0, NONE}, {-3, 0, NONE}, {-4, 0, NONE}, {-6, 1, 0}, {6, 1, 1}, {1, 2, 4}, {3, 2, 0}, {4, 2, 1}, {-5, 2, 2}, {-1, 3, 3}, {2, 3, 3},
      {5, 3, 3}}, {-3, -4}},
    {"two symbols with both signs held", 3, 1, {{0}}, {2, -2, 3, -3}, {{2, 0, NONE}, {-2, 0, NONE}, {3, 0, NONE}, {-3, 0, NONE}}, {2, -2}},
    {"conflicts of 2 and 3 in one round, of 1 in a later one", 7, 1, {{2, -4}, {-2, -5}, {3, -6}, {-3, -7}, {1, -3}, {-1, 2}}, {4, 5, 6, 7},
     {{4, 0, NONE}, {5, 0, NONE}, {6, 0, NONE}, {7, 0, NONE}, {2, 1, 0}, {-2, 1, 1}, {3, 1, 2}, {-3, 1, 3}, {1, 2, 4}, {-1, 2, 5}, {-4, 2, 0},
      {-5, 2, 1}, {-6, 2, 2}, {-7, 2, 3}}, {4, 5}},
    {"conflicts of 2 and 3 in one round, 3 held", 6, 1, {{2, -4}, {-2, -5}, {-3, -6}}, {3, 4, 5, 6},
     {{3, 0, NONE}, {4, 0, NONE}, {5, 0, NONE}, {6, 0, NONE}, {2, 1, 0}, {-2, 1, 1}, {-3, 1, 2}, {-6, 1, 2}, {-4, 2, 0}, {-5, 2, 1}}, {4, 5}},
    {"conflicts of 2 and 3 in one round, -2 held", 6, 1, {{3, -4}, {-3, -5}, {2, -6}}, {-2, 4, 5, 6},
     {{-2, 0, NONE}, {4, 0, NONE}, {5, 0, NONE}, {6, 0, NONE}, {3, 1, 0}, {-3, 1, 1}, {2, 1, 2}, {-6, 1, 2}, {-4, 2, 0}, {-5, 2, 1}}, {-2, 6}},
    {"both signs of 2 held, 1 in conflict in the first round", 3, 1, {{1, -3}, {-1, -3}}, {2, -2, 3},
     {{2, 0, NONE}, {-2, 0, NONE}, {3, 0, NONE}, {1, 1, 0}, {-1, 1, 1}, {-3, 2, 0}}, {2, -2}},
    {"two rules against each other", 1, 1, {{1}, {-1}}, {0}, {{1, 1, 0}, {-1, 1, 1}}, {0}},
    {"two rules against each other, and two premises in a round before", 2, 1, {{1}, {-1}}, {2, -2},
     {{2, 0, NONE}, {-2, 0, NONE}, {1, 1, 0}, {-1, 1, 1}}, {2, -2}},
    {"two rules against each other, and a premise in a later conflict", 3, 1, {{2}, {-2}, {1, -3}, {-1, 2}}, {3},
     {{3, 0, NONE}, {2, 1, 0}, {-2, 1, 1}, {1, 1, 2}, {-1, 2, 3}, {-3, 3, 2}}, {0}},
};

/* What was worked out for a literal; neither rank nor support for one that is not among those derived. */
static Found found_for(const Try *try, int literal) {
    for (unsigned i = 0; i < TRY_FOUND && try->found[i].literal != 0; i++)
        if (try->found[i].literal == literal) return try->found[i];
    return (Found){literal, NONE, NONE};
}

/* Makes a call for a furnace with 2,048 rows and ample tables to write, and counts it; false where the sides differ or the refusal is another. */
static bool make(Play *play, Kind kind, unsigned furnace, int value, unsigned refusal) {
    Step step = try_step(kind, furnace, value);
    step.numbers = WIDTH * MOST_ROWS;
    return try_counted(play, &step) && play->last.refusal == refusal;
}

/* Adds a link of a chain: a symbol implies the next one. */
static void append_link(Play *play, unsigned from) {
    try_row(play, (int16_t[ROW_LITERALS]){(int16_t)-(int)from, (int16_t)(from + 1)});
}

/* Holds a premise, and its opposite for the other furnace. */
static bool hold(Play *play, unsigned furnace, int premise) {
    return make(play, HOLD, furnace, premise, 0) && make(play, HOLD, 3 - furnace, -premise, 0);
}

/* Opens the board, with its rows and premises. */
static bool set_up(Play *play, unsigned furnace, const Try *try) {
    play_start(play, 8, true);
    bool good = make(play, OPEN, 0, (int)try->symbols, 0);
    for (unsigned n = 1; n < try->times; n++) try_row(play, try->row[0]);
    for (unsigned r = 0; r < TRY_ROWS && try->row[r][0] != 0; r++) try_row(play, try->row[r]);
    for (unsigned i = 0; i < TRY_HELD && try->held[i] != 0; i++) good = good && hold(play, furnace, try->held[i]);
    return good;
}

/* True if settle gives the ranks and supports that were worked out, and no others. */
static bool settles(Play *play, unsigned furnace, const Try *try) {
    bool good = make(play, SETTLE, furnace, 0, 0);
    for (unsigned p = 0; p < 2 * try->symbols && good; p++) {
        Found found = found_for(try, literal_at(p));
        good = play->ours.ranks[GUARD + p] == found.rank && play->ours.supports[GUARD + p] == found.support;
    }
    return good;
}

/* True if some literal and its opposite are among those worked out. */
static bool in_conflict(const Try *try) {
    for (unsigned i = 0; i < TRY_FOUND && try->found[i].literal != 0; i++)
        if (found_for(try, -try->found[i].literal).rank != NONE) return true;
    return false;
}

/* Asks for a literal by symbol and of the whole board; true if the answers are those of the ranks worked out. Not counted, so that answers in
 * conflict still have to come up at random. */
static bool answers(Play *play, unsigned furnace, const Try *try, int literal) {
    bool stands = found_for(try, literal).rank != NONE, ruled_out = found_for(try, -literal).rank != NONE;
    unsigned due = stands && ruled_out ? IN_CONFLICT : stands ? STANDS : ruled_out ? RULED_OUT : IS_OPEN;
    return try_call(play, ASK, furnace, literal, 0) && play->last.standing == due && try_call(play, ASK_WHOLE, furnace, literal, 0) &&
           play->last.standing == (in_conflict(try) ? IN_CONFLICT : due);
}

/* Asks, explains and grounds every literal of the board: an answer for each, a reason for those with a support, a ground for those with a rank.
 * Each row is from a rule of its own, whose number is one more than the row's; a refused explain tells 0. */
static bool follows(Play *play, unsigned furnace, const Try *try) {
    bool good = true;
    for (unsigned p = 0; p < 2 * try->symbols && good; p++) {
        Found found = found_for(try, literal_at(p));
        good = answers(play, furnace, try, found.literal) && make(play, EXPLAIN, furnace, found.literal, found.support == NONE ? 12 : 0) &&
               play->last.rule == (found.support == NONE ? 0 : found.support + 1) &&
               make(play, GROUND, furnace, found.literal, found.rank == NONE ? 12 : 0);
    }
    return good;
}

/* True if blame is refused where there is no conflict, and otherwise marks the premises that were worked out. */
static bool blames(Play *play, unsigned furnace, const Try *try) {
    return in_conflict(try) ? make(play, BLAME, furnace, 0, 0) && try_marked(play, try->blamed, TRY_HELD) : make(play, BLAME, furnace, 0, 12);
}

/* True if a board comes out as it was worked out; literal by literal too, where that is not too long. */
static bool board_agrees(Play *play, unsigned furnace, const Try *try) {
    return set_up(play, furnace, try) && settles(play, furnace, try) && (try->times > 1 || follows(play, furnace, try)) && blames(play, furnace, try);
}

/* Makes a call on a chain below, and counts it only with 200 symbols, so that with fewer its ranks still have to come up at random. */
static bool make_on_chain(Play *play, Kind kind, unsigned furnace, int value) {
    return play->board.symbols == MOST_SYMBOLS ? make(play, kind, furnace, value, 0) : try_call(play, kind, furnace, value, 0);
}

/* True if settle gives the ranks and supports of a chain below that were worked out. */
static bool chain_settles(Play *play, unsigned furnace, unsigned front) {
    const uint16_t *ranks = play->ours.ranks + GUARD, *supports = play->ours.supports + GUARD;
    unsigned symbols = play->board.symbols, turn = play->board.rows - 1;
    bool good = make_on_chain(play, SETTLE, furnace, 0);
    for (unsigned s = 1; s <= symbols && good; s++) {
        unsigned plus = place_of((int)s), minus = place_of(-(int)s);
        good = ranks[plus] == front + s - 1 && supports[plus] == (front + s == 1 ? NONE : front + s - 2) &&
               ranks[minus] == front + 2 * symbols - 1 - s && supports[minus] == (s == symbols ? turn : front + s - 1);
    }
    return good;
}

/* A chain over all S symbols, each link many times over where there are rows left, and a last row that leads back along the opposites. It starts from
 * the premise 1, or with a row in front from that row of 1 alone. From the premise s has rank s - 1 and -s rank 2S - 1 - s, both by the first row of
 * their link, but -S by the last row. With a row in front, which gives 1, these ranks and the numbers of the links' rows are one more each, so that
 * -1 has rank 2S - 1. S is in conflict first, and the premise is to blame, or nothing. */
static bool chain_agrees(Play *play, unsigned furnace, unsigned front, unsigned symbols, unsigned rows) {
    const unsigned links = symbols - 1;
    play_start(play, 8, true);
    bool good = make(play, OPEN, 0, (int)symbols, 0);
    if (front == 1) try_row(play, (int16_t[ROW_LITERALS]){1});
    for (unsigned r = front; r < rows - 1; r++) append_link(play, (r - front) % links + 1);
    try_row(play, (int16_t[ROW_LITERALS]){(int16_t)-(int)links, (int16_t)-(int)symbols});
    good = good && make_on_chain(play, HOLD, 3 - furnace, -1) && (front == 1 || make_on_chain(play, HOLD, furnace, 1));
    return good && chain_settles(play, furnace, front) && make_on_chain(play, EXPLAIN, furnace, -1) && play->last.rank == front + 2 * symbols - 2 &&
           play->last.row == front && play->last.rule == front + 1 && make_on_chain(play, BLAME, furnace, 0) &&
           try_marked(play, (int[]){1}, 1 - front);
}

/* Both chains of 200 symbols in a full table, the one with a row in front in just the rows that it needs too; and such ones of fewer symbols, every
 * second S for a furnace, so that the two of them have every S. */
static bool chains_agree(Play *play, unsigned furnace) {
    bool good = chain_agrees(play, furnace, 0, MOST_SYMBOLS, MOST_ROWS) && chain_agrees(play, furnace, 1, MOST_SYMBOLS, MOST_ROWS) &&
                chain_agrees(play, furnace, 1, MOST_SYMBOLS, MOST_SYMBOLS + 1);
    if (!good) return try_wrong(play, "a chain over 200 symbols and back", "furnace", furnace);
    for (unsigned s = 1 + furnace; s < MOST_SYMBOLS; s += FURNACES)
        if (!chain_agrees(play, furnace, 1, s, s + 1)) return try_wrong(play, "a chain from a row over all symbols and back", "S", s);
    return true;
}

/* A chain from 2 on and back: s has rank s - 2 and -s rank 398 - s, so that 200 is in conflict first, in round 198. 1 is held, and -1 has rank 256 by
 * -143 and -144: cut to a byte it would be the smallest of all. */
static bool high_ranks_agree(Play *play, unsigned furnace) {
    const uint16_t *ranks = play->ours.ranks + GUARD;
    play_start(play, 8, true);
    bool good = make(play, OPEN, 0, MOST_SYMBOLS, 0);
    for (unsigned s = 2; s < MOST_SYMBOLS; s++) append_link(play, s);
    try_row(play, (int16_t[ROW_LITERALS]){-199, -200});
    try_row(play, (int16_t[ROW_LITERALS]){-1, 143, 144});
    good = good && hold(play, furnace, 1) && hold(play, furnace, 2) && make(play, SETTLE, furnace, 0, 0) && ranks[place_of(1)] == 0 &&
           ranks[place_of(-1)] == 256;
    for (unsigned s = 2; s <= MOST_SYMBOLS && good; s++) good = ranks[place_of((int)s)] == s - 2 && ranks[place_of(-(int)s)] == 398 - s;
    return good && make(play, BLAME, furnace, 0, 0) && try_marked(play, (int[]){2}, 1);
}

/* True if all boards come out as they were worked out, for each furnace; says which one does not. */
bool row_tries_agree(Play *play) {
    for (unsigned f = 1; f <= FURNACES; f++) {
        for (size_t i = 0; i < sizeof tries / sizeof tries[0]; i++)
            if (!board_agrees(play, f, &tries[i])) return try_wrong(play, tries[i].words, "furnace", f);
        if (!chains_agree(play, f)) return false;
        if (!high_ranks_agree(play, f)) return try_wrong(play, "a chain and back, ranks of more than a byte", "furnace", f);
    }
    return true;
}
