/* Boards to Ticket 9, "The ground is enough": what is kept where premises outside a literal's ground are withdrawn, and what moves a literal that
 * Ticket 9 does not speak of. What each call says was worked out by hand, and is held against the model and the library alike, for each furnace. */
#include "outsidetries.h"

#include <string.h>

#include "tries.h"

enum { MOVES = 30, MARKED = 3 };

/* A call; the refusal, and for one that is done what it says: explain the rank, the row and the rule, ground the premises marked, either call that
 * asks the standing. For settle value is a symbol, and it says that symbol's label. */
typedef struct Move {
    Kind kind;
    bool for_other; /* for the other furnace */
    int value;
    const char *text; /* of a rule */
    unsigned refusal;
    unsigned says[3];
    int marked[MARKED];
} Move;

/* Moves until one that is all zeros. */
typedef struct Try {
    const char *words;
    Move moves[MOVES];
} Try;

#define OPENS(symbols) {.kind = OPEN, .value = symbols}
#define ADDS(rule) {.kind = TEXT_RULE, .text = rule}
#define HOLDS(literal) {.kind = HOLD, .value = literal}
#define DROPS(literal) {.kind = WITHDRAW, .value = literal}
#define OTHER_HOLDS(literal) {.kind = HOLD, .for_other = true, .value = literal}
#define OTHER_DROPS(literal) {.kind = WITHDRAW, .for_other = true, .value = literal}
#define BY_RANK_ROW_RULE(literal, rank, row, rule) {.kind = EXPLAIN, .value = literal, .says = {rank, row, rule}}
#define NOT_EXPLAINED(literal) {.kind = EXPLAIN, .value = literal, .refusal = 12}
#define STANDS_ON(literal, ...) {.kind = GROUND, .value = literal, .marked = {__VA_ARGS__}}
#define NO_GROUND(literal) {.kind = GROUND, .value = literal, .refusal = 12}
#define ANSWER(literal, standing) {.kind = ASK, .value = literal, .says = {standing}}
#define ANSWER_WHOLE(literal, standing) {.kind = ASK_WHOLE, .value = literal, .says = {standing}}
#define LABEL(symbol, label) {.kind = SETTLE, .value = symbol, .says = {label}}

static const Try tries[] = {
    {"two rows to 3, and the premise of the later one withdrawn",
     {OPENS(3), ADDS("1>3"), ADDS("2>3"), HOLDS(1), HOLDS(2), BY_RANK_ROW_RULE(3, 1, 0, 1), STANDS_ON(3, 1), ANSWER(3, STANDS), DROPS(2),
      BY_RANK_ROW_RULE(3, 1, 0, 1), STANDS_ON(3, 1), ANSWER(3, STANDS)}},
    {"two rows to 3, and the premise of its ground withdrawn",
     {OPENS(3), ADDS("1>3"), ADDS("2>3"), HOLDS(1), HOLDS(2), STANDS_ON(3, 1), DROPS(1), BY_RANK_ROW_RULE(3, 1, 1, 2), STANDS_ON(3, 2),
      ANSWER(3, STANDS), DROPS(2), NOT_EXPLAINED(3), NO_GROUND(3), ANSWER(3, IS_OPEN)}},
    {"one row to 2, and its premise withdrawn",
     {OPENS(2), ADDS("1>2"), HOLDS(1), BY_RANK_ROW_RULE(2, 1, 0, 1), STANDS_ON(2, 1), DROPS(1), NOT_EXPLAINED(2), NO_GROUND(2), ANSWER(2, IS_OPEN)}},
    {"a conflict beside 2 that ends",
     {OPENS(3), ADDS("1>2"), HOLDS(1), HOLDS(3), HOLDS(-3), BY_RANK_ROW_RULE(2, 1, 0, 1), STANDS_ON(2, 1), ANSWER(2, STANDS),
      ANSWER_WHOLE(2, IN_CONFLICT), LABEL(3, 3), LABEL(2, 1), DROPS(-3), BY_RANK_ROW_RULE(2, 1, 0, 1), STANDS_ON(2, 1), ANSWER(2, STANDS),
      ANSWER_WHOLE(2, STANDS), LABEL(3, 1), LABEL(2, 1), DROPS(3), BY_RANK_ROW_RULE(2, 1, 0, 1), STANDS_ON(2, 1), ANSWER(2, STANDS), LABEL(3, 0)}},
    {"a conflict of the rules alone, which stays",
     {OPENS(4), ADDS("1"), ADDS("-1"), ADDS("2>3"), HOLDS(2), HOLDS(4), HOLDS(-4), BY_RANK_ROW_RULE(3, 1, 2, 3), STANDS_ON(3, 2), DROPS(4), DROPS(-4),
      BY_RANK_ROW_RULE(3, 1, 2, 3), STANDS_ON(3, 2), ANSWER(3, STANDS), ANSWER_WHOLE(3, IN_CONFLICT), BY_RANK_ROW_RULE(1, 1, 0, 1), STANDS_ON(1, 0),
      DROPS(2), BY_RANK_ROW_RULE(1, 1, 0, 1), BY_RANK_ROW_RULE(-1, 1, 1, 2), STANDS_ON(-1, 0), LABEL(1, 3), ANSWER(1, IN_CONFLICT),
      ANSWER_WHOLE(1, IN_CONFLICT), NO_GROUND(3)}},
    {"the opposite's premise withdrawn: the label from 3 to the literal's own",
     {OPENS(4), ADDS("1>2"), ADDS("3>-2"), HOLDS(1), HOLDS(3), HOLDS(4), LABEL(2, 3), LABEL(1, 3), BY_RANK_ROW_RULE(2, 1, 0, 1), STANDS_ON(2, 1),
      STANDS_ON(-1, 3), ANSWER(2, IN_CONFLICT), ANSWER(4, STANDS), DROPS(4), LABEL(2, 3), BY_RANK_ROW_RULE(2, 1, 0, 1), ANSWER(2, IN_CONFLICT),
      ANSWER(4, IS_OPEN), ANSWER_WHOLE(4, IN_CONFLICT), DROPS(3), LABEL(2, 1), LABEL(1, 1), BY_RANK_ROW_RULE(2, 1, 0, 1), STANDS_ON(2, 1),
      ANSWER(2, STANDS), ANSWER_WHOLE(4, IS_OPEN)}},
    {"an empty ground, and all premises withdrawn",
     {OPENS(4), ADDS("2"), ADDS("2>3"), HOLDS(1), HOLDS(-3), BY_RANK_ROW_RULE(3, 2, 1, 2), STANDS_ON(3, 0), LABEL(2, 3), LABEL(3, 3), DROPS(1),
      BY_RANK_ROW_RULE(3, 2, 1, 2), STANDS_ON(3, 0), ANSWER(3, IN_CONFLICT), DROPS(-3), BY_RANK_ROW_RULE(3, 2, 1, 2), STANDS_ON(3, 0), LABEL(2, 1),
      LABEL(3, 1), ANSWER(3, STANDS)}},
    {"a premise that a row leads to as well",
     {OPENS(2), ADDS("2>1"), HOLDS(1), HOLDS(2), NOT_EXPLAINED(1), STANDS_ON(1, 1), DROPS(2), NOT_EXPLAINED(1), STANDS_ON(1, 1), ANSWER(1, STANDS),
      HOLDS(2), STANDS_ON(1, 1), DROPS(1), BY_RANK_ROW_RULE(1, 1, 0, 1), STANDS_ON(1, 2)}},
    {"a circle with both its literals held",
     {OPENS(2), ADDS("1>2"), ADDS("2>1"), HOLDS(1), HOLDS(2), STANDS_ON(1, 1), STANDS_ON(2, 2), DROPS(2), NOT_EXPLAINED(1), STANDS_ON(1, 1),
      BY_RANK_ROW_RULE(2, 1, 0, 1), STANDS_ON(2, 1), DROPS(1), NO_GROUND(1), NO_GROUND(2)}},
    {"a ground of two premises through a chain, all others withdrawn",
     {OPENS(8), ADDS("1>2"), ADDS("(2&3)>4"), ADDS("4>5"), ADDS("7>6"), ADDS("6>5"), ADDS("8>4"), HOLDS(1), HOLDS(3), HOLDS(7), HOLDS(-8), HOLDS(6),
      BY_RANK_ROW_RULE(5, 1, 4, 5), STANDS_ON(5, 6), BY_RANK_ROW_RULE(4, 2, 1, 2), STANDS_ON(4, 1, 3), DROPS(7), DROPS(6), DROPS(-8),
      BY_RANK_ROW_RULE(4, 2, 1, 2), STANDS_ON(4, 1, 3), BY_RANK_ROW_RULE(5, 3, 2, 3), STANDS_ON(5, 1, 3)}},
    {"the other furnace's premises between",
     {OPENS(3), ADDS("1>2"), ADDS("3>2"), OTHER_HOLDS(-2), OTHER_HOLDS(1), HOLDS(1), HOLDS(3), STANDS_ON(2, 1), OTHER_DROPS(1), DROPS(3),
      OTHER_HOLDS(3), BY_RANK_ROW_RULE(2, 1, 0, 1), STANDS_ON(2, 1), ANSWER(2, STANDS), OTHER_DROPS(-2), OTHER_DROPS(3),
      BY_RANK_ROW_RULE(2, 1, 0, 1), STANDS_ON(2, 1)}},
    {"of its ground withdrawn: the same row, another rank",
     {OPENS(4), ADDS("1>2"), ADDS("2>3"), ADDS("3>4"), HOLDS(1), HOLDS(3), BY_RANK_ROW_RULE(4, 1, 2, 3), STANDS_ON(4, 3), DROPS(3),
      BY_RANK_ROW_RULE(4, 3, 2, 3), STANDS_ON(4, 1)}},
    {"of its ground withdrawn: the same rank and row, another ground",
     {OPENS(6), ADDS("1>2"), ADDS("3>6"), ADDS("6>4"), ADDS("(2&4)>5"), HOLDS(1), HOLDS(2), HOLDS(3), BY_RANK_ROW_RULE(5, 3, 3, 4),
      STANDS_ON(5, 2, 3), DROPS(2), BY_RANK_ROW_RULE(5, 3, 3, 4), STANDS_ON(5, 1, 3)}},
    {"another premise held: a lower row",
     {OPENS(3), ADDS("1>3"), ADDS("2>3"), HOLDS(2), BY_RANK_ROW_RULE(3, 1, 1, 2), STANDS_ON(3, 2), HOLDS(1), BY_RANK_ROW_RULE(3, 1, 0, 1),
      STANDS_ON(3, 1)}},
    {"another premise held: a lower rank, by a higher row",
     {OPENS(4), ADDS("1>2"), ADDS("2>3"), ADDS("4>3"), HOLDS(1), BY_RANK_ROW_RULE(3, 2, 1, 2), STANDS_ON(3, 1), HOLDS(4),
      BY_RANK_ROW_RULE(3, 1, 2, 3), STANDS_ON(3, 4), DROPS(1), BY_RANK_ROW_RULE(3, 1, 2, 3), STANDS_ON(3, 4)}},
    {"a rule added: a lower rank",
     {OPENS(3), ADDS("1>2"), ADDS("2>3"), HOLDS(1), BY_RANK_ROW_RULE(3, 2, 1, 2), STANDS_ON(3, 1), ADDS("1>3"), BY_RANK_ROW_RULE(3, 1, 2, 3),
      STANDS_ON(3, 1)}},
    {"a rule added: the same rank, by a lower row",
     {OPENS(4), ADDS("2>4"), ADDS("1>3"), ADDS("3>4"), ADDS("3>2"), HOLDS(1), BY_RANK_ROW_RULE(4, 2, 2, 3), STANDS_ON(4, 1), ADDS("1>2"),
      BY_RANK_ROW_RULE(4, 2, 0, 1), STANDS_ON(4, 1)}},
};

/* The call of a move, for one of the furnaces; a rule is its text. */
static Step step_of(const Move *move, unsigned furnace) {
    Step step = try_step(move->kind, move->for_other ? 3 - furnace : furnace, move->value);
    step.text = (const uint8_t *)move->text;
    step.bytes = step.standing = move->text == NULL ? 0 : strlen(move->text);
    return step;
}

/* Plays a move; true if it comes out as it was worked out. */
static bool move_agrees(Play *play, const Move *move, unsigned furnace) {
    Step step = step_of(move, furnace);
    const Outcome *last = &play->last;
    if (!play_step(play, &step) || last->refusal != move->refusal) return false;
    if (move->refusal != 0) return true;
    if (move->kind == EXPLAIN) return last->rank == move->says[0] && last->row == move->says[1] && last->rule == move->says[2];
    if (asks(move->kind)) return last->standing == move->says[0];
    if (move->kind == SETTLE) return play->ours.labels[GUARD + move->value - 1] == move->says[0];
    return move->kind != GROUND || try_marked(play, move->marked, MARKED);
}

/* True if all moves come out as they were worked out, for a furnace. */
static bool try_agrees(Play *play, const Try *try, unsigned furnace) {
    play_start(play, 17, true);
    for (unsigned m = 0; m < MOVES && (try->moves[m].kind != OPEN || try->moves[m].value != 0); m++)
        if (!move_agrees(play, &try->moves[m], furnace)) return try_wrong(play, try->words, "call", m + 1);
    return true;
}

/* True if all boards come out as they were worked out, for each furnace. */
bool outside_tries_agree(Play *play) {
    for (size_t i = 0; i < sizeof tries / sizeof tries[0]; i++)
        for (unsigned f = 1; f <= FURNACES; f++)
            if (!try_agrees(play, &tries[i], f)) return false;
    return true;
}
