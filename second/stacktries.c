/* Boards on which readings are tried and taken back: what document 02's Ticket 14 says of each call was worked out by hand, and is held against the
 * model and the library alike. After each the stacks are compared too. */
#include "stacktries.h"

#include <stdio.h>
#include <string.h>

#include "tries.h"

enum { MOVES = 40, STACKS_TEXT = 64 };

/* A call: the furnace it names and its literal, or the count for open; then the refusal, and the answer to a call that asks or the label that a
 * settle gives symbol S. Then both stacks after it, furnace 1's and, past the bar, furnace 2's, each with its bottom first; and a rule's text. */
typedef struct Move {
    Kind kind;
    unsigned furnace;
    int value;
    unsigned refusal, answer;
    const char *stacks, *text;
} Move;

/* Calls on a board, the first of which opens it, until one that is all zeros. */
typedef struct Try {
    const char *words;
    Move moves[MOVES];
} Try;

#define OPENS(symbols) {OPEN, 0, symbols, 0, 0, "|", NULL}
#define ADDS(rule, stacks) {TEXT_RULE, 0, 0, 0, 0, stacks, rule}
#define MAKES(kind, furnace, value, refusal, stacks) {kind, furnace, value, refusal, 0, stacks, NULL}
#define ASKS(furnace, literal, answer, stacks) {ASK, furnace, literal, 0, answer, stacks, NULL}

static const Try tries[] = {
    {"a reading tried and taken back",
     {OPENS(2), ADDS("1>2", "|"), MAKES(POP, 1, 0, 20, "|"), MAKES(PUSH, 1, 1, 0, "1|"), ASKS(1, 2, STANDS, "1|"), ASKS(2, 2, IS_OPEN, "1|"),
      MAKES(POP, 2, 0, 20, "1|"), MAKES(POP, 1, 0, 0, "|"), ASKS(1, 2, IS_OPEN, "|"), ASKS(1, 1, IS_OPEN, "|"), MAKES(POP, 1, 0, 20, "|"),
      MAKES(PUSH, 2, -2, 0, "|-2"), ASKS(2, 1, RULED_OUT, "|-2"), ASKS(1, 1, IS_OPEN, "|-2"), MAKES(POP, 1, 0, 20, "|-2"),
      MAKES(POP, 2, 0, 0, "|"), MAKES(WITHDRAW, 2, -2, 11, "|")}},
    {"tries inside tries: the last one is taken back first",
     {OPENS(3), MAKES(PUSH, 1, 1, 0, "1|"), MAKES(PUSH, 1, -2, 0, "1 -2|"), MAKES(PUSH, 1, 3, 0, "1 -2 3|"), MAKES(WITHDRAW, 1, 1, 21, "1 -2 3|"),
      MAKES(WITHDRAW, 1, -2, 21, "1 -2 3|"), MAKES(WITHDRAW, 1, 3, 21, "1 -2 3|"), MAKES(POP, 1, 0, 0, "1 -2|"), ASKS(1, 3, IS_OPEN, "1 -2|"),
      ASKS(1, 2, RULED_OUT, "1 -2|"), MAKES(PUSH, 1, 2, 0, "1 -2 2|"), ASKS(1, 2, IN_CONFLICT, "1 -2 2|"), MAKES(POP, 1, 0, 0, "1 -2|"),
      ASKS(1, 2, RULED_OUT, "1 -2|"), MAKES(POP, 1, 0, 0, "1|"), MAKES(WITHDRAW, 1, 1, 21, "1|"), MAKES(POP, 1, 0, 0, "|"),
      MAKES(WITHDRAW, 1, 1, 11, "|"), MAKES(POP, 1, 0, 20, "|")}},
    {"held for good and on trial",
     {OPENS(2), MAKES(HOLD, 1, 1, 0, "|"), MAKES(PUSH, 1, 1, 10, "|"), MAKES(PUSH, 1, 2, 0, "2|"), MAKES(HOLD, 1, 2, 10, "2|"),
      MAKES(PUSH, 1, 2, 10, "2|"), MAKES(WITHDRAW, 1, 2, 21, "2|"), MAKES(WITHDRAW, 1, 1, 0, "2|"), MAKES(WITHDRAW, 1, 1, 11, "2|"),
      MAKES(PUSH, 1, 1, 0, "2 1|"), MAKES(HOLD, 1, -1, 0, "2 1|"), MAKES(WITHDRAW, 1, -1, 0, "2 1|"), MAKES(HOLD, 1, -2, 0, "2 1|"),
      MAKES(POP, 1, 0, 0, "2|"), MAKES(HOLD, 1, 1, 0, "2|"), MAKES(POP, 1, 0, 0, "|"), ASKS(1, 1, STANDS, "|"), ASKS(1, 2, RULED_OUT, "|"),
      MAKES(POP, 1, 0, 20, "|"), MAKES(WITHDRAW, 1, 1, 0, "|"), MAKES(WITHDRAW, 1, -2, 0, "|")}},
    {"the furnaces take turns",
     {OPENS(2), MAKES(PUSH, 1, 1, 0, "1|"), MAKES(PUSH, 2, 1, 0, "1|1"), MAKES(PUSH, 1, 2, 0, "1 2|1"), MAKES(PUSH, 2, -2, 0, "1 2|1 -2"),
      MAKES(POP, 1, 0, 0, "1|1 -2"), MAKES(WITHDRAW, 1, 2, 11, "1|1 -2"), MAKES(WITHDRAW, 2, -2, 21, "1|1 -2"),
      MAKES(HOLD, 1, -2, 0, "1|1 -2"), MAKES(WITHDRAW, 1, -2, 0, "1|1 -2"), MAKES(POP, 1, 0, 0, "|1 -2"), MAKES(POP, 1, 0, 20, "|1 -2"),
      ASKS(2, 1, STANDS, "|1 -2"), ASKS(1, 1, IS_OPEN, "|1 -2"), MAKES(HOLD, 1, 1, 0, "|1 -2"), MAKES(WITHDRAW, 2, 1, 21, "|1 -2"),
      MAKES(POP, 2, 0, 0, "|1"), MAKES(PUSH, 1, 2, 0, "2|1"), MAKES(POP, 2, 0, 0, "2|"), MAKES(WITHDRAW, 2, 1, 11, "2|"),
      MAKES(WITHDRAW, 1, 1, 0, "2|"), MAKES(WITHDRAW, 1, 2, 21, "2|"), MAKES(POP, 2, 0, 20, "2|"), MAKES(POP, 1, 0, 0, "|")}},
    {"a rule added while a reading is tried stays",
     {OPENS(3), MAKES(PUSH, 1, 1, 0, "1|"), ADDS("1>2", "1|"), ASKS(1, 2, STANDS, "1|"), MAKES(PUSH, 1, -3, 0, "1 -3|"), ADDS("3", "1 -3|"),
      ASKS(1, 3, IN_CONFLICT, "1 -3|"), MAKES(POP, 1, 0, 0, "1|"), {SETTLE, 1, 0, 0, 1, "1|", NULL}, ASKS(1, 3, STANDS, "1|"),
      ASKS(2, 3, STANDS, "1|"), MAKES(POP, 1, 0, 0, "|"), ASKS(1, 2, IS_OPEN, "|"), ASKS(1, 3, STANDS, "|"), {SETTLE, 1, 0, 0, 1, "|", NULL},
      MAKES(PUSH, 2, 1, 0, "|1"), ASKS(2, 2, STANDS, "|1"), MAKES(PUSH, 1, 3, 0, "3|1"), MAKES(POP, 1, 0, 0, "|1"), ASKS(1, 3, STANDS, "|1")}},
    {"opening over stacks, refused and done",
     {OPENS(2), MAKES(PUSH, 1, 1, 0, "1|"), MAKES(PUSH, 2, 2, 0, "1|2"), MAKES(PUSH, 2, -1, 0, "1|2 -1"), MAKES(OPEN, 0, 201, 2, "1|2 -1"),
      MAKES(POP, 1, 0, 1, "1|2 -1"), MAKES(PUSH, 2, 1, 1, "1|2 -1"), MAKES(WITHDRAW, 1, 1, 1, "1|2 -1"), MAKES(OPEN, 0, 0, 2, "1|2 -1"),
      MAKES(OPEN, 0, 65535, 2, "1|2 -1"), MAKES(OPEN, 0, 2, 0, "|"), MAKES(POP, 1, 0, 20, "|"), MAKES(POP, 2, 0, 20, "|"),
      MAKES(WITHDRAW, 1, 1, 11, "|"), MAKES(WITHDRAW, 2, 2, 11, "|"), MAKES(PUSH, 2, 2, 0, "|2"), MAKES(OPEN, 0, 1, 0, "|"),
      MAKES(PUSH, 2, 2, 2, "|"), MAKES(PUSH, 2, 1, 0, "|1"), MAKES(OPEN, 0, 200, 0, "|"), MAKES(PUSH, 1, -200, 0, "-200|"),
      MAKES(OPEN, 0, 3, 0, "|"), MAKES(PUSH, 1, -200, 2, "|")}},
    {"one symbol",
     {OPENS(1), MAKES(PUSH, 1, 1, 0, "1|"), MAKES(PUSH, 1, -1, 0, "1 -1|"), ASKS(1, 1, IN_CONFLICT, "1 -1|"), MAKES(PUSH, 1, 1, 10, "1 -1|"),
      MAKES(PUSH, 1, -1, 10, "1 -1|"), MAKES(PUSH, 1, 2, 2, "1 -1|"), MAKES(PUSH, 2, -1, 0, "1 -1|-1"), MAKES(PUSH, 2, 1, 0, "1 -1|-1 1"),
      MAKES(WITHDRAW, 1, 1, 21, "1 -1|-1 1"), MAKES(WITHDRAW, 2, -1, 21, "1 -1|-1 1"), MAKES(POP, 1, 0, 0, "1|-1 1"),
      ASKS(1, 1, STANDS, "1|-1 1"), ASKS(2, 1, IN_CONFLICT, "1|-1 1"), MAKES(POP, 2, 0, 0, "1|-1"), ASKS(2, 1, RULED_OUT, "1|-1"),
      MAKES(POP, 1, 0, 0, "|-1"), MAKES(POP, 2, 0, 0, "|"), MAKES(POP, 1, 0, 20, "|"), MAKES(POP, 2, 0, 20, "|")}},
    {"16 ahead of 2, 10, 11, 20 and 21",
     {OPENS(2), MAKES(POP, 0, 0, 16, "|"), MAKES(POP, 3, 0, 16, "|"), MAKES(POP, 255, 0, 16, "|"), MAKES(PUSH, 1, 1, 0, "1|"),
      MAKES(PUSH, 2, 1, 0, "1|1"), MAKES(PUSH, 0, 1, 16, "1|1"), MAKES(PUSH, 3, 1, 16, "1|1"), MAKES(PUSH, 255, 0, 16, "1|1"),
      MAKES(PUSH, 0, 3, 16, "1|1"), MAKES(PUSH, 3, -32768, 16, "1|1"), MAKES(PUSH, 128, 2, 16, "1|1"), MAKES(POP, 0, 0, 16, "1|1"),
      MAKES(POP, 3, 0, 16, "1|1"), MAKES(POP, 255, 0, 16, "1|1"), MAKES(WITHDRAW, 0, 1, 16, "1|1"), MAKES(WITHDRAW, 3, 1, 16, "1|1"),
      MAKES(WITHDRAW, 255, 2, 16, "1|1"), MAKES(WITHDRAW, 254, 0, 16, "1|1"), MAKES(WITHDRAW, 3, -32768, 16, "1|1")}},
    {"2 for what is no literal of the board",
     {OPENS(2), MAKES(PUSH, 1, 0, 2, "|"), MAKES(PUSH, 1, 3, 2, "|"), MAKES(PUSH, 1, -3, 2, "|"), MAKES(PUSH, 2, 32767, 2, "|"),
      MAKES(PUSH, 2, -32768, 2, "|"), MAKES(PUSH, 2, -32767, 2, "|"), MAKES(PUSH, 1, 200, 2, "|"), MAKES(PUSH, 1, 201, 2, "|"),
      MAKES(PUSH, 1, -2, 0, "-2|"), MAKES(WITHDRAW, 1, 0, 2, "-2|"), MAKES(WITHDRAW, 1, 3, 2, "-2|"), MAKES(WITHDRAW, 1, -3, 2, "-2|"),
      MAKES(WITHDRAW, 1, 32767, 2, "-2|"), MAKES(WITHDRAW, 1, -32768, 2, "-2|"), MAKES(WITHDRAW, 2, -2, 11, "-2|"),
      MAKES(WITHDRAW, 1, 2, 11, "-2|"), MAKES(WITHDRAW, 1, -2, 21, "-2|")}},
};

/* Writes both stacks in words. */
static void spell_stacks(const Play *play, char out[STACKS_TEXT]) {
    const int16_t *record = play->theirs.record + GUARD;
    int used = 0;
    for (unsigned f = 1; f <= FURNACES; f++) {
        for (unsigned i = 0; i < stack_count(record, f) && i < PLACES && used < STACKS_TEXT - 10; i++)
            used += sprintf(out + used, i == 0 ? "%d" : " %d", stacked_at(record, f, i));
        used += sprintf(out + used, f == 1 ? "|" : "");
    }
}

/* Plays a call of a try; true if it came out as it was worked out. */
static bool move_agrees(Play *play, const Move *move) {
    char stacks[STACKS_TEXT];
    Step step = try_step(move->kind, move->furnace, move->value);
    step.text = (const uint8_t *)move->text;
    step.bytes = step.standing = move->text == NULL ? 0 : strlen(move->text);
    if (!play_step(play, &step) || play->last.refusal != move->refusal) return false;
    spell_stacks(play, stacks);
    if (strcmp(stacks, move->stacks) != 0) return false;
    if (move->kind == ASK) return play->last.standing == move->answer;
    return move->kind != SETTLE || play->ours.labels[GUARD + play->board.symbols - 1] == move->answer;
}

/* True if all calls of a try come out as they were worked out. */
static bool try_agrees(Play *play, const Try *try) {
    play_start(play, 23, true);
    for (unsigned m = 0; m < MOVES && try->moves[m].stacks != NULL; m++)
        if (!move_agrees(play, &try->moves[m])) return try_wrong(play, try->words, "call", m + 1);
    return true;
}

/* The caller writes a byte into a furnace's premises. */
static void set_held(Play *play, unsigned furnace, int literal, int byte) {
    Step step = {.kind = SET_HELD, .furnace = furnace, .place = place_of(literal), .value = byte};
    play_step(play, &step);
}

/* Bytes beyond 1 are premises, on a stack too: a refused call hands them back, and one that is done writes them as 1, those of both furnaces. */
static bool odd_bytes_agree(Play *play) {
    for (unsigned f = 1; f <= FURNACES; f++) {
        play_start(play, 24, true);
        bool good = try_call(play, OPEN, 0, 2, 0) && try_call(play, PUSH, f, 1, 0) && try_call(play, PUSH, f, -2, 0) &&
                    try_call(play, HOLD, 3 - f, 2, 0);
        const uint8_t *its = play->library_board.held[f - 1], *others = play->library_board.held[2 - f];
        set_held(play, f, 1, 7), set_held(play, f, -2, 255), set_held(play, 3 - f, 2, 2);
        good = good && try_call(play, PUSH, f, 1, 10) && try_call(play, WITHDRAW, f, -2, 21) && try_call(play, POP, 3 - f, 0, 20) && its[0] == 7 &&
               its[3] == 255 && others[2] == 2 && try_call(play, POP, f, 0, 0) && its[0] == 1 && its[3] == 0 && others[2] == 1;
        set_held(play, f, 1, 9), set_held(play, 3 - f, 2, 128);
        good = good && try_call(play, PUSH, f, 2, 0) && its[0] == 1 && its[2] == 1 && others[2] == 1;
        set_held(play, f, 1, 8), set_held(play, f, 2, 3);
        good = good && try_call(play, WITHDRAW, 3 - f, 2, 0) && its[0] == 1 && its[2] == 1 && others[2] == 0;
        if (!good) return try_wrong(play, "bytes beyond 1 on a stack", "furnace", f);
    }
    return true;
}

/* A refused open leaves the record: where the caller puts his board back as it was, the stacks are good again, and are popped. */
static bool board_back_agrees(Play *play) {
    play_start(play, 25, true);
    bool good = try_call(play, OPEN, 0, 3, 0) && try_call(play, PUSH, 1, 1, 0) && try_call(play, PUSH, 2, -3, 0) && try_call(play, PUSH, 1, 3, 0) &&
                try_call(play, OPEN, 0, 201, 2);
    try_act(play, SET_SYMBOLS, 0, 3);
    good = good && try_call(play, POP, 1, 0, 1) && try_call(play, ASK, 1, 1, 0);
    set_held(play, 1, 1, 1), set_held(play, 1, 3, 1);
    good = good && try_call(play, POP, 1, 0, 1) && try_call(play, POP, 2, 0, 1);
    set_held(play, 2, -3, 1);
    good = good && try_call(play, POP, 1, 0, 0) && try_call(play, POP, 2, 0, 0) && try_call(play, WITHDRAW, 1, 1, 21) &&
           try_call(play, POP, 1, 0, 0) && try_call(play, POP, 1, 0, 20);
    return good || try_wrong(play, "a board put back after a refused open", "furnace", 1);
}

/* True if all tries come out as they were worked out. */
bool stack_tries_agree(Play *play) {
    for (size_t i = 0; i < sizeof tries / sizeof tries[0]; i++)
        if (!try_agrees(play, &tries[i])) return false;
    return odd_bytes_agree(play) && board_back_agrees(play);
}
