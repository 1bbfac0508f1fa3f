/* Try a reading and take it back. An operator at a container glassworks asks "what if?" in nested steps on two furnaces, sees what would stand, adds
 * a rule in between, and takes the tries back one by one: each step is printed, with every mark that it moves, and for a mark that stands or is ruled
 * out the rule or the reading that does it. After each step the marks, the premises and the stacks of both furnaces are worked out again without the
 * board. Ends with 1 where the two disagree, or a step is not refused just as it says, and with 2 where any other call is refused.
 * For tries of your own, change the section "The plant": what is below it names no symbol. */
#include "checks.h"

#include <string.h>

/* ---- The plant ---- */

/* The symbols by number: what instruments report first, then what the rules conclude. */
enum { TC_3_HIGH = 1, PYROMETER_NORMAL, DAMPER_SHUT, GAS_FLOW_HIGH, CROWN_HOT, OVERFIRED, DRAUGHT_GOOD, TRIM_GAS, FLAME_REDUCING, ALARM,
       SYMBOLS = ALARM };
static const char *const names[] = {"", "TC-3 high", "pyrometer normal", "damper shut", "gas flow high", "crown hot", "overfired", "draught good",
                                    "trim gas", "flame reducing", "alarm"};

/* The rules by their numbers, from 1, as text with a symbol for each %d. The second and the third are the two conclusions that lean on each other.
 * The last is added between the tries. */
static const struct rule { const char *sentence, *text; int symbols[3]; } rules[] = {
    {"TC-3 high means a hot crown", "%d > %d", {TC_3_HIGH, CROWN_HOT}},
    {"under a hot crown the melter is overfired", "%d > %d", {CROWN_HOT, OVERFIRED}},
    {"over an overfired melter the crown is hot", "%d > %d", {OVERFIRED, CROWN_HOT}},
    {"a normal pyrometer reading rules out a hot crown", "%d > -%d", {PYROMETER_NORMAL, CROWN_HOT}},
    {"the draught is good just when the damper is not shut", "%d = -%d", {DRAUGHT_GOOD, DAMPER_SHUT}},
    {"overfired at good draught: trim gas", "(%d & %d) > %d", {OVERFIRED, DRAUGHT_GOOD, TRIM_GAS}},
    {"high gas flow without draught means a reducing flame", "(%d & -%d) > %d", {GAS_FLOW_HIGH, DRAUGHT_GOOD, FLAME_REDUCING}},
    {"a reducing flame in an overfired melter: alarm", "(%d & %d) > %d", {OVERFIRED, FLAME_REDUCING, ALARM}}};
enum { RULES = sizeof rules / sizeof rules[0], RULES_AT_START = RULES - 1 };

/* What the operator does, with a literal of which furnace, which refusal that has to meet, and what is said of it. To look is to compare with how the
 * furnace stood before its first try. */
static const struct step {
    uint8_t furnace;
    enum { HOLD, WITHDRAW, TRY, TAKE_BACK, LOOK, ADD_RULE } what;
    int16_t literal;
    uint8_t refusal;
    const char *words;
} steps[] = {
    {1, HOLD, GAS_FLOW_HIGH, TUP_DONE, "read off the panel"},
    {2, HOLD, -DAMPER_SHUT, TUP_DONE, "so its limit switch says"},
    {2, HOLD, PYROMETER_NORMAL, TUP_DONE, "sighted by hand"},
    {1, TRY, TC_3_HIGH, TUP_DONE, "what if TC-3 is high?"},
    {1, TRY, DAMPER_SHUT, TUP_DONE, "and if the damper is shut?"},
    {0, ADD_RULE, 0, TUP_DONE, ", added between the tries"},
    {1, WITHDRAW, DAMPER_SHUT, TUP_STACKED, "what is on trial can only be taken back"},
    {1, TRY, TC_3_HIGH, TUP_ALREADY_HELD, "it is on trial already"},
    {1, TRY, GAS_FLOW_HIGH, TUP_ALREADY_HELD, "it is held already"},
    {2, TRY, TC_3_HIGH, TUP_DONE, "and what if furnace 2's TC-3 is high?"}, /* the pyrometer speaks against it */
    {2, WITHDRAW, PYROMETER_NORMAL, TUP_DONE, "sighted hours ago, and the try goes on without it"},
    {1, TAKE_BACK, DAMPER_SHUT, TUP_DONE, "no alarm without it"},
    {1, TRY, -DAMPER_SHUT, TUP_DONE, "and if the damper is not shut?"},
    {2, HOLD, TC_3_HIGH, TUP_ALREADY_HELD, "the reading has come in, but its try is in the way"},
    {2, TAKE_BACK, TC_3_HIGH, TUP_DONE, "out of the reading's way"},
    {2, HOLD, TC_3_HIGH, TUP_DONE, "what was tried has come true"},
    {1, TAKE_BACK, -DAMPER_SHUT, TUP_DONE, "enough of the damper"},
    {1, TAKE_BACK, TC_3_HIGH, TUP_DONE, "crown hot and overfired lean on each other, and both go"},
    {1, TAKE_BACK, 0, TUP_EMPTY_STACK, "nothing is on trial"},
    {1, LOOK, 0, TUP_DONE, "every mark is as it was before the first try"},
    {1, HOLD, DAMPER_SHUT, TUP_DONE, "now its limit switch says so"},
    {1, TRY, TC_3_HIGH, TUP_DONE, "what if TC-3 is high now? The rule has stayed"},
    {1, TAKE_BACK, TC_3_HIGH, TUP_DONE, "and that was the last try"}};

/* ---- The board ---- */
enum { NUMBERS = 16 * TUP_ROW_WIDTH, PLACES = 2 * SYMBOLS };
static tup_board board;
static int16_t table[NUMBERS];
static tup_stacks stacks;

/* What a furnace should hold and have on its stack, kept beside the board, so that the checks lean on nothing that the board hands back. */
typedef struct premises {
    uint8_t held[PLACES];
    tup_stack stack;
} premises;

/* A furnace: its premises, and for each try that is on what they have to be again once it is taken back; the labels as they were last printed; and
 * the labels and the count of rules before the first try. */
static struct furnace {
    premises now, before[PLACES];
    uint8_t shown[SYMBOLS], first[SYMBOLS];
    int first_rules;
} furnaces[TUP_FURNACES];

static int place_of(int literal) {
    return literal > 0 ? 2 * (literal - 1) : 2 * (-literal - 1) + 1;
}

static void settle(int number, uint8_t labels[SYMBOLS]) {
    uint16_t ranks[PLACES], supports[PLACES];
    must("tup_settle", tup_settle(board, table, NUMBERS, (uint8_t)number, labels, SYMBOLS, ranks, PLACES, supports, PLACES));
}

/* ---- What is printed ---- */

/* Whether the literal is on the stack. */
static int is_on(const tup_stack *stack, int literal) {
    for (int i = 0; i < stack->count; i++) {
        if (stack->literals[i] == literal) {
            return 1;
        }
    }
    return 0;
}

/* Prints what brings a literal up: the try, the reading, or the number of the rule. */
static void print_why(int number, int literal) {
    const premises *now = &furnaces[number - 1].now;
    if (now->held[place_of(literal)]) {
        printf(" (%s)", is_on(&now->stack, literal) ? "tried" : "held");
        return;
    }
    tup_reason reason = tup_explain(board, table, NUMBERS, (uint8_t)number, (int16_t)literal);
    must("tup_explain", reason.refusal);
    printf(" (rule %d)", reason.rule);
}

/* Prints the marks of a furnace that are not as they were, those that have come to the same in a line. */
static void show(int number) {
    static const struct { uint8_t label; const char *words; } lines[] = {
        {1, "stands"}, {2, "ruled out"}, {3, "in conflict"}, {0, "open again"}};
    uint8_t labels[SYMBOLS], *shown = furnaces[number - 1].shown;
    settle(number, labels);
    for (size_t i = 0; i < sizeof lines / sizeof lines[0]; i++) {
        int count = 0;
        for (int s = 1; s <= SYMBOLS; s++) {
            if (labels[s - 1] == shown[s - 1] || labels[s - 1] != lines[i].label) {
                continue;
            }
            if (count++ == 0) {
                printf("  furnace %d, %s: ", number, lines[i].words);
            } else {
                printf(", ");
            }
            printf("%s", names[s]);
            if (lines[i].label == 1 || lines[i].label == 2) {
                print_why(number, lines[i].label == 1 ? s : -s);
            }
        }
        printf("%s", count > 0 ? "\n" : "");
    }
    memcpy(shown, labels, SYMBOLS);
}

/* ---- The checks, without the board ---- */

/* Whether a row leaves literal i alone: the opposites of its others are all derived. */
static int is_left_alone(const int16_t *row, int i, const uint8_t derived[PLACES]) {
    for (int k = 0; k < TUP_ROW_LITERALS && row[k] != 0; k++) {
        if (k != i && !derived[place_of(-row[k])]) {
            return 0;
        }
    }
    return 1;
}

/* Derives all that follows from the premises by the rows in the table: over and over, until a pass adds nothing. Nothing is carried over from the
 * step before, so that no mark can outlive what it stood on. */
static void derive(const uint8_t held[PLACES], uint8_t derived[PLACES]) {
    memcpy(derived, held, PLACES);
    for (int added = 1; added;) {
        added = 0;
        for (int r = 0; r < board.rows; r++) {
            const int16_t *row = table + TUP_ROW_WIDTH * r;
            for (int i = 0; i < TUP_ROW_LITERALS && row[i] != 0; i++) {
                if (!derived[place_of(row[i])] && is_left_alone(row, i, derived)) {
                    derived[place_of(row[i])] = 1;
                    added = 1;
                }
            }
        }
    }
}

static void check_labels(int number) {
    uint8_t labels[SYMBOLS], derived[PLACES];
    settle(number, labels);
    derive(furnaces[number - 1].now.held, derived);
    for (int s = 1; s <= SYMBOLS; s++) {
        check("label at furnace", number, names[s], labels[s - 1], derived[place_of(s)] + 2 * derived[place_of(-s)]);
    }
}

/* Checks that the furnace holds and has stacked what it should: after a try is taken back, what it had before. The record is compared byte by byte,
 * ahead of the check that all that is on it is held. */
static void check_premises(int number) {
    const premises *now = &furnaces[number - 1].now;
    const tup_stack *stack = &stacks.of[number - 1];
    for (int place = 0; place < PLACES; place++) {
        const char *name = names[place / 2 + 1];
        check(place % 2 == 0 ? "held at furnace" : "held not to be at furnace", number, name, board.held[number - 1][place], now->held[place]);
    }
    check("the stack of furnace", number, "as it should be", memcmp(stack, &now->stack, sizeof *stack) == 0, 1);
    for (int i = 0; i < stack->count; i++) {
        int literal = stack->literals[i];
        check("stacked at furnace", number, names[abs(literal)], board.held[number - 1][place_of(literal)], 1);
    }
}

/* Prints what a step moved, and checks both furnaces: what is done at one moves nothing at the other. */
static void show_and_check(int rows, int rule_count) {
    for (int number = 1; number <= TUP_FURNACES; number++) {
        show(number);
        check_labels(number);
        check_premises(number);
    }
    check("rows on board", 1, "after the step", board.rows, rows);
    check("rules on board", 1, "after the step", board.rules, rule_count);
}

/* ---- The steps ---- */

/* Adds the next rule. It stays, whatever is on trial, and is taken back with no try. */
static void add_rule(const char *when) {
    char text[64];
    const struct rule *r = &rules[board.rules];
    int length = snprintf(text, sizeof text, r->text, r->symbols[0], r->symbols[1], r->symbols[2]);
    tup_addition added = tup_rule_text(board, table, NUMBERS, (const uint8_t *)text, (size_t)length);
    must("tup_rule_text", added.refusal);
    int rows = board.rows + added.added, rule_count = board.rules + 1;
    board = added.board;
    printf("rule %d%s: %s\n", board.rules, when, r->sentence);
    show_and_check(rows, rule_count);
}

/* Keeps what a good step does to the premises. What is held and withdrawn while tries are on stays so when they are taken back. */
static void keep(const struct step *e) {
    struct furnace *f = &furnaces[e->furnace - 1];
    premises *now = &f->now;
    int place = place_of(e->literal);
    if (e->what == TRY) {
        f->before[now->stack.count] = *now; /* there is room, since each try is held and none twice */
        now->held[place] = 1;
        now->stack.literals[now->stack.count++] = e->literal;
    } else if (e->what == TAKE_BACK) {
        *now = f->before[now->stack.count - 1];
    } else {
        now->held[place] = e->what == HOLD;
        for (int i = 0; i < now->stack.count; i++) {
            f->before[i].held[place] = e->what == HOLD;
        }
    }
}

static tup_change call(const struct step *e) {
    switch (e->what) {
    case HOLD: return tup_hold(board, table, NUMBERS, e->furnace, e->literal);
    case WITHDRAW: return tup_withdraw(board, table, NUMBERS, &stacks, e->furnace, e->literal);
    case TRY: return tup_push(board, table, NUMBERS, &stacks, e->furnace, e->literal);
    default: return tup_pop(board, table, NUMBERS, &stacks, e->furnace);
    }
}

/* Prints a step, its literal, how many tries are on after it, and what is said of it. */
static void print_step(const struct step *e, uint8_t refusal) {
    static const char *const words[] = {"hold", "withdraw", "try", "take back"};
    printf("furnace %d, %s%s%s%s", e->furnace, words[e->what], e->literal == 0 ? "" : " ", e->literal < 0 ? "not " : "", names[abs(e->literal)]);
    if (refusal != TUP_DONE) {
        printf(": refused %d, %s\n", refusal, e->words);
    } else if (e->what == TRY || e->what == TAKE_BACK) {
        printf(" (%d on trial): %s\n", stacks.of[e->furnace - 1].count, e->words);
    } else {
        printf(": %s\n", e->words);
    }
}

/* Takes a step. Whether it is done or refused, the board and the record have to be what is kept beside them. */
static void take(const struct step *e) {
    struct furnace *f = &furnaces[e->furnace - 1];
    const tup_stack *stack = &stacks.of[e->furnace - 1];
    int rows = board.rows, rule_count = board.rules, top = stack->count > 0 ? stack->literals[stack->count - 1] : 0;
    if (e->what == TRY && f->first_rules == 0) {
        settle(e->furnace, f->first);
        f->first_rules = rule_count;
    }
    tup_change done = call(e);
    board = done.board;
    print_step(e, done.refusal);
    check("refusal at furnace", e->furnace, e->words, done.refusal, e->refusal);
    if (e->what == TAKE_BACK) {
        check("top of the stack of furnace", e->furnace, e->words, top, e->literal);
    }
    if (done.refusal == TUP_DONE) {
        keep(e);
    }
    show_and_check(rows, rule_count);
}

/* Compares with how the furnace stood before its first try. */
static void look(const struct step *e) {
    const struct furnace *f = &furnaces[e->furnace - 1];
    uint8_t labels[SYMBOLS];
    settle(e->furnace, labels);
    for (int s = 1; s <= SYMBOLS; s++) {
        check("label as before the tries at furnace", e->furnace, names[s], labels[s - 1], f->first[s - 1]);
    }
    printf("furnace %d, look: %s; the rules were %d and are %d\n", e->furnace, e->words, f->first_rules, board.rules);
}

int main(void) {
    tup_change opened = tup_open(SYMBOLS, &stacks);
    must("tup_open", opened.refusal);
    board = opened.board;
    while (board.rules < RULES_AT_START) {
        add_rule("");
    }
    for (size_t i = 0; i < sizeof steps / sizeof steps[0]; i++) {
        switch (steps[i].what) {
        case ADD_RULE: add_rule(steps[i].words); break;
        case LOOK: look(&steps[i]); break;
        default: take(&steps[i]); break;
        }
    }
    check("rules on board", 1, "all of them", board.rules, RULES);
    printf("%d checks: marks, premises and stacks worked out without the board, and the board agrees\n", checks);
    return 0;
}
