/* The March case on a trend screen of two furnaces: a night shift's readings go to the board minute by minute, each change of
 * a mark is printed with its rule and its ground, the shift desk is told which readings a mark needs, and the shift is drawn as a
 * chart. Of readings, marks and answers, those that name no furnace are furnace 1's; what a mark needs is of both.
 *
 * The screen owner's rule is that nothing stands on a chart without its ground. "crown hot" and "overfired" lean on each
 * other here; when furnace 1's TC-3, the thermocouple that first brought them up, is struck off at 03:10, both have to go.
 * Furnace 2 runs the same rules in the same table with a TC-3 of its own, and nothing that happens at furnace 1 moves its marks.
 * A conflict blanks no furnace: marks that stand go on standing, and those that stand on a reading to blame are told apart. The foreman
 * is told the least that he has to withdraw to end it.
 *
 * Use: trend [PICTURE], by default trend.svg. For a screen of your own, change the section "The plant" here and in trend.h
 * (symbols, names, readings, the shift) and the functions that add rules; below those only the summary and the chart's notes name symbols. */
#include "trend.h"

#include <stdarg.h>
#include <stdio.h>
#include <stdlib.h>
#include <string.h>

/* ---- The plant ---- */

const char *const names[SYMBOLS + 1] = {
    [TC_3_HIGH] = "TC-3 high",                 /* crown, zone 2 */
    [TC_4_HIGH] = "TC-4 high",                 /* crown, zone 3 */
    [TC_7_HIGH] = "TC-7 high",                 /* left regenerator, top */
    [TC_8_HIGH] = "TC-8 high",                 /* right regenerator, top */
    [TC_9_LOW] = "TC-9 low",                   /* throat */
    [PYROMETER_NORMAL] = "pyrometer normal",   /* the crown, sighted by hand */
    [DAMPER_OPEN] = "damper open",             /* stack damper, one limit switch */
    [DAMPER_SHUT] = "damper shut",             /* and the other */
    [VALVE_CYCLING] = "valve cycling",         /* reversal valve */
    [GAS_FLOW_HIGH] = "gas flow high",
    [OXYGEN_LOW] = "oxygen low",
    [CROWN_HOT] = "crown hot",
    [OVERFIRED] = "overfired",
    [TRIM_GAS] = "trim gas",
    [ADD_GAS] = "add gas",
    [ZONE_3_HOT] = "zone 3 hot",
    [HOT_SPOT_SHIFTED] = "hot spot shifted",
    [DRAUGHT_GOOD] = "draught good",
    [FLAME_REDUCING] = "flame reducing",
    [LEFT_CHOKED] = "left checkers choked",
    [RIGHT_CHOKED] = "right checkers choked",
    [BURN_OFF_DUE] = "burn-off due",
    [VALVE_STUCK] = "valve stuck",
    [BOOST_ON] = "electric boost on",
};

/* All that the shift's instruments report, for the shift desk to choose from, and for the foreman to strike off where it is held; a negative symbol
 * number is the reading that it is not so. A plant with more than the library chooses from has to decide which of them to list: none is cut off. */
static const int16_t readings[] = {
    TC_3_HIGH, TC_4_HIGH, TC_7_HIGH, TC_8_HIGH, TC_9_LOW, PYROMETER_NORMAL,
    DAMPER_OPEN, DAMPER_SHUT, VALVE_CYCLING, -VALVE_CYCLING, GAS_FLOW_HIGH, OXYGEN_LOW,
};

enum { READINGS = sizeof readings / sizeof readings[0] };
_Static_assert((int)READINGS <= (int)TUP_MOST_CANDIDATES, "there are more readings than the library chooses from");

/* What happens to a reading of a furnace, what is asked of it, or which readings a mark needs, and when. The last names no furnace. */
typedef struct event {
    int at;
    uint8_t furnace;
    enum { HOLD, WITHDRAW, ASK, NEEDS } what;
    int literal;
} event;

static const event shift[] = {
    {AT(22, 0), 1, HOLD, DAMPER_OPEN},
    {AT(22, 0), 1, HOLD, VALVE_CYCLING},
    {AT(22, 0), 2, HOLD, DAMPER_OPEN},
    {AT(22, 0), 2, HOLD, VALVE_CYCLING},
    {AT(22, 15), 1, HOLD, GAS_FLOW_HIGH},
    {AT(22, 40), 1, HOLD, TC_4_HIGH},
    {AT(23, 12), 1, HOLD, TC_3_HIGH},
    {AT(23, 30), 2, HOLD, TC_3_HIGH}, /* another thermocouple, on another crown */
    {AT(23, 50), 1, WITHDRAW, TC_4_HIGH},
    {AT(0, 5), 1, HOLD, TC_7_HIGH},
    {AT(0, 42), 1, HOLD, DAMPER_SHUT}, /* both limit switches are made: one of them is wrong */
    {AT(0, 45), 1, ASK, DRAUGHT_GOOD}, /* in conflict itself */
    {AT(0, 45), 1, ASK, TRIM_GAS},     /* stands in the midst of it, though on one of the switches */
    {AT(0, 45), 2, ASK, TRIM_GAS},     /* and of the whole board too: the conflict is furnace 1's */
    {AT(0, 51), 1, WITHDRAW, DAMPER_SHUT},
    {AT(1, 20), 1, HOLD, TC_8_HIGH},
    {AT(1, 40), 0, NEEDS, BURN_OFF_DUE}, /* ahead of striking TC-7 off: is there more that it stands on? */
    {AT(1, 45), 1, WITHDRAW, TC_7_HIGH}, /* "burn-off due" has another ground by now and stays up */
    {AT(1, 58), 1, HOLD, TC_8_HIGH},     /* reported twice: refused */
    {AT(2, 0), 2, HOLD, TC_8_HIGH},      /* and for furnace 2 no repetition */
    {AT(2, 5), 1, HOLD, OXYGEN_LOW},
    {AT(2, 30), 1, WITHDRAW, OXYGEN_LOW},
    {AT(2, 38), 3, HOLD, TC_4_HIGH}, /* a slip: there is no furnace 3 */
    {AT(2, 40), 1, HOLD, TC_4_HIGH},
    {STRUCK_OFF, STRUCK_FURNACE, WITHDRAW, TC_3_HIGH}, /* the March case */
    {AT(3, 12), 1, ASK, TRIM_GAS},
    {AT(3, 12), 2, ASK, TRIM_GAS},       /* furnace 2 is still overfired by its own TC-3 */
    {AT(3, 14), 0, NEEDS, TRIM_GAS},     /* what would bring it up again? */
    {AT(3, 18), 1, WITHDRAW, TC_3_HIGH}, /* struck off twice: refused, though furnace 2 holds its own */
    {AT(3, 25), 2, WITHDRAW, TC_8_HIGH}, /* furnace 1's stays */
    {AT(3, 35), 1, WITHDRAW, VALVE_CYCLING},
    {AT(3, 35), 1, HOLD, -VALVE_CYCLING},
    {AT(3, 50), 1, HOLD, TC_7_HIGH},
    {AT(4, 8), 1, WITHDRAW, TC_7_HIGH},
    {AT(4, 10), 1, WITHDRAW, -VALVE_CYCLING},
    {AT(4, 10), 1, HOLD, VALVE_CYCLING},
    {AT(4, 30), 1, HOLD, PYROMETER_NORMAL},
    {AT(4, 40), 2, HOLD, PYROMETER_NORMAL}, /* the same sighting, booked to the wrong furnace: its TC-3 speaks against it at once */
    {AT(4, 43), 1, ASK, CROWN_HOT},
    {AT(4, 43), 2, ASK, CROWN_HOT},
    {AT(4, 46), 2, WITHDRAW, PYROMETER_NORMAL},
    {AT(4, 55), 1, HOLD, TC_9_LOW},
    {AT(5, 0), 1, HOLD, DAMPER_SHUT}, /* again, and by now with consequences: "add gas" and the readings behind it are in conflict too */
    {AT(5, 3), 1, HOLD, TC_3_HIGH},   /* struck off at 03:10, and booked again: two conflicts now, of which blame names one */
    {AT(5, 6), 1, WITHDRAW, TC_3_HIGH},
    {AT(5, 6), 1, WITHDRAW, DAMPER_SHUT}, /* the least to withdraw was both */
    {AT(5, 10), 1, WITHDRAW, TC_8_HIGH},
    {AT(5, 20), 2, WITHDRAW, TC_3_HIGH}, /* trimming the gas has cooled the crown */
    {AT(5, 30), 1, WITHDRAW, TC_4_HIGH},
    {AT(5, 45), 1, WITHDRAW, TC_9_LOW},
};

enum { EVENTS = sizeof shift / sizeof shift[0] };

/* ---- Words ---- */

_Noreturn void stop(const char *reason) {
    printf("stopped: %s\n", reason);
    exit(EXIT_FAILURE);
}

void say(words *line, const char *format, ...) {
    va_list rest;
    va_start(rest, format);
    int needed = vsnprintf(line->text + line->length, ROOM - line->length, format, rest);
    va_end(rest);
    if (needed < 0 || (size_t)needed >= ROOM - line->length) {
        stop("a line of text has no room");
    }
    line->length += (size_t)needed;
}

words clock_at(int minute) {
    words line = {0};
    int of_day = (minute + 22 * 60) % (24 * 60);
    say(&line, "%02d:%02d", of_day / 60, of_day % 60);
    return line;
}

/* A refusal's number in a word or two. 14 has none: it stays unused. */
static const char *refusal_word(uint8_t refusal) {
    static const char *const known[] = {
        [TUP_DONE] = "done",
        [TUP_BAD_BOARD] = "bad board",
        [TUP_BAD_LITERAL] = "no such symbol",
        [TUP_CUT_SHORT] = "cut short",
        [TUP_UNKNOWN_KIND] = "unknown kind",
        [TUP_TOO_DEEP] = "too deep",
        [TUP_BYTES_LEFT_OVER] = "bytes left over",
        [TUP_TOO_MANY_SYMBOLS] = "too many symbols",
        [TUP_NO_ASSIGNMENT] = "contradicts itself",
        [TUP_TABLE_FULL] = "clause table full",
        [TUP_ALREADY_HELD] = "already held",
        [TUP_NOT_HELD] = "not held",
        [TUP_NOTHING_TO_SHOW] = "nothing to show",
        [TUP_TABLE_TOO_SHORT] = "table too short",
        [TUP_BAD_TEXT] = "no formula text",
        [TUP_BAD_FURNACE] = "no such furnace",
        [TUP_BAD_CANDIDATES] = "bad candidates",
        [TUP_CONFLICT_STAYS] = "conflict stays",
        [TUP_BAD_POSITIONS] = "bad positions",
        [TUP_EMPTY_STACK] = "nothing stacked",
        [TUP_STACKED] = "on the stack",
    };
    bool is_known = refusal < sizeof known / sizeof known[0] && known[refusal];
    return is_known ? known[refusal] : "unknown refusal";
}

/* The board's answers in words. */
static const char *const answer_words[] = {
    [TUP_OPEN] = "open",
    [TUP_STANDS] = "stands",
    [TUP_RULED_OUT] = "ruled out",
    [TUP_CONFLICT] = "conflict",
};

/* Stops at a refusal that only a mistake in this program can bring about. */
static void must_be_done(const char *call, uint8_t refusal) {
    if (refusal != TUP_DONE) {
        printf("%s: refused %d, %s\n", call, refusal, refusal_word(refusal));
        stop("the board could not be read");
    }
}

/* A literal's place in ranks, supports and premises. */
static int place_of(int literal) {
    return literal > 0 ? 2 * (literal - 1) : 2 * (-literal - 1) + 1;
}

/* The literal at a place. */
static int literal_at(int place) {
    int symbol = place / 2 + 1;
    return place % 2 == 0 ? symbol : -symbol;
}

/* Names the furnace that a line is of, but for the first. */
static words whose(uint8_t number) {
    words line = {0};
    if (number != 1) {
        say(&line, "furnace %d, ", number);
    }
    return line;
}

/* Says a literal by its name. */
static void say_literal(words *line, int literal) {
    say(line, "%s%s", literal < 0 ? "not " : "", names[abs(literal)]);
}

/* Says a row of the clause table. */
static void say_row(words *line, const screen *s, int row) {
    const int16_t *literals = s->table + row * TUP_ROW_WIDTH;
    for (int i = 0; i < TUP_ROW_LITERALS && literals[i] != 0; i++) {
        say(line, "%s", i > 0 ? " or " : "");
        say_literal(line, literals[i]);
    }
}

/* Says which premises are marked. A mark may need none, where rules of one literal carry it. */
static void say_premises(words *line, const uint8_t marks[PLACES]) {
    const char *between = "";
    for (int place = 0; place < PLACES; place++) {
        if (marks[place]) {
            say(line, "%s", between);
            say_literal(line, literal_at(place));
            between = ", ";
        }
    }
    say(line, "%s", between[0] == '\0' ? "the rules alone" : "");
}

/* Says the members of a set of candidates. Bit i of the set's number stands for candidates[i]. */
static void say_members(words *line, const int16_t *candidates, int count, unsigned set) {
    const char *between = "";
    for (int i = 0; i < count; i++) {
        if ((set >> i & 1) != 0) {
            say(line, "%s", between);
            say_literal(line, candidates[i]);
            between = " and ";
        }
    }
}

/* ---- Rules, in plain text ---- */

/* Prints why a rule was refused, and where: under its text for a text that breaks the form, by the formula's byte else. */
static void say_refusal(const char *text, tup_addition addition) {
    printf(": refused %d, %s", addition.refusal, refusal_word(addition.refusal));
    if (addition.refusal == TUP_BAD_TEXT) {
        printf("\n  %s\n  %*s\n", text, (int)addition.place + 1, "^");
        return;
    }
    if (addition.place != TUP_NO_PLACE) {
        printf(", at byte %zu of its formula", addition.place);
    }
    printf("\n");
}

/* Keeps an accepted rule by its number, the count of rules on the board that came back, and prints its rows. A rule that is always true has none. */
static void keep_rule(screen *s, const char *meaning, tup_addition addition) {
    int number = addition.board.rules, first = addition.board.rows - addition.added;
    if (number > MOST_RULES) {
        stop("the screen has no room for another rule");
    }
    s->rules[number] = (kept_rule){meaning, first, addition.added};
    printf("rule %d: %s\n", number, meaning);
    for (int row = first; row < first + addition.added; row++) {
        words line = {0};
        say_row(&line, s, row);
        printf("  row %d: %s\n", row, line.text);
    }
    if (addition.added == 0) {
        printf("  no row: always true\n");
    }
}

/* Adds a rule, its text written with symbols for each %d, and prints the rows that it wrote, or why it was refused. */
static void rule(screen *s, const char *meaning, const char *text, ...) {
    char whole[ROOM];
    va_list symbols;
    va_start(symbols, text);
    int length = vsnprintf(whole, sizeof whole, text, symbols);
    va_end(symbols);
    if (length < 0 || (size_t)length >= sizeof whole) {
        stop("a rule's text is too long");
    }
    tup_addition addition = tup_rule_text(s->board, s->table, NUMBERS, (const uint8_t *)whole, (size_t)length);
    s->board = addition.board; /* a refused rule hands the board back as it was */
    if (addition.refusal != TUP_DONE) {
        printf("rule: %s", meaning);
        say_refusal(whole, addition);
        s->rules_refused++;
        return;
    }
    keep_rule(s, meaning, addition);
}

/* The crown. The second and third rule are the two conclusions that lean on each other. */
static void add_crown_rules(screen *s) {
    rule(s, "TC-3 high means a hot crown", "%d > %d", TC_3_HIGH, CROWN_HOT);
    rule(s, "under a hot crown the melter is overfired", "%d > %d", CROWN_HOT, OVERFIRED);
    rule(s, "over an overfired melter the crown is hot", "%d > %d", OVERFIRED, CROWN_HOT);
    rule(s, "a normal pyrometer reading rules out a hot crown", "%d > -%d", PYROMETER_NORMAL, CROWN_HOT);
    rule(s, "TC-4 high at high gas flow means a hot zone 3", "(%d & %d) > %d", TC_4_HIGH, GAS_FLOW_HIGH, ZONE_3_HOT);
    rule(s, "a hot zone 3 without a hot crown means a shifted hot spot", "(%d & -%d) > %d",
         ZONE_3_HOT, CROWN_HOT, HOT_SPOT_SHIFTED);
}

/* What the crew is told to do with the gas. */
static void add_gas_rules(screen *s) {
    rule(s, "overfired at good draught: trim gas", "(%d & %d) > %d", OVERFIRED, DRAUGHT_GOOD, TRIM_GAS);
    rule(s, "gas is never trimmed and added at once", "-(%d & %d)", TRIM_GAS, ADD_GAS);
    rule(s, "no electric boost on either furnace", "-%d", BOOST_ON);
    rule(s, "throat cold, neither overfired nor boosted: add gas", "(%d & -(%d | %d)) > %d",
         TC_9_LOW, OVERFIRED, BOOST_ON, ADD_GAS);
}

/* Damper, draught and flame. */
static void add_draught_rules(screen *s) {
    rule(s, "(says nothing, and counts) the damper is open, or it is not", "%d | -%d", DAMPER_OPEN, DAMPER_OPEN);
    rule(s, "the damper is open or shut, and not both", "%d = -%d", DAMPER_OPEN, DAMPER_SHUT);
    rule(s, "the draught is good just when the damper is open", "%d = %d", DRAUGHT_GOOD, DAMPER_OPEN);
    rule(s, "low oxygen, or high gas flow without draught, means a reducing flame", "(%d | (%d & -%d)) > %d",
         OXYGEN_LOW, GAS_FLOW_HIGH, DRAUGHT_GOOD, FLAME_REDUCING);
    rule(s, "no gas is added to a reducing flame", "%d > -%d", FLAME_REDUCING, ADD_GAS);
}

/* Regenerators and reversal valve. */
static void add_regenerator_rules(screen *s) {
    rule(s, "TC-7 high while the valve cycles: left checkers choked", "(%d & %d) > %d", TC_7_HIGH, VALVE_CYCLING, LEFT_CHOKED);
    rule(s, "TC-8 high while the valve cycles: right checkers choked", "(%d & %d) > %d", TC_8_HIGH, VALVE_CYCLING, RIGHT_CHOKED);
    rule(s, "checkers choked on either side: burn-off due", "(%d | %d) > %d", LEFT_CHOKED, RIGHT_CHOKED, BURN_OFF_DUE);
    rule(s, "both sides high while the valve does not cycle: valve stuck", "(%d & %d & -%d) > %d",
         TC_7_HIGH, TC_8_HIGH, VALVE_CYCLING, VALVE_STUCK);
}

/* Three slips of the pen, to show that the board refuses them, says where a rule breaks, and stays as it was. */
static void add_slips(screen *s) {
    rule(s, "(a slip) the damper is open and is not", "%d & -%d", DAMPER_OPEN, DAMPER_OPEN);
    rule(s, "(a slip) a symbol that this board does not have", "%d > %d", SYMBOLS + 1, TRIM_GAS);
    rule(s, "(a slip) both sides high: burn-off due, with no brackets", "%d & %d > %d", TC_7_HIGH, TC_8_HIGH, BURN_OFF_DUE);
}

/* ---- Marks and their grounds ---- */

/* Whether the furnace holds a literal. */
static bool holds(const screen *s, const furnace *f, int literal) {
    return s->board.held[f->number - 1][place_of(literal)] != 0;
}

/* Finds the premises that a derived literal stands on. */
static void find_ground(const screen *s, const furnace *f, int literal, uint8_t marks[PLACES]) {
    must_be_done("ground", tup_ground(s->board, s->table, NUMBERS, f->number, (int16_t)literal, marks, PLACES));
}

/* Says why a derived literal stands: the reading itself, or rank, the rule behind it by its own sentence, which is found by the rule's number, the
 * supporting row, and the ground. */
static void say_why(words *line, const screen *s, const furnace *f, int literal) {
    if (holds(s, f, literal)) {
        say(line, "a held reading");
        return;
    }
    tup_reason reason = tup_explain(s->board, s->table, NUMBERS, f->number, (int16_t)literal);
    must_be_done("explain", reason.refusal);
    say(line, "rank %d, by \"%s\" (row %d: ", reason.rank, s->rules[reason.rule].sentence, reason.row);
    say_row(line, s, reason.row);
    say(line, "), ground: ");
    uint8_t marks[PLACES];
    find_ground(s, f, literal, marks);
    say_premises(line, marks);
}

/* A symbol's mark as the board has it now. */
static mark mark_now(const screen *s, const furnace *f, int symbol, int now) {
    mark result = {.symbol = symbol, .from = now, .label = f->settled.labels[symbol - 1]};
    switch (result.label) {
    case 1: say_why(&result.why, s, f, symbol); break;
    case 2: say_why(&result.why, s, f, -symbol); break;
    case 3:
        say(&result.why, "true by ");
        say_why(&result.why, s, f, symbol);
        say(&result.why, "; false by ");
        say_why(&result.why, s, f, -symbol);
        break;
    default: break;
    }
    result.held = holds(s, f, result.label == 2 ? -symbol : symbol);
    return result;
}

/* What to call the change from one mark to the next. */
static const char *change_word(const mark *before, const mark *after) {
    static const char *const regrounded[] = {"open", "still up, on another ground", "still ruled out, on another ground",
                                             "still in conflict, on another ground"};
    static const char *const fresh[] = {"down", "up", "ruled out", "in conflict"};
    if (before->label == after->label) {
        return regrounded[after->label];
    }
    return before->label == 2 && after->label == 0 ? "no longer ruled out" : fresh[after->label];
}

/* Keeps a mark that ends for the chart. One that came and went in the same minute has no width there. */
static void end_mark(furnace *f, const mark *ended, int now) {
    if (ended->label == 0 || ended->from == now) {
        return;
    }
    if (f->bar_count == MOST_BARS) {
        stop("the chart has no room for another bar");
    }
    f->bars[f->bar_count] = *ended;
    f->bars[f->bar_count].to = now;
    f->bar_count++;
}

/* Prints each mark that the last change altered, in label or in ground, and takes it over. */
static void update_marks(const screen *s, furnace *f, int now) {
    for (int symbol = 1; symbol <= SYMBOLS; symbol++) {
        mark *before = &f->marks[symbol];
        mark after = mark_now(s, f, symbol, now);
        if (after.label == before->label && strcmp(after.why.text, before->why.text) == 0) {
            continue;
        }
        printf("%s   %s%s: %s%s%s\n", clock_at(now).text, whose(f->number).text, names[symbol], change_word(before, &after),
               after.label != 0 ? ", " : "", after.why.text);
        end_mark(f, before, now);
        *before = after;
    }
}

/* A copy of the board on which the furnace holds the marked premises, and nothing else is held. */
static tup_board holding_only(const screen *s, const furnace *f, const uint8_t marks[PLACES]) {
    tup_board alone = s->board;
    memset(alone.held, 0, sizeof alone.held);
    memcpy(alone.held[f->number - 1], marks, PLACES);
    return alone;
}

/* How a literal stands at a furnace, by its own symbol: a conflict of others does not hide it. */
static uint8_t ask(const screen *s, uint8_t number, int literal) {
    tup_answer answer = tup_ask(s->board, s->table, NUMBERS, number, (int16_t)literal);
    must_be_done("ask", answer.refusal);
    return answer.standing;
}

/* How a literal stands where a whole board under the screen's rules is asked: conflict for each while the furnace is in conflict at all. */
static uint8_t ask_whole(const screen *s, tup_board board, uint8_t number, int literal) {
    tup_answer answer = tup_ask_whole(board, s->table, NUMBERS, number, (int16_t)literal);
    must_be_done("ask of the whole board", answer.refusal);
    return answer.standing;
}

/* ---- What the foreman may strike off ---- */

/* Whether a literal is a reading. What a screen may hold besides, an order or a limit, is not the foreman's to strike off. */
static bool is_reading(int literal) {
    for (int i = 0; i < READINGS; i++) {
        if (readings[i] == literal) {
            return true;
        }
    }
    return false;
}

/* Takes a reading that was withdrawn off the foreman's list. The others keep their order. */
static void unlist_reading(furnace *f, int literal) {
    int kept = 0;
    for (int i = 0; i < f->may_strike_count; i++) {
        if (f->may_strike[i] != literal) {
            f->may_strike[kept++] = f->may_strike[i];
        }
    }
    f->may_strike_count = kept;
}

/* Puts a reading that is now held in front of the foreman's list: the newest is first. Of two sets of the same size the library names the one with
 * the smaller number, which in this order is the one that keeps the oldest of the readings in which they differ. So what came last is doubted first.
 * The list has every reading held, each once, and has room for all there are. */
static void list_reading(furnace *f, int literal) {
    memmove(f->may_strike + 1, f->may_strike, (size_t)f->may_strike_count * sizeof f->may_strike[0]);
    f->may_strike[0] = (int16_t)literal;
    f->may_strike_count++;
}

/* Brings the foreman's list in line with a reading that was held or withdrawn. */
static void update_list(furnace *f, const event *e) {
    if (!is_reading(e->literal)) {
        return;
    }
    if (e->what == HOLD) {
        list_reading(f, e->literal);
    } else {
        unlist_reading(f, e->literal);
    }
}

/* The least of a list to withdraw for the furnace's conflict to end. That no set of the list ends it is an answer too. */
static tup_withdrawal find_least(const screen *s, const furnace *f, const int16_t *list, int count) {
    tup_withdrawal least = tup_least(s->board, s->table, NUMBERS, f->number, list, (size_t)count);
    if (least.refusal != TUP_CONFLICT_STAYS) {
        must_be_done("least", least.refusal);
    }
    return least;
}

/* How many members a set has. */
static int size_of(unsigned set) {
    int size = 0;
    for (; set != 0; set >>= 1) {
        size += set & 1;
    }
    return size;
}

/* ---- Conflicts ---- */

/* Finds which readings are to blame, and checks that they alone, under the same rules, are in conflict. Which symbols are in conflict there does
 * not matter, so the whole board is asked, and any literal will do. */
static void find_blame(screen *s, const furnace *f, uint8_t marks[PLACES]) {
    must_be_done("blame", tup_blame(s->board, s->table, NUMBERS, f->number, marks, PLACES));
    s->blames.made++;
    if (ask_whole(s, holding_only(s, f, marks), f->number, 1) != TUP_CONFLICT) {
        words blame = {0};
        say_premises(&blame, marks);
        printf("no conflict by these alone: %s\n", blame.text);
        s->blames.failed++;
    }
}

/* Whether the ground of a derived literal has one of the premises that are marked. */
static bool stands_on(const screen *s, const furnace *f, int literal, const uint8_t marks[PLACES]) {
    uint8_t ground[PLACES];
    find_ground(s, f, literal, ground);
    for (int place = 0; place < PLACES; place++) {
        if (ground[place] && marks[place]) {
            return true;
        }
    }
    return false;
}

/* The literal that an answer speaks of: the opposite that stands where the symbol is ruled out, and else the symbol. */
static int answered_literal(int symbol, uint8_t answer) {
    return answer == TUP_RULED_OUT ? -symbol : symbol;
}

/* Says the least to withdraw, and of how many readings it was chosen; or that all of them together would not end the conflict. */
static void say_least(conflict *c, const screen *s, const furnace *f) {
    tup_withdrawal least = find_least(s, f, f->may_strike, f->may_strike_count);
    if (least.refusal == TUP_CONFLICT_STAYS) {
        say(&c->least, "nothing will do");
        say(&c->choice, "the conflict stays with all %d readings withdrawn that may be struck off", f->may_strike_count);
        return;
    }
    say_members(&c->least, f->may_strike, f->may_strike_count, least.set);
    say(&c->choice, "%d of %d readings that may be struck off", size_of(least.set), f->may_strike_count);
}

/* A furnace's conflict as it is now. The board is asked for each symbol, since this is what a screen that only asks would show. */
static conflict conflict_now(screen *s, const furnace *f, int now) {
    conflict result = {.began = now, .from = now};
    uint8_t blamed[PLACES];
    find_blame(s, f, blamed);
    say_premises(&result.blame, blamed);
    say_least(&result, s, f);
    for (int symbol = 1; symbol <= SYMBOLS; symbol++) {
        uint8_t answer = ask(s, f->number, symbol);
        bool stands = answer == TUP_STANDS || answer == TUP_RULED_OUT;
        result.answers[symbol] = answer;
        result.on_blame[symbol] = stands && stands_on(s, f, answered_literal(symbol, answer), blamed);
    }
    return result;
}

/* Says which marks are in conflict, or which stand, on a reading to blame or on none. */
static void say_marks(words *line, const conflict *c, bool in_conflict, bool on_blame) {
    const char *between = "";
    for (int symbol = 1; symbol <= SYMBOLS; symbol++) {
        uint8_t answer = c->answers[symbol];
        if (answer != TUP_OPEN && (answer == TUP_CONFLICT) == in_conflict && c->on_blame[symbol] == on_blame) {
            say(line, "%s", between);
            say_literal(line, answered_literal(symbol, answer));
            between = ", ";
        }
    }
    say(line, "%s", between[0] == '\0' ? "none" : "");
}

/* Prints a furnace's conflict: the readings to blame, the least to withdraw, and the marks. What stands on a reading to blame may fall with it, so
 * the crew has to look before it acts on that. */
static void print_conflict(const furnace *f, const conflict *c, const char *still) {
    words line = {0};
    say(&line, "marks in conflict: ");
    say_marks(&line, c, true, false);
    say(&line, "; standing on a reading to blame: ");
    say_marks(&line, c, false, true);
    say(&line, "; standing on no such reading: ");
    say_marks(&line, c, false, false);
    printf("%s   furnace %d: %sin conflict, to blame: %s\n", clock_at(c->from).text, f->number, still, c->blame.text);
    printf("%s   furnace %d: least to withdraw: %s (%s)\n", clock_at(c->from).text, f->number, c->least.text, c->choice.text);
    printf("%s   furnace %d, %s\n", clock_at(c->from).text, f->number, line.text);
}

/* Whether a conflict is what it was. */
static bool is_same_conflict(const conflict *before, const conflict *after) {
    return strcmp(before->blame.text, after->blame.text) == 0 && strcmp(before->least.text, after->least.text) == 0 &&
           memcmp(before->answers, after->answers, sizeof after->answers) == 0 &&
           memcmp(before->on_blame, after->on_blame, sizeof after->on_blame) == 0;
}

/* Ends a furnace's conflict, or the stage that it was in, for the chart. One that came and went in the same minute has no width there. */
static void end_conflict(furnace *f, int now) {
    conflict *last = &f->conflicts[f->conflict_count];
    last->to = now;
    f->conflict_count += last->from < now ? 1 : 0;
}

/* Prints a furnace's conflict at its start, and again wherever another reading has changed it: a stage of its own on the chart. */
static void take_conflict(screen *s, furnace *f, int now) {
    conflict *last = &f->conflicts[f->conflict_count];
    conflict after = conflict_now(s, f, now);
    if (f->in_conflict) {
        if (is_same_conflict(last, &after)) {
            return;
        }
        after.began = last->began;
        end_conflict(f, now);
    }
    if (f->conflict_count == MOST_CONFLICTS) {
        stop("the chart has no room for another conflict");
    }
    f->conflicts[f->conflict_count] = after;
    print_conflict(f, &after, f->in_conflict ? "still " : "");
}

/* Tells a furnace's conflict from its start to its end. */
static void update_conflict(screen *s, furnace *f, int now) {
    bool in_conflict = memchr(f->settled.labels, 3, SYMBOLS) != NULL;
    if (in_conflict) {
        take_conflict(s, f, now);
    } else if (f->in_conflict) {
        printf("%s   furnace %d: conflict over\n", clock_at(now).text, f->number);
        end_conflict(f, now);
    }
    f->in_conflict = in_conflict;
}

/* ---- Settling, and its checks ---- */

/* Whether the ground of a literal is enough: a board that holds nothing else derives it at the same rank, by the same row. An empty ground is
 * thereby enough only for what the rules alone derive. */
static bool ground_is_enough(const screen *s, const furnace *f, int literal) {
    uint8_t marks[PLACES];
    find_ground(s, f, literal, marks);
    tup_reason alone = tup_explain(holding_only(s, f, marks), s->table, NUMBERS, f->number, (int16_t)literal);
    int place = place_of(literal);
    bool enough = alone.refusal == TUP_DONE && alone.rank == f->settled.ranks[place] && alone.row == f->settled.supports[place];
    if (!enough) {
        words line = {0};
        say_literal(&line, literal);
        printf("ground not enough for %s: %s, rank %d, row %d\n", line.text, refusal_word(alone.refusal), alone.rank, alone.row);
    }
    return enough;
}

/* Whether the rule that explain names for a literal is the one whose rows the supporting row is among. */
static bool sentence_is_its_own(const screen *s, const furnace *f, int literal) {
    tup_reason reason = tup_explain(s->board, s->table, NUMBERS, f->number, (int16_t)literal);
    must_be_done("explain", reason.refusal);
    const kept_rule *named = &s->rules[reason.rule];
    return named->first_row <= reason.row && reason.row < named->first_row + named->rows;
}

/* Checks the owner's rule for every literal that is derived and not held, and the sentence that is shown for it. */
static void check_grounds(screen *s, const furnace *f) {
    for (int place = 0; place < PLACES; place++) {
        if (f->settled.ranks[place] != TUP_NONE && !holds(s, f, literal_at(place))) {
            s->grounds.made++;
            s->grounds.failed += ground_is_enough(s, f, literal_at(place)) ? 0 : 1;
            s->sentences.made++;
            s->sentences.failed += sentence_is_its_own(s, f, literal_at(place)) ? 0 : 1;
        }
    }
}

/* What the board has to answer for a literal by its symbol's label. */
static uint8_t answer_by_label(const furnace *f, int literal) {
    static const uint8_t positive[] = {TUP_OPEN, TUP_STANDS, TUP_RULED_OUT, TUP_CONFLICT};
    static const uint8_t negative[] = {TUP_OPEN, TUP_RULED_OUT, TUP_STANDS, TUP_CONFLICT};
    uint8_t label = f->settled.labels[abs(literal) - 1];
    return literal > 0 ? positive[label] : negative[label];
}

/* Counts a check of an answer; one that fails is printed. */
static void count_answer_check(screen *s, const furnace *f, int literal, const char *asked, uint8_t answer, uint8_t due) {
    s->answers.made++;
    if (answer != due) {
        words line = {0};
        say_literal(&line, literal);
        printf("furnace %d, %s, %s: %s, and not %s\n", f->number, asked, line.text, answer_words[answer], answer_words[due]);
        s->answers.failed++;
    }
}

/* Checks that each literal is answered by the label of its symbol, and of the whole board likewise, or as in conflict while the furnace is. */
static void check_answers(screen *s, const furnace *f) {
    for (int place = 0; place < PLACES; place++) {
        int literal = literal_at(place);
        uint8_t due = answer_by_label(f, literal);
        uint8_t whole = ask_whole(s, s->board, f->number, literal);
        count_answer_check(s, f, literal, "asked", ask(s, f->number, literal), due);
        count_answer_check(s, f, literal, "asked of the whole board", whole, f->in_conflict ? TUP_CONFLICT : due);
    }
}

/* Whether the furnace is in no conflict once a set of the foreman's list is withdrawn, one reading after the other, on copies of the board and
 * its stacks. Which symbols are in conflict does not matter, so the whole board is asked, and any literal will do. */
static bool ends_conflict(const screen *s, const furnace *f, unsigned set) {
    tup_board board = s->board;
    tup_stacks stacks = s->stacks;
    for (int i = 0; i < f->may_strike_count; i++) {
        if ((set >> i & 1) != 0) {
            tup_change change = tup_withdraw(board, s->table, NUMBERS, &stacks, f->number, f->may_strike[i]);
            must_be_done("withdraw", change.refusal);
            board = change.board;
        }
    }
    return ask_whole(s, board, f->number, 1) != TUP_CONFLICT;
}

/* The least to withdraw, found by trying set after set by their numbers: a later one is less only with fewer members. TUP_NONE where no set ends the
 * conflict: as a set it has more members than any of the list. */
static unsigned least_by_trying(const screen *s, const furnace *f) {
    unsigned least = TUP_NONE;
    for (unsigned set = 0; set < 1u << f->may_strike_count; set++) {
        if (size_of(set) < size_of(least) && ends_conflict(s, f, set)) {
            least = set;
        }
    }
    return least;
}

/* Counts a check of the least to withdraw; one that fails is printed. */
static void count_least_check(screen *s, const furnace *f, bool good, const char *complaint) {
    s->leasts.made++;
    if (!good) {
        printf("furnace %d, least to withdraw: %s\n", f->number, complaint);
        s->leasts.failed++;
    }
}

/* How many readings the furnace holds. */
static int count_readings(const screen *s, const furnace *f) {
    int count = 0;
    for (int i = 0; i < READINGS; i++) {
        count += holds(s, f, readings[i]) ? 1 : 0;
    }
    return count;
}

/* Checks that a list without the readings to blame would not do: these are in conflict by themselves, whatever else is withdrawn. */
static void check_without_blamed(screen *s, const furnace *f) {
    uint8_t blamed[PLACES];
    int16_t others[TUP_MOST_CANDIDATES];
    int count = 0;
    must_be_done("blame", tup_blame(s->board, s->table, NUMBERS, f->number, blamed, PLACES));
    for (int i = 0; i < f->may_strike_count; i++) {
        if (!blamed[place_of(f->may_strike[i])]) {
            others[count++] = f->may_strike[i];
        }
    }
    count_least_check(s, f, find_least(s, f, others, count).refusal == TUP_CONFLICT_STAYS, "found without the readings to blame");
}

/* Checks that the least to withdraw is what trying finds, in conflict or not: without conflict that is the empty set. It is of all readings held
 * where the list has as many, since the library takes no list with one that is not held, or with one twice. */
static void check_least(screen *s, const furnace *f) {
    tup_withdrawal least = find_least(s, f, f->may_strike, f->may_strike_count);
    count_least_check(s, f, f->may_strike_count == count_readings(s, f), "not of all readings held");
    count_least_check(s, f, least.set == least_by_trying(s, f), "not what trying finds");
    if (f->in_conflict) {
        check_without_blamed(s, f);
    }
}

/* What the board derives for a furnace now. */
static settling settled_now(const screen *s, const furnace *f) {
    settling result;
    must_be_done("settle", tup_settle(s->board, s->table, NUMBERS, f->number, result.labels, SYMBOLS, result.ranks, PLACES,
                                      result.supports, PLACES));
    return result;
}

/* Settles a furnace and brings the screen in line with it. */
static void settle(screen *s, furnace *f, int now) {
    f->settled = settled_now(s, f);
    update_conflict(s, f, now);
    update_marks(s, f, now);
    check_grounds(s, f);
    check_answers(s, f);
    check_least(s, f);
}

/* Checks that a reading of one furnace left every other with the labels, ranks and supports that it had. */
static void check_others(screen *s, const furnace *changed) {
    for (int i = 0; i < TUP_FURNACES; i++) {
        const furnace *other = &s->furnaces[i];
        if (other == changed) {
            continue;
        }
        settling anew = settled_now(s, other);
        s->others.made++;
        if (memcmp(&anew, &other->settled, sizeof anew) != 0) {
            printf("furnace %d moved with a reading of furnace %d\n", other->number, changed->number);
            s->others.failed++;
        }
    }
}

/* ---- What a withdrawal can't move ---- */

/* Finds the derived literals whose ground does not have a reading: those keep rank and support when it is withdrawn. */
static void find_unmoved(const screen *s, const furnace *f, int reading, bool unmoved[PLACES]) {
    for (int place = 0; place < PLACES; place++) {
        uint8_t marks[PLACES] = {0};
        bool derived = f->settled.ranks[place] != TUP_NONE;
        if (derived) {
            find_ground(s, f, literal_at(place), marks);
        }
        unmoved[place] = derived && !marks[place_of(reading)];
    }
}

/* Says which conclusions that are up can't move, or which may. */
static void say_conclusions(words *line, const furnace *f, const bool unmoved[PLACES], bool wanted) {
    const char *between = "";
    for (int symbol = FIRST_CONCLUSION; symbol <= SYMBOLS; symbol++) {
        int place = place_of(symbol);
        if (f->settled.ranks[place] != TUP_NONE && unmoved[place] == wanted) {
            say(line, "%s%s", between, names[symbol]);
            between = ", ";
        }
    }
    say(line, "%s", between[0] == '\0' ? "none" : "");
}

/* Tells the operator, ahead of a withdrawal, what it can't move. */
static void print_unmoved(const furnace *f, const event *e, const bool unmoved[PLACES]) {
    words line = {0};
    say(&line, "%s %sif ", clock_at(e->at).text, whose(f->number).text);
    say_literal(&line, e->literal);
    say(&line, " is struck off, can't move: ");
    say_conclusions(&line, f, unmoved, true);
    say(&line, "; may: ");
    say_conclusions(&line, f, unmoved, false);
    printf("%s\n", line.text);
}

/* Whether a literal has the rank and the support that it had. */
static bool is_unmoved(const furnace *f, const settling *before, int place) {
    return f->settled.ranks[place] == before->ranks[place] && f->settled.supports[place] == before->supports[place];
}

/* Checks that what could not move did not. */
static void check_unmoved(screen *s, const furnace *f, const settling *before, const bool unmoved[PLACES]) {
    for (int place = 0; place < PLACES; place++) {
        if (!unmoved[place]) {
            continue;
        }
        s->unmoved.made++;
        if (!is_unmoved(f, before, place)) {
            words line = {0};
            say_literal(&line, literal_at(place));
            printf("furnace %d: %s moved, and was said not to\n", f->number, line.text);
            s->unmoved.failed++;
        }
    }
}

/* ---- What a mark needs ---- */

/* The smallest sets of readings that carry a mark, in the order of the list. Bit i of a set's number stands for readings[i]. */
typedef struct listed {
    int count;
    uint16_t sets[TUP_MOST_SETS];
} listed;

/* Asks for the smallest sets of readings that carry a literal. The rules alone decide: whatever the furnaces hold does not count. */
static listed find_sets(const screen *s, int literal) {
    listed list;
    tup_listing listing = tup_smallest(s->board, s->table, NUMBERS, readings, READINGS, (int16_t)literal, list.sets, TUP_MOST_SETS);
    must_be_done("smallest", listing.refusal);
    list.count = (int)listing.count;
    return list;
}

/* Marks the premises that a set of readings has. */
static void mark_set(unsigned set, uint8_t marks[PLACES]) {
    memset(marks, 0, PLACES);
    for (int i = 0; i < READINGS; i++) {
        marks[place_of(readings[i])] = set >> i & 1;
    }
}

/* The set of the readings that are marked. */
static unsigned marked_set(const uint8_t marks[PLACES]) {
    unsigned set = 0;
    for (int i = 0; i < READINGS; i++) {
        set |= (marks[place_of(readings[i])] != 0 ? 1u : 0u) << i;
    }
    return set;
}

/* Whether a set has a set of the list in it. */
static bool has_listed(unsigned set, const listed *list) {
    for (int i = 0; i < list->count; i++) {
        if ((list->sets[i] & ~set) == 0) {
            return true;
        }
    }
    return false;
}

/* Says the readings of a set. */
static void say_set(words *line, unsigned set) {
    say_members(line, readings, READINGS, set);
    say(line, "%s", set == 0 ? "the rules alone" : "");
}

/* Says which furnaces hold all of a set now. The list itself is the same for both. */
static void say_holders(words *line, const screen *s, unsigned set) {
    const char *before = " (held at furnace ";
    bool any = false;
    for (int i = 0; i < TUP_FURNACES && set != 0; i++) {
        if ((set & ~marked_set(s->board.held[i])) == 0) {
            say(line, "%s%d", before, s->furnaces[i].number);
            before = " and furnace ";
            any = true;
        }
    }
    say(line, "%s", any ? ")" : "");
}

/* How a literal stands where the readings of a set alone are held, under the same rules. At which furnace does not matter. The whole board is asked:
 * a mark that is up beside a conflict, of whichever symbols, is not carried without one. */
static uint8_t standing_on(const screen *s, unsigned set, int literal) {
    const furnace *f = &s->furnaces[0];
    uint8_t marks[PLACES];
    mark_set(set, marks);
    return ask_whole(s, holding_only(s, f, marks), f->number, literal);
}

/* Counts a check of a set and a literal; one that fails is printed. */
static void count_set_check(screen *s, bool good, int literal, unsigned set, const char *complaint) {
    s->sets.made++;
    if (!good) {
        words line = {0};
        say_literal(&line, literal);
        say(&line, ": ");
        say_set(&line, set);
        printf("%s: %s\n", line.text, complaint);
        s->sets.failed++;
    }
}

/* Checks that a set alone brings its mark up without conflict, and that with any one reading less the mark is open: it is not up, and were it ruled
 * out, or anything in conflict, it would be so with the whole set too. */
static void check_set(screen *s, int literal, unsigned set) {
    count_set_check(s, standing_on(s, set, literal) == TUP_STANDS, literal, set, "not up by these alone");
    for (int i = 0; i < READINGS; i++) {
        if ((set >> i & 1) != 0) {
            count_set_check(s, standing_on(s, set & ~(1u << i), literal) == TUP_OPEN, literal, set, "not all of these are needed");
        }
    }
}

/* Checks that nothing was left out: of all sets of readings, none brings the mark up without conflict but by a set of the list in it. This is one
 * check, failed by the first set that does. */
static void check_no_other(screen *s, int literal, const listed *list) {
    unsigned set = 0, sets = 1u << READINGS;
    while (set < sets && (has_listed(set, list) || standing_on(s, set, literal) != TUP_STANDS)) {
        set++;
    }
    count_set_check(s, set == sets, literal, set, "up by these too");
}

/* Whether all premises that are marked are readings that the shift desk chooses from. */
static bool are_readings(const uint8_t marks[PLACES]) {
    uint8_t all[PLACES];
    mark_set((1u << READINGS) - 1, all);
    for (int place = 0; place < PLACES; place++) {
        if (marks[place] && !all[place]) {
            return false;
        }
    }
    return true;
}

/* Checks that the ground of a mark that stands, where it is of these readings alone, has a set of the list in it: a ground is enough, though it may
 * have readings to spare. */
static void check_ground_has_set(screen *s, const furnace *f, int literal, const listed *list) {
    uint8_t marks[PLACES];
    find_ground(s, f, literal, marks);
    if (are_readings(marks)) {
        count_set_check(s, has_listed(marked_set(marks), list), literal, marked_set(marks), "its ground, with none of the sets in it");
    }
}

/* Checks a list. */
static void check_sets(screen *s, int literal, const listed *list) {
    for (int i = 0; i < list->count; i++) {
        check_set(s, literal, list->sets[i]);
    }
    check_no_other(s, literal, list);
    for (int i = 0; i < TUP_FURNACES; i++) {
        const furnace *f = &s->furnaces[i];
        if (!f->in_conflict && f->settled.ranks[place_of(literal)] != TUP_NONE) {
            check_ground_has_set(s, f, literal, list);
        }
    }
}

/* Keeps a line on what a mark needs for the chart, and prints it. */
static void keep_need(screen *s, const words *line) {
    if (s->need_count == MOST_NEEDS) {
        stop("the chart has no room for what another mark needs");
    }
    s->needs[s->need_count++] = *line;
    printf("%s\n", line->text);
}

/* Tells the shift desk which readings a mark needs, and checks what was told. */
static void tell_needs(screen *s, int literal, int now) {
    listed list = find_sets(s, literal);
    words line = {0};
    say(&line, "%s ", clock_at(now).text);
    say_literal(&line, literal);
    say(&line, list.count == 0 ? " can't be had by these readings" : " needs one of: ");
    for (int i = 0; i < list.count; i++) {
        say(&line, "%s", i > 0 ? "; " : "");
        say_set(&line, list.sets[i]);
        say_holders(&line, s, list.sets[i]);
    }
    keep_need(s, &line);
    check_sets(s, literal, &list);
}

/* ---- Events ---- */

/* Asks the board how a literal stands at a furnace, and prints the answer, with that of the whole board where it is another. */
static void print_standing(const screen *s, uint8_t number, int literal, int now) {
    uint8_t answer = ask(s, number, literal), whole = ask_whole(s, s->board, number, literal);
    words line = {0};
    say(&line, "%s %sasked, %s: %s", clock_at(now).text, whose(number).text, names[abs(literal)], answer_words[answer]);
    if (whole != answer) {
        say(&line, " (of the whole board: %s)", answer_words[whole]);
    }
    printf("%s\n", line.text);
}

/* Holds a reading, or withdraws it. A refused call changes nothing and is only reported; false then. */
static bool change_reading(screen *s, const event *e) {
    words line = {0};
    say(&line, "%s %s%s ", clock_at(e->at).text, whose(e->furnace).text, e->what == HOLD ? "hold" : "withdraw");
    say_literal(&line, e->literal);
    int16_t literal = (int16_t)e->literal;
    tup_change change = e->what == HOLD ? tup_hold(s->board, s->table, NUMBERS, e->furnace, literal)
                                        : tup_withdraw(s->board, s->table, NUMBERS, &s->stacks, e->furnace, literal);
    s->board = change.board;
    if (change.refusal == TUP_DONE) {
        printf("%s\n", line.text);
    } else {
        printf("%s: refused %d, %s\n", line.text, change.refusal, refusal_word(change.refusal));
        s->readings_refused++;
    }
    return change.refusal == TUP_DONE;
}

/* Takes a reading or its withdrawal. Ahead of a withdrawal the operator is told what it can't move, and after it that is checked. */
static void take_reading(screen *s, const event *e) {
    bool has_furnace = 1 <= e->furnace && e->furnace <= TUP_FURNACES, unmoved[PLACES] = {false};
    furnace *f = &s->furnaces[has_furnace ? e->furnace - 1 : 0];
    settling before = f->settled;
    if (has_furnace && e->what == WITHDRAW && holds(s, f, e->literal)) {
        find_unmoved(s, f, e->literal, unmoved);
        print_unmoved(f, e, unmoved);
    }
    if (change_reading(s, e)) {
        update_list(f, e);
        settle(s, f, e->at);
        check_unmoved(s, f, &before, unmoved);
        check_others(s, f);
    }
}

/* Takes one event of the shift. */
static void take(screen *s, const event *e) {
    switch (e->what) {
    case ASK: print_standing(s, e->furnace, e->literal, e->at); break;
    case NEEDS: tell_needs(s, e->literal, e->at); break;
    default: take_reading(s, e); break;
    }
}

/* Ends what still stands at a furnace at the end of the shift, so that the chart has all of it. */
static void end_shift(furnace *f) {
    for (int symbol = 1; symbol <= SYMBOLS; symbol++) {
        end_mark(f, &f->marks[symbol], SHIFT_ENDS);
    }
    if (f->in_conflict) {
        end_conflict(f, SHIFT_ENDS);
    }
}

/* ---- Summary ---- */

bool went_down_at(const furnace *f, const mark *bar, int minute) {
    if (bar->label != 1 || bar->to != minute) {
        return false;
    }
    for (int i = 0; i < f->bar_count; i++) {
        if (f->bars[i].symbol == bar->symbol && f->bars[i].from == minute) {
            return false;
        }
    }
    return true;
}

bool moved_at(const furnace *f, int minute) {
    for (int i = 0; i < f->bar_count; i++) {
        if (f->bars[i].from == minute || f->bars[i].to == minute) {
            return true;
        }
    }
    return false;
}

/* Prints what went down at a furnace when the thermocouple was struck off, or that nothing moved. */
static void print_struck_off(const furnace *f) {
    for (int i = 0; i < f->bar_count; i++) {
        if (went_down_at(f, &f->bars[i], STRUCK_OFF)) {
            printf("%s %s%s: down\n", clock_at(STRUCK_OFF).text, whose(f->number).text, names[f->bars[i].symbol]);
        }
    }
    if (!moved_at(f, STRUCK_OFF)) {
        printf("%s %snothing moved\n", clock_at(STRUCK_OFF).text, whose(f->number).text);
    }
}

/* Prints the marks that are up at a furnace at the end. */
static void print_marks_up(const furnace *f) {
    words up = {0};
    for (int symbol = 1; symbol <= SYMBOLS; symbol++) {
        if (f->marks[symbol].label == 1) {
            say(&up, "%s%s", up.length > 0 ? ", " : "", names[symbol]);
        }
    }
    printf("%smarks up at end: %s\n", whose(f->number).text, up.text);
}

/* Prints what the owner wants to know in the morning. */
static void print_summary(const screen *s) {
    for (int i = 0; i < TUP_FURNACES; i++) {
        print_struck_off(&s->furnaces[i]);
    }
    for (int i = 0; i < TUP_FURNACES; i++) {
        print_standing(s, s->furnaces[i].number, CROWN_HOT, SHIFT_ENDS);
        print_standing(s, s->furnaces[i].number, TRIM_GAS, SHIFT_ENDS);
    }
    for (int i = 0; i < TUP_FURNACES; i++) {
        print_marks_up(&s->furnaces[i]);
    }
    printf("refused: %d rules, %d readings\n", s->rules_refused, s->readings_refused);
    printf("every mark had its ground, and it was enough; every conflict had its readings to blame: %s (%d and %d checks)\n",
           s->grounds.failed + s->blames.failed == 0 ? "yes" : "NO", s->grounds.made, s->blames.made);
    printf("every conclusion's row was one of the rule named for it: %s (%d checks)\n", s->sentences.failed == 0 ? "yes" : "NO", s->sentences.made);
    printf("nothing moved that was said not to: %s (%d checks)\n", s->unmoved.failed == 0 ? "yes" : "NO", s->unmoved.made);
    printf("no reading of one furnace moved the other: %s (%d checks)\n", s->others.failed == 0 ? "yes" : "NO", s->others.made);
    printf("every set named carried its mark, none less and no other did, and where the mark stood its ground had one: %s (%d checks)\n",
           s->sets.failed == 0 ? "yes" : "NO", s->sets.made);
    printf("every answer was what the label says, and of the whole board the same, or conflict while the furnace was in one: %s (%d checks)\n",
           s->answers.failed == 0 ? "yes" : "NO", s->answers.made);
    printf("of all readings held the least to withdraw ended each conflict, nothing less did, and nothing without one to blame: %s (%d checks)\n",
           s->leasts.failed == 0 ? "yes" : "NO", s->leasts.made);
}

/* ---- The shift ---- */

/* Opens the board with its rules, and settles both furnaces under the rules alone. */
static void begin_shift(screen *s) {
    tup_change opened = tup_open(SYMBOLS, &s->stacks);
    must_be_done("open", opened.refusal);
    s->board = opened.board;
    add_crown_rules(s);
    add_gas_rules(s);
    add_draught_rules(s);
    add_regenerator_rules(s);
    add_slips(s);
    for (int i = 0; i < TUP_FURNACES; i++) {
        s->furnaces[i].number = (uint8_t)(i + 1);
        settle(s, &s->furnaces[i], 0);
    }
}

/* Runs the shift. */
int main(int count, char **arguments) {
    static screen s;
    begin_shift(&s);
    for (size_t i = 0; i < EVENTS; i++) {
        take(&s, &shift[i]);
    }
    for (int i = 0; i < TUP_FURNACES; i++) {
        end_shift(&s.furnaces[i]);
    }
    print_summary(&s);
    if (!write_chart(count > 1 ? arguments[1] : "trend.svg", &s)) {
        stop("the picture could not be written");
    }
    int failed = s.grounds.failed + s.blames.failed + s.others.failed + s.sentences.failed + s.unmoved.failed + s.sets.failed + s.answers.failed +
                 s.leasts.failed;
    return failed == 0 ? EXIT_SUCCESS : EXIT_FAILURE;
}
