/* Counts of what came up in the scripts for desk: answers, refusals and faults by the line, and the list of what has to come up. */
#include "coverdesk.h"

#include "cover.h"

static const char *const case_words[DESK_CASES] = {
    "a line of no byte", "a line of blanks", "a comment", "a comment after blanks", "a line without an answer, echoed",
    "blanks ahead of the first word", "a carriage return at the end", "a line of 500 bytes", "500 bytes and a carriage return",
    "a line of 501 bytes", "a line too long with echo on", "a last line without a line feed", "a number that counts as 32,767",
    "a number with leading zeros", "a byte below the blank shown", "a byte above ~ shown", "a place shown with echo on", "place 0",
    "a place from 100 on", "echo on", "echo off", "echo as it was", "an open refused with a board there", "an open that forgets names",
    "an open after furnace 2", "an open that empties a stack", "a symbol renamed", "a name given again", "a name that is none any longer",
    "a name that was another symbol's", "a name of 3 bytes", "a name of 24 bytes", "a name that a line begins with",
    "names that differ by large and small letters", "furnace with no board", "furnace 2's premises changed", "rule, 1 row", "rule, 2 rows or more",
    "rule, no row", "rule, 128 rows", "rule, not kept", "valve, not kept", "pairs, not kept", "pairs, some kept", "a name in a rule",
    "a digit and a name in a rule", "an unknown name in a rule", "15 where the text ends", "15 for no text", "15 at a letter",
    "15 at a seventeenth bracket", "15 at another bracket", "15 at a name", "15 at _", "15 at a byte that does not print", "15 at another byte",
    "2 for number 0", "2 for a number to 255", "2 for a number above 255", "2 for a number with leading zeros", "19 by a count",
    "19 by a symbol shared", "9 by rows", "9 by the count of rules", "premises, the rules alone", "3 premises or more", "marks, nothing",
    "rows, none", "cnf, no row", "why, the literal", "why, its opposite", "why, both derived", "why, held", "why, on trial", "why, as above",
    "why, four deep", "why, a valve", "why, a pair table", "why, a text with a name", "why, a text that ends with a blank", "why, not kept",
    "least of all that is held", "least of those given", "least, no conflict", "least of all, 17", "least of all, 18", "a set of 2 or more",
    "sets, the rules alone", "sets, none", "sets, 2 or more"};

static const char *const fault_words[FAULTS] = {"first word", "number", "symbol", "no such name", "name", "taken", "marks", "on or off", "more"};

/* The refusals that a line can give. */
static const unsigned can_refuse_with[LINES][8] = {
    [L_OPEN] = {2}, [L_NAME] = {1, 2}, [L_RULE] = {1, 2, 5, 7, 8, 9, 15}, [L_VALVE] = {1, 2, 9, 19}, [L_PAIRS] = {1, 2, 8, 9, 19}, [L_FURNACE] = {16},
    [L_HOLD] = {1, 2, 10}, [L_DROP] = {1, 2, 11, 21}, [L_PUSH] = {1, 2, 10}, [L_POP] = {1, 20}, [L_ASK] = {1, 2}, [L_WHY] = {1, 2, 12},
    [L_GROUND] = {1, 2, 12}, [L_MARKS] = {1}, [L_BLAME] = {1, 12}, [L_LEAST] = {1, 2, 11, 17, 18}, [L_SETS] = {1, 2, 17}, [L_ROWS] = {1},
    [L_CNF] = {1}};

/* The faults that a line can have by a word that is there, and by one that is missing: a bit for each. */
enum { B_FIRST = 1, B_NUMBER = 2, B_SYMBOL = 4, B_NO_NAME = 8, B_NAME = 16, B_TAKEN = 32, B_MARKS = 64, B_ON_OFF = 128, B_MORE = 256 };
enum { LITERAL_FAULTS = B_SYMBOL | B_NO_NAME, ONE_LITERAL = LITERAL_FAULTS | B_MORE };
static const unsigned can_fault[LINES][2] = {
    [L_OPEN] = {B_NUMBER | B_MORE, B_NUMBER},
    [L_NAME] = {LITERAL_FAULTS | B_NAME | B_TAKEN | B_MORE, B_SYMBOL | B_NAME},
    [L_VALVE] = {LITERAL_FAULTS | B_NUMBER | B_MORE, B_SYMBOL | B_NUMBER},
    [L_PAIRS] = {LITERAL_FAULTS | B_NUMBER | B_MARKS, B_SYMBOL | B_NUMBER | B_MARKS},
    [L_FURNACE] = {B_NUMBER | B_MORE, B_NUMBER},
    [L_HOLD] = {ONE_LITERAL, B_SYMBOL},
    [L_DROP] = {ONE_LITERAL, B_SYMBOL},
    [L_PUSH] = {ONE_LITERAL, B_SYMBOL},
    [L_POP] = {B_MORE, 0},
    [L_ASK] = {ONE_LITERAL, B_SYMBOL},
    [L_WHY] = {ONE_LITERAL, B_SYMBOL},
    [L_GROUND] = {ONE_LITERAL, B_SYMBOL},
    [L_MARKS] = {B_MORE, 0},
    [L_BLAME] = {B_MORE, 0},
    [L_LEAST] = {LITERAL_FAULTS, 0},
    [L_SETS] = {LITERAL_FAULTS, B_SYMBOL},
    [L_ROWS] = {B_MORE, 0},
    [L_CNF] = {B_MORE, 0},
    [L_ECHO] = {B_ON_OFF | B_MORE, B_ON_OFF},
    [L_HELP] = {B_MORE, 0},
    [L_OTHER] = {B_FIRST, 0}};

static unsigned long answers[LINES][NUMBERS], faults[LINES][FAULTS][2], cases[DESK_CASES];
static unsigned long standings[4][2], marks[2][3][2]; /* by the sign; held, on trial or by a rank, and whether in conflict */
static unsigned highest_rank;

/* Counts an answer, or a refusal. */
void cover_desk_answer(unsigned line, unsigned refusal) {
    answers[line][refusal]++;
}

/* Counts a line that was not taken. */
void cover_desk_fault(unsigned line, unsigned fault, bool missing) {
    faults[line][fault][missing]++;
}

/* Counts a case, where it is one. */
void cover_desk_case(unsigned which, bool came) {
    cases[which] += came;
}

/* Counts an answer to `ask`. */
void cover_desk_standing(int literal, unsigned standing) {
    standings[standing][literal < 0]++;
}

/* Counts a line of `marks`. */
void cover_desk_mark(const Desk *desk, const Findings *found, int literal) {
    bool held = premises_of(&desk->board, desk->furnace)[place_of(literal)];
    unsigned how = !held ? 2 : is_stacked(desk->record, desk->furnace, literal) ? 1 : 0, rank = found->rank[place_of(literal)];
    marks[literal < 0][how][derived(found, place_of(-literal))]++;
    if (rank > highest_rank) highest_rank = rank;
}

/* Prints the counts by the line: answers, refusals, then faults. */
static void print_answers(void) {
    static const unsigned numbers[] = {0, 1, 2, 5, 7, 8, 9, 10, 11, 12, 15, 16, 17, 18, 19, 20, 21};
    printf("%-8s%8s", "line", "done");
    for (unsigned i = 1; i < sizeof numbers / sizeof numbers[0]; i++) printf("%6u", numbers[i]);
    printf("\n");
    for (unsigned l = 0; l < L_HELP; l++) {
        printf("%-8s", line_word(l));
        for (unsigned i = 0; i < sizeof numbers / sizeof numbers[0]; i++) printf(i == 0 ? "%8lu" : "%6lu", answers[l][numbers[i]]);
        printf("\n");
    }
    for (unsigned f = 0; f < FAULTS; f++) {
        printf("not taken, %s:", fault_words[f]);
        for (unsigned l = 0; l < LINES; l++)
            if (faults[l][f][0] + faults[l][f][1] > 0) printf(" %s %lu and %lu missing,", line_word(l), faults[l][f][0], faults[l][f][1]);
        printf("\n");
    }
}

/* Prints the counts. */
void cover_desk_print(void) {
    print_answers();
    for (unsigned c = 0; c < DESK_CASES; c++) printf("%s %lu%s", case_words[c], cases[c], c + 1 < DESK_CASES ? "; " : "\n");
    printf("ask, + and -: open %lu %lu, stands %lu %lu, ruled out %lu %lu, in conflict %lu %lu; highest rank marked %u\n", standings[IS_OPEN][0],
           standings[IS_OPEN][1], standings[STANDS][0], standings[STANDS][1], standings[RULED_OUT][0], standings[RULED_OUT][1],
           standings[IN_CONFLICT][0], standings[IN_CONFLICT][1], highest_rank);
}

/* True if every fault that a line can have came up, of a word that is there and of one that is missing. */
static bool faults_came_up(unsigned line) {
    bool whole = true;
    char what[100];
    for (unsigned f = 0; f < FAULTS; f++) {
        for (unsigned missing = 0; missing < 2; missing++) {
            snprintf(what, sizeof what, "not taken, %s%s", fault_words[f], missing ? " due at its end" : "");
            if (can_fault[line][missing] >> f & 1) whole &= came_up(faults[line][f][missing], what, line_word(line), 0);
        }
    }
    return whole;
}

/* True if every sort of line came up in `marks`, and every answer to `ask`. */
static bool marks_came_up(void) {
    static const char *const hows[3] = {"held", "held on trial", "by a rank"}, *const of[2][2] = {{"+s", "+s in conflict"}, {"-s", "-s in conflict"}};
    bool whole = true;
    for (unsigned s = 0; s < 4; s++) whole &= came_up(standings[s][0], "standing", "ask", s) & came_up(standings[s][1], "standing", "ask -", s);
    for (unsigned i = 0; i < 12; i++) whole &= came_up(marks[i / 6][i / 2 % 3][i % 2], hows[i / 2 % 3], of[i / 6][i % 2], 0);
    return whole;
}

/* True if all that can come up did; says what did not. */
bool cover_desk_is_whole(void) {
    bool whole = marks_came_up();
    for (unsigned l = 0; l < LINES; l++) {
        if (l < L_HELP) whole &= came_up(answers[l][0], "done", line_word(l), 0);
        for (unsigned i = 0; can_refuse_with[l][i] != 0; i++)
            whole &= came_up(answers[l][can_refuse_with[l][i]], "refusal", line_word(l), can_refuse_with[l][i]);
        whole &= faults_came_up(l);
    }
    return cases_came_up(case_words, cases, DESK_CASES, "case") && whole;
}
