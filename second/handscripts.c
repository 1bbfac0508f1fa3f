/* Scripts for desk made by hand: what random lines hardly come to. */
#include "scripts.h"

/* A board whose rules alone are in conflict, and literals that stand on the rules alone. */
static const char *const rules_alone[] = {
    "open 4", "name 1 gas", "name 2 flue", "rule gas", "rule gas > flue", "why flue", "ground flue", "sets flue 3 4", "sets flue", "sets 3 4",
    "blame", "least", "rule -flue", "blame", "least", "hold 3", "least", "least 3", "sets flue 3", "marks", "why -flue", "why flue", NULL};

/* A tree that comes by the same literals twice, premises held and on trial, on both furnaces. */
static const char *const as_above[] = {
    "open 9", "name 1 gas", "name 2 fan", "name 9 alarm", "rule (gas & fan) > 3", "rule 3 > 4", "rule 3 > 5", "rule   (4 & 5 & 3) > -alarm  ",
    "hold gas", "push fan", "why alarm", "why -alarm", "ground -alarm", "marks", "name 2 gas", "name 2 blower", "why alarm", "furnace 2", "marks",
    "why alarm", "pop", "push 3", "why -alarm", "drop 3", "pop", "furnace 1", "drop fan", "drop blower", "pop", "hold blower", "hold alarm", "least",
    "least gas alarm", "least alarm gas", "blame", NULL};

/* Names that only their letters' sizes tell apart, that were other symbols', and that are as short and as long as may be. */
static const char *const names[] = {
    "open 5", "name 1 fan", "name 2 Fan", "name 3 FAN", "name 4 abcdefghijklmnopqrstuvwx", "name 5 abcdefghijklmnopqrstuvwxy", "name 5 ab",
    "name fan pump", "name 2 fan", "name Fan lid", "name 5 rule", "rule rule > -abcdefghijklmnopqrstuvwx & 1",
    "rule rule > -(abcdefghijklmnopqrstuvwx & 1)", "rule 1 pump", "rule 1pump", "rule pump1", "rule pump_", "rule _pump", "rule pump(1)",
    "rule pump > pumpe", "hold rule", "why 1", "ask abcdefghijklmnopqrstuvwx", "name rule rule", "name 6 pump", "name 0 lid", "name fan lid",
    "marks", "rows", "cnf", NULL};

/* Thirteen readings: too many to choose from, all at once and given. */
static const char *const many_held[] = {
    "open 13", "hold 1", "hold 2", "hold 3", "hold 4", "hold 5", "hold 6", "hold 7", "hold 8", "hold 9", "hold 10", "hold 11", "hold 12", "least",
    "hold 13", "least", "rule -(1 & 2 & 3 & 4)", "least", "least 1 2 3 4 5 6 7 8 9 10 11 12 13", "least 12 11 10 9 4 3", "least 2 2", "least 5 6",
    "sets 4 -1 1 2 3", "sets -4 1 2 3 -4 5", "sets -4 1 2 3 4 5 6 7 8 9 10 11 12 13", "blame", "marks", NULL};

/* Texts at their limits: brackets, depths, symbols, numbers. */
static const char *const texts[] = {
    "open 9", "rule ((((((((((((((((1))))))))))))))))", "rule (((((((((((((((((1)))))))))))))))))", "rule ---------------1",
    "rule ----------------1", "rule 1&2&3&4&5&6&7&8", "rule 1|2|3|4|5|6|7|8|9", "rule 1 & -1", "rule 1 | -1", "rule 10 > 1", "rule 1 > 0",
    "rule 1 > 00256", "rule ----------------10", "rule 10 > ----------------1", "rule 1 > 2 > 3", "rule 1 & 2 | 3", "rule (1 & 2", "rule 1 & 2)",
    "rule", "rule  ", "rule -", "rule ()", "rule 1 (2)", "rule 1 # 2", "rule 1\t", "rule\t1", "rule 1\r2", "rule 1 & ", "rule 1\r\r",
    "marks\r\r", NULL};

/* Words that are missing, of another form, or too many, in the lines that have the most of them; and marks. */
static const char *const words[] = {
    "open 12", "name 1 gas", "valve", "valve gas", "valve -1 2", "valve flue 2", "valve gas x", "valve gas 2 2", "valve gas 2", "valve 3 3", "pairs",
    "pairs 1", "pairs gas 2", "pairs gas 2 3", "pairs gas 2 3 3", "pairs flue 2 3 3 111 111", "pairs gas x 3 3 111 111", "pairs gas 2 -3 3 111 111",
    "pairs gas 2 3 3 111", "pairs gas 2 3 3 111 11", "pairs gas 2 3 3 111 112", "pairs gas 2 3 3 111 111 111", "pairs gas 2 3 3 000 000",
    "pairs gas 8 3 3 what is this", "pairs gas 1 3 3", "pairs gas 2 2 3 111 111", "pairs gas 2 3 3 what is this", "pairs gas 2 12 2 11 11",
    "pairs gas 2 99999 3 110 011", "pairs gas 2 3 3 110 011", "hold 3", "why 2", "why -gas", "sets", "sets x", "sets flue", "least flue", "echo",
    "echo ON", "echo on on", "furnace", "furnace 1 2", "furnace one", "open", "open x", "open 3 3", "name", "name gas", "name gas 3",
    "name flue gas", "name 0 x", "name gas gas 3", "open 201", "why 2", NULL};

static const char *const *const by_hand[] = {rules_alone, as_above, names, many_held, texts, words};
enum { BY_HAND = sizeof by_hand / sizeof by_hand[0], FULL_TABLE = BY_HAND, MANY_RULES, HAND_SCRIPTS };

/* Gives a line as it stands. */
static void give(Scribe *scribe, const char *line) {
    scribe->length = 0;
    put_text(scribe, line);
    give_line(scribe, false);
}

/* Gives the same line so many times. */
static void give_times(Scribe *scribe, const char *line, unsigned times) {
    while (times-- > 0) give(scribe, line);
}

/* Fills the 2,048 rows: 16 rules of 128, so that no other row fits, of any kind of line; then rules that need none. */
static void fill_table(Scribe *scribe) {
    give(scribe, "open 16");
    give_times(scribe, "rule 1=(2=(3=(4=(5=(6=(7=8))))))", 15);
    give(scribe, "rule 9=(10=(11=(12=(13=(14=15)))))");
    give(scribe, "valve 9 5");
    give(scribe, "valve 9 7");
    give(scribe, "pairs 9 2 11 2 01 10");
    give(scribe, "pairs 9 7 1 7 1111111 1111111 1111111 1111111 1111111 1111111 1111111");
    give(scribe, "rule (9>10)&(10>11)&(11>12)&(12>13)");
    give_times(scribe, "rule 9 > 16", 40);
    give(scribe, "rule 9 | -9");
    give(scribe, "rule 9 & -9");
    give(scribe, "valve 9 2");
    give(scribe, "pairs 9 2 11 2 11 11");
    give(scribe, "hold 9");
    give(scribe, "why 16");
    give(scribe, "cnf");
}

/* Counts to the last rule there may be: to 2,044, texts kept and not kept, then to 32,767. */
static void count_rules(Scribe *scribe) {
    static const char *const after[] = {
        "rule 1 > 2", "valve 9 2", "pairs 3 2 5 2 10 01", "rule 2 > 7", "valve 11 3", "pairs 5 2 8 2 11 01", "pairs 3 2 13 2 01 10", "hold 1",
        "why 7", "hold 3", "why 5", "why -6", "why 8", "why -14", "hold 11", "why 12", "rows", "drop 11", NULL};
    give(scribe, "open 20");
    give_times(scribe, "rule 1|-1", 2044);
    for (unsigned i = 0; after[i] != NULL; i++) give(scribe, after[i]);
    give_times(scribe, "rule 1|-1", MOST_RULES - scribe->desk->board.rules - 1);
    give(scribe, "pairs 3 2 5 2 10 01");
    give(scribe, "rule 16 > 17");
    give(scribe, "rule 1|-1");
    give(scribe, "rule 1 & -1");
    give(scribe, "valve 9 2");
    give(scribe, "hold 16");
    give(scribe, "why 17");
}

/* How many there are. */
unsigned hand_scripts(void) {
    return HAND_SCRIPTS;
}

/* Writes one of them. */
void write_hand_script(Scribe *scribe, unsigned number) {
    if (number == FULL_TABLE) fill_table(scribe);
    else if (number == MANY_RULES) count_rules(scribe);
    else for (const char *const *line = by_hand[number]; *line != NULL; line++) give(scribe, *line);
}
