/* Counts of how formula texts left the form: what stood at the place of a 15, and whether in brackets. */
#include <stdio.h>
#include <string.h>

#include "cover.h"

/* What stood there, or was missing there. Each has to come up, where it can in brackets and out of them. */
enum {
    NOTHING, NO_UNIT, NO_CLOSE, NUMBER_AFTER_NUMBER, NUMBER_AFTER_CLOSE, OPEN_AFTER_UNIT, MINUS_AFTER_UNIT, CLOSE_TOO_MANY, CLOSE_FOR_UNIT,
    JOINT_FOR_UNIT, OPEN_17TH, ODD_FOR_UNIT, ODD_AFTER_UNIT, OR_AFTER_AND, AND_AFTER_OR, IMPLIES_AGAIN, SAME_AGAIN, SAME_OR_IMPLIES, TWO_AFTER_MANY,
    MANY_AFTER_TWO, FAULTS
};
enum { OUTSIDE, INSIDE, SIDES };

static const char *const fault_words[FAULTS] = {
    "nothing but blanks", "the end for a unit", "the end for a bracket", "a second number", "a number after )", "( after a unit", "- after a unit",
    ") with none open", ") for a unit", "a mark for a unit", "a 17th bracket", "an odd byte for a unit", "an odd byte after one", "| after &",
    "& after |", "> after >", "= after =", "= after > or > after =", "> or = after & or |", "& or | after > or ="};
static const char *const side_words[SIDES] = {"outside", "inside"};

static unsigned long faults[FAULTS][SIDES];

/* True for a mark that joins two units. */
static bool is_joint(int byte) {
    return byte == '&' || byte == '|' || byte == '>' || byte == '=';
}

/* The last byte before a place that is no blank, or 0. */
static int byte_before(const uint8_t *text, size_t place) {
    while (place > 0 && text[place - 1] == ' ') place--;
    return place > 0 ? text[place - 1] : 0;
}

/* Brackets open at a place. */
static int open_at(const uint8_t *text, size_t place) {
    int open = 0;
    for (size_t i = 0; i < place; i++) open += text[i] == '(' ? 1 : text[i] == ')' ? -1 : 0;
    return open;
}

/* The last mark that joins the units of the chain that a place is in. */
static int joint_before(const uint8_t *text, size_t place) {
    int closed = 0;
    for (; place > 0 && closed >= 0; place--) {
        int byte = text[place - 1];
        if (closed == 0 && is_joint(byte)) return byte;
        closed += byte == ')' ? 1 : byte == '(' ? -1 : 0;
    }
    return 0;
}

/* What is wrong with a mark after the last one of its chain. */
static unsigned joint_fault(int before, int mark) {
    bool many_before = before == '&' || before == '|', many = mark == '&' || mark == '|';
    if (many_before && many) return mark == '|' ? OR_AFTER_AND : AND_AFTER_OR;
    if (many_before) return TWO_AFTER_MANY;
    if (many) return MANY_AFTER_TWO;
    return before != mark ? SAME_OR_IMPLIES : mark == '>' ? IMPLIES_AGAIN : SAME_AGAIN;
}

/* What stands at the place where a unit is due. */
static unsigned fault_for_unit(int byte) {
    if (byte == '(') return OPEN_17TH;
    if (byte == ')') return CLOSE_FOR_UNIT;
    return is_joint(byte) ? JOINT_FOR_UNIT : ODD_FOR_UNIT;
}

/* What stands at the place after a unit. */
static unsigned fault_after_unit(const uint8_t *text, size_t place, int before) {
    int byte = text[place];
    if (byte >= '0' && byte <= '9') return before == ')' ? NUMBER_AFTER_CLOSE : NUMBER_AFTER_NUMBER;
    if (byte == '(') return OPEN_AFTER_UNIT;
    if (byte == ')') return CLOSE_TOO_MANY;
    if (byte == '-') return MINUS_AFTER_UNIT;
    return is_joint(byte) ? joint_fault(joint_before(text, place), byte) : ODD_AFTER_UNIT;
}

/* Counts a text that left the form at a place. */
void cover_fault_at(const uint8_t *text, size_t bytes, size_t place) {
    int before = byte_before(text, place);
    bool due = before == 0 || before == '(' || before == '-' || is_joint(before);
    unsigned fault = place == bytes ? (before == 0 ? NOTHING : due ? NO_UNIT : NO_CLOSE)
                                    : due ? fault_for_unit(text[place]) : fault_after_unit(text, place, before);
    faults[fault][open_at(text, place) > 0 ? INSIDE : OUTSIDE]++;
}

/* True if a text can leave the form so, in brackets or out of them. */
static bool can_come_up(unsigned fault, unsigned side) {
    if (fault == NOTHING || fault == CLOSE_TOO_MANY) return side == OUTSIDE;
    return (fault != NO_CLOSE && fault != OPEN_17TH) || side == INSIDE;
}

static const Table table = {"15 in formula text for", fault_words, side_words, FAULTS, SIDES, faults[0], can_come_up};

/* Prints the counts. */
static void print_ahead(void) {
    printf("\n");
    print_table(&table);
}

/* True if all that can come up did; says what did not. */
static bool is_whole(void) {
    return table_came_up(&table);
}

const Part faults_part = {.print_ahead = print_ahead, .is_whole = is_whole};
