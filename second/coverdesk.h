/* What came up in the scripts for desk, and what has to. */
#ifndef COVERDESK_H
#define COVERDESK_H

#include "desk.h"

/* Cases beyond the table of answers, refusals and faults, each of which has to come up. */
enum {
    CASE_BLANK_LINE, CASE_BLANKS_ONLY, CASE_COMMENT, CASE_COMMENT_LATER, CASE_NOTHING_ECHOED, CASE_LEADING_BLANKS, CASE_RETURN, CASE_LENGTH_500,
    CASE_LENGTH_500_RETURN, CASE_LENGTH_501, CASE_LONG_ECHOED, CASE_NO_LINE_FEED, CASE_NUMBER_CAPPED, CASE_LEADING_ZEROS, CASE_LOW_BYTE_SHOWN,
    CASE_HIGH_BYTE_SHOWN, CASE_PLACE_ECHOED, CASE_PLACE_0, CASE_PLACE_100, CASE_ECHO_ON, CASE_ECHO_OFF, CASE_ECHO_AGAIN, CASE_BOARD_LEFT,
    CASE_NAMES_FORGOTTEN, CASE_BACK_TO_FURNACE_1, CASE_STACK_EMPTIED, CASE_RENAMED, CASE_SAME_NAME, CASE_NAME_GONE, CASE_NAME_FREED, CASE_NAME_OF_3,
    CASE_NAME_OF_24, CASE_NAME_IS_LINE, CASE_BY_CASE, CASE_FURNACE_NO_BOARD, CASE_FURNACE_2_CHANGED, CASE_RULE_1_ROW, CASE_RULE_ROWS,
    CASE_RULE_NO_ROW, CASE_RULE_128_ROWS, CASE_RULE_NOT_KEPT, CASE_VALVE_NOT_KEPT, CASE_PAIRS_NOT_KEPT, CASE_PAIRS_SOME_KEPT, CASE_NAME_IN_RULE,
    CASE_DIGIT_AND_NAME, CASE_UNKNOWN_IN_RULE, CASE_TEXT_ENDS, CASE_TEXT_EMPTY, CASE_TEXT_LETTER, CASE_TEXT_SEVENTEENTH, CASE_TEXT_BRACKET,
    CASE_TEXT_NAME_MISPLACED, CASE_TEXT_UNDERLINE, CASE_TEXT_NO_PRINT, CASE_TEXT_ELSE, CASE_NUMBER_0, CASE_NUMBER_BEYOND, CASE_NUMBER_256,
    CASE_NUMBER_ZEROS, CASE_COUNT_WRONG, CASE_VALVES_SHARE, CASE_FULL_BY_ROWS, CASE_FULL_BY_COUNT, CASE_RULES_ALONE, CASE_PREMISES_3, CASE_NO_MARK,
    CASE_NO_ROW, CASE_CNF_NO_ROW, CASE_WHY_ITSELF, CASE_WHY_OPPOSITE, CASE_WHY_BOTH, CASE_WHY_HELD, CASE_WHY_TRIAL, CASE_WHY_AS_ABOVE,
    CASE_WHY_DEPTH_4, CASE_WHY_VALVE, CASE_WHY_PAIRS, CASE_WHY_NAMED, CASE_WHY_LAST_BLANK, CASE_WHY_NOT_KEPT, CASE_LEAST_ALL, CASE_LEAST_GIVEN,
    CASE_LEAST_NOTHING, CASE_LEAST_ALL_17, CASE_LEAST_ALL_18, CASE_SET_OF_2, CASE_SETS_RULES_ALONE, CASE_NO_SET, CASE_TWO_SETS, DESK_CASES
};

/* coverdesk.c: the counts. */
void cover_desk_answer(unsigned line, unsigned refusal);
void cover_desk_fault(unsigned line, unsigned fault, bool missing);
void cover_desk_case(unsigned which, bool came);
void cover_desk_standing(int literal, unsigned standing);
void cover_desk_mark(const Desk *desk, const Findings *found, int literal);
void cover_desk_print(void);
bool cover_desk_is_whole(void);

/* coverdesklines.c: the cases, told from the lines and what was answered. */
void cover_desk_read(const Order *order, Word first);
void cover_desk_length(const Desk *desk, size_t length, bool returned);
void cover_desk_open(const Desk *desk, unsigned symbols);
void cover_desk_name(const Desk *desk, unsigned symbol, unsigned owner, const uint8_t *bytes, size_t length);
bool was_name(const uint8_t *bytes, size_t length);
void cover_desk_rule(const Order *order, unsigned added);
void cover_desk_full(const Desk *desk, unsigned refusal);
void cover_desk_run(const Desk *desk, const uint8_t *bytes, size_t length, unsigned symbol);
void cover_desk_text(const Order *order, const uint8_t *read, size_t length, size_t place);
void cover_desk_no_symbol(const Order *order, size_t place);
void cover_desk_pairs(const Variable both[2], unsigned refusal);
void cover_desk_told(const Desk *desk, const char *text);
void cover_desk_least(bool given, unsigned refusal, unsigned set);

#endif
