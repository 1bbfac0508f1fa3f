/* The cases of scripts for desk that have to come up, told from the lines and from what was answered. */
#include <string.h>

#include "coverdesk.h"

static char had[MOST_SYMBOLS + 1][LONGEST_NAME + 1]; /* the name that each symbol had before the one that it has */

/* Counts what a line looks like that is short enough. */
void cover_desk_read(const Order *order, Word first) {
    bool comment = first.length > 0 && order->bytes[first.place] == '#';
    cover_desk_case(CASE_BLANK_LINE, order->length == 0);
    cover_desk_case(CASE_BLANKS_ONLY, order->length > 0 && first.length == 0);
    cover_desk_case(first.place == 0 ? CASE_COMMENT : CASE_COMMENT_LATER, comment);
    cover_desk_case(CASE_NOTHING_ECHOED, (comment || first.length == 0) && order->desk->echo);
    cover_desk_case(CASE_LEADING_BLANKS, first.length > 0 && first.place > 0 && !comment);
}

/* Counts the lengths of lines, which are without their ends. */
void cover_desk_length(const Desk *desk, size_t length, bool returned) {
    cover_desk_case(CASE_RETURN, returned);
    cover_desk_case(returned ? CASE_LENGTH_500_RETURN : CASE_LENGTH_500, length == LONGEST_LINE);
    cover_desk_case(CASE_LENGTH_501, length == LONGEST_LINE + 1);
    cover_desk_case(CASE_LONG_ECHOED, length > LONGEST_LINE && desk->echo);
}

/* Counts an open, ahead of what it does. */
void cover_desk_open(const Desk *desk, unsigned symbols) {
    bool named = false, refused = symbols < 1 || symbols > MOST_SYMBOLS;
    for (unsigned s = 1; s <= desk->board.symbols; s++) named |= desk->names[s][0] != 0;
    cover_desk_case(CASE_BOARD_LEFT, refused && desk->board.symbols != 0);
    if (refused) return;
    cover_desk_case(CASE_NAMES_FORGOTTEN, named);
    cover_desk_case(CASE_BACK_TO_FURNACE_1, desk->furnace == 2);
    cover_desk_case(CASE_STACK_EMPTIED, stack_count(desk->record, 1) + stack_count(desk->record, 2) > 0);
    memcpy(had, desk->names, sizeof had);
}

/* True if a symbol had this name, before the one that it has. */
bool was_name(const uint8_t *bytes, size_t length) {
    for (unsigned s = 1; s <= MOST_SYMBOLS; s++)
        if (strlen(had[s]) == length && memcmp(had[s], bytes, length) == 0) return true;
    return false;
}

/* True if one of the names is the same but for large and small letters. */
static bool differs_by_case(const Desk *desk, const uint8_t *bytes, size_t length) {
    for (unsigned s = 1; s <= desk->board.symbols; s++) {
        bool alike = strlen(desk->names[s]) == length && memcmp(desk->names[s], bytes, length) != 0;
        for (size_t i = 0; i < length && alike; i++) alike = (desk->names[s][i] | 32) == (bytes[i] | 32);
        if (alike) return true;
    }
    return false;
}

/* Counts a name that is given to a symbol, ahead of what is done; it may have an owner. */
void cover_desk_name(const Desk *desk, unsigned symbol, unsigned owner, const uint8_t *bytes, size_t length) {
    bool named = desk->names[symbol][0] != 0;
    cover_desk_case(CASE_SAME_NAME, owner == symbol);
    if (owner != 0) return;
    cover_desk_case(CASE_RENAMED, named);
    cover_desk_case(CASE_NAME_FREED, was_name(bytes, length));
    cover_desk_case(CASE_NAME_OF_3, length == SHORTEST_NAME);
    cover_desk_case(CASE_NAME_OF_24, length == LONGEST_NAME);
    cover_desk_case(CASE_BY_CASE, differs_by_case(desk, bytes, length));
    for (unsigned l = 0; l < L_OTHER; l++)
        cover_desk_case(CASE_NAME_IS_LINE, strlen(line_word(l)) == length && memcmp(line_word(l), bytes, length) == 0);
    if (named) memcpy(had[symbol], desk->names[symbol], sizeof had[symbol]);
}

/* Counts a rule or a valve that was added. */
void cover_desk_rule(const Order *order, unsigned added) {
    bool kept = order->desk->board.rules <= KEPT_TEXTS;
    cover_desk_case(order->line == L_VALVE ? CASE_VALVE_NOT_KEPT : CASE_RULE_NOT_KEPT, !kept);
    if (order->line == L_VALVE) return;
    cover_desk_case(added == 0 ? CASE_RULE_NO_ROW : added == 1 ? CASE_RULE_1_ROW : CASE_RULE_ROWS, true);
    cover_desk_case(CASE_RULE_128_ROWS, added == 128);
}

/* Counts why there was no room. */
void cover_desk_full(const Desk *desk, unsigned refusal) {
    bool counted = desk->board.rules == MOST_RULES;
    cover_desk_case(counted ? CASE_FULL_BY_COUNT : CASE_FULL_BY_ROWS, refusal == 9);
}

/* Counts a run of letters, digits and `_` in a rule's text, and the symbol that it names or 0. */
void cover_desk_run(const Desk *desk, const uint8_t *bytes, size_t length, unsigned symbol) {
    size_t digits = 0;
    while (digits < length && bytes[digits] >= '0' && bytes[digits] <= '9') digits++;
    cover_desk_case(CASE_NAME_IN_RULE, symbol != 0);
    cover_desk_case(CASE_DIGIT_AND_NAME, digits > 0 && symbol_named(desk, bytes + digits, length - digits) != 0);
    cover_desk_case(CASE_UNKNOWN_IN_RULE, symbol == 0 && is_name(bytes, length));
}

/* The brackets open at a place of a text. */
static unsigned open_at(const uint8_t *read, size_t place) {
    unsigned open = 0;
    for (size_t i = 0; i < place; i++) open = open + (read[i] == '(') - (read[i] == ')');
    return open;
}

/* Counts where a text left the form: by the text as it is read, and beside it as it was typed. */
void cover_desk_text(const Order *order, const uint8_t *read, size_t length, size_t place) {
    if (place == length) {
        size_t blanks = 0;
        while (blanks < length && read[blanks] == ' ') blanks++;
        cover_desk_case(blanks == length ? CASE_TEXT_EMPTY : CASE_TEXT_ENDS, true);
        return;
    }
    uint8_t byte = read[place], typed = order->bytes[order->length - length + place];
    bool full = open_at(read, place) == MOST_OPEN, prints = byte >= ' ' && byte <= '~';
    unsigned which = is_letter(byte) ? CASE_TEXT_LETTER : byte == '(' ? (full ? CASE_TEXT_SEVENTEENTH : CASE_TEXT_BRACKET) : CASE_TEXT_ELSE;
    cover_desk_case(typed != byte ? CASE_TEXT_NAME_MISPLACED : byte == '_' ? CASE_TEXT_UNDERLINE : prints ? which : CASE_TEXT_NO_PRINT, true);
}

/* Counts a number in a rule that is no symbol of the board, at a place of the line. */
void cover_desk_no_symbol(const Order *order, size_t place) {
    unsigned number = 0, symbols = order->desk->board.symbols;
    size_t end = place;
    while (end < order->length && order->bytes[end] >= '0' && order->bytes[end] <= '9') end++;
    number_by(order->bytes + place, end - place, &number);
    cover_desk_case(number == 0 ? CASE_NUMBER_0 : number > 255 ? CASE_NUMBER_256 : CASE_NUMBER_BEYOND, number == 0 || number > symbols);
    cover_desk_case(CASE_NUMBER_ZEROS, number != 0 && order->bytes[place] == '0');
}

/* Counts what was wrong with the two valves of a pair table. */
void cover_desk_pairs(const Variable both[2], unsigned refusal) {
    bool counts = variable_has_positions(&both[0]) && variable_has_positions(&both[1]);
    cover_desk_case(counts ? CASE_VALVES_SHARE : CASE_COUNT_WRONG, refusal == 19);
}

/* Counts a rule's text that was told in a tree. */
void cover_desk_told(const Desk *desk, const char *text) {
    bool named = false;
    cover_desk_case(CASE_WHY_VALVE, strncmp(text, "valve ", 6) == 0);
    cover_desk_case(CASE_WHY_PAIRS, strncmp(text, "pairs ", 6) == 0);
    cover_desk_case(CASE_WHY_LAST_BLANK, text[strlen(text) - 1] == ' ');
    for (unsigned s = 1; s <= desk->board.symbols && !named; s++) named = desk->names[s][0] != 0 && strstr(text, desk->names[s]) != NULL;
    cover_desk_case(CASE_WHY_NAMED, named);
}

/* Counts an answer to `least`, of literals that were given or of all that is held. */
void cover_desk_least(bool given, unsigned refusal, unsigned set) {
    cover_desk_case(given ? CASE_LEAST_GIVEN : CASE_LEAST_ALL, refusal == 0 && set != 0);
    cover_desk_case(CASE_LEAST_NOTHING, refusal == 0 && set == 0);
    cover_desk_case(CASE_LEAST_ALL_17, !given && refusal == 17);
    cover_desk_case(CASE_LEAST_ALL_18, !given && refusal == 18);
}
