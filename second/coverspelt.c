/* Counts of the formula texts read and written, and the list of what has to come up among them. */
#include <stdio.h>
#include <string.h>

#include "cover.h"

enum { SYMBOL = 0x10, NOT = 0x11, LONG = 500, MANY_DIGITS = 20, MOST_COPY = 65536 };

/* Cases beyond the refusals, each of which has to come up. */
enum {
    BLANK_FRONT, BLANK_END, BLANK_INSIDE, LEADING_ZEROS, MARK_NOT, MARK_AND, MARK_OR, MARK_IMPLIES, MARK_SAME, CHAIN_AND, CHAIN_OR, CHAIN_16,
    CHAIN_INSIDE, ROUND_NUMBER, ROUND_WHOLE, OPEN_16, DEPTH_16, NUMBER_200, DIGITS_DONE, LONG_DONE, TORN_DONE, RULE_NO_ROWS, RULE_FILLS, RULE_OF_8,
    RULE_7_ON_FULL, RULE_8_ON_FULL, RULE_MORE_LENT, BY_0, BY_BYTE, BY_256, BY_LOW_BYTE, BY_DIGITS, OTHER_IN_TEXT, BEYOND_NOT_DEEP, DEEP_NOT_BEYOND,
    DEEP_AFTER_NOT, DEEP_AFTER_FORM, DEEP_LATER, DEEP_CHAIN, FORM_NOT_BEYOND, FORM_NOT_LATER, FORM_NOT_DEEP, FORM_FROM_256, CUT_STANDING,
    BOARD_NOT_FORM, BOARD_NOT_BREAK, ROOM_JUST, ROOM_MORE, ROOM_ONE_SHORT, ROOM_NONE, BEYOND_NOT_ROOM, DEEP_NOT_ROOM, FORM_NOT_ROOM, BOARD_NOT_ROOM,
    WROTE_SYMBOL, WROTE_NOT_FORM, WROTE_AND, WROTE_OR, WROTE_IMPLIES, WROTE_SAME, WROTE_OPEN_14, WROTE_3_DIGITS, WROTE_LONG, WROTE_LONGEST,
    WROTE_JUST, WROTE_MORE, WRITER_ONE_SHORT, WRITER_NONE, WRITER_BREAK_NOT_ROOM, WRITER_BOARD_NOT_ROOM, CASES
};

static const char *const case_words[CASES] = {
    "spelt: blanks at the front", "spelt: blanks at the end", "spelt: blanks inside", "spelt: leading zeros", "spelt: -", "spelt: &", "spelt: |",
    "spelt: >", "spelt: =", "spelt: three units or more with &", "spelt: three units or more with |", "spelt: 16 units in a chain",
    "spelt: three units or more in brackets", "spelt: brackets round a number", "spelt: brackets round the whole", "spelt: 16 brackets open",
    "spelt: depth 16", "spelt: the number 200", "spelt: a number of 20 digits", "spelt: 500 bytes or more", "spelt: damaged and good still",
    "rule from text always true", "rule from text fills the rows lent", "rule from text of 8 symbols", "text: 7 with no row free",
    "text: 8 with no row free", "text: 9 at 2,048 rows with more lent", "text: 2 for the number 0", "text: 2 for a number up to 255",
    "text: 2 for 256", "text: 2 for a symbol modulo 256", "text: 2 for a number of 20 digits", "text: 2 at another place than in the text",
    "text: 2 where 5 is due later", "text: 5 where 2 is due later", "text: 5 after not", "text: 5 after a form of two operands",
    "text: 5 after a symbol", "text: 5 for 17 units in a chain", "15 where 2 is due before it", "15 where 2 is due after it", "15 after 16 times -",
    "15 at 256 or later", "formula text cut, the rest standing there", "text: 1 where 15 is due as well", "text: 1 where 2 or 5 is due as well",
    "to bytes, no byte to spare", "to bytes, bytes to spare", "to bytes, 13 with one byte missing", "to bytes, 13 with no byte lent",
    "to bytes, 2 where 13 is due as well", "to bytes, 5 where 13 is due as well", "to bytes, 15 where 13 is due as well",
    "to bytes, 1 where 13 is due as well", "to text: a symbol alone", "to text: not of two operands", "to text: and", "to text: or",
    "to text: implies", "to text: same", "to text: 14 brackets open", "to text: a number of 3 digits", "to text: 500 bytes or more",
    "to text: the longest text", "to text, no byte to spare", "to text, bytes to spare", "to text, 13 with one byte missing",
    "to text, 13 with no byte lent", "to text, 2 to 6 where 13 is due", "to text, 1 where 13 is due as well"};

static unsigned long cases[CASES], spelt[2], trips, both_ways, by_definition;

/* What a text has: the most brackets open, the most units in a chain, and in one that is in brackets, the longest number. */
typedef struct Look {
    int open;
    unsigned units, inside;
    size_t digits;
    bool leading_zero, round_number;
} Look;

/* Digits, and no other byte. */
static bool is_digit(uint8_t byte) {
    return byte >= '0' && byte <= '9';
}

/* The end of the number at a place. */
static size_t number_end(const uint8_t *text, size_t bytes, size_t at) {
    while (at < bytes && is_digit(text[at])) at++;
    return at;
}

/* The number at a place, or 999 where it is above that. */
static unsigned number_at(const uint8_t *text, size_t at, size_t end) {
    unsigned value = 0;
    for (; at < end; at++) value = 10 * value + text[at] - '0' > 999 ? 999 : 10 * value + (text[at] - (unsigned)'0');
    return value;
}

/* A number modulo 256. */
static unsigned low_byte(const uint8_t *text, size_t at, size_t end) {
    unsigned value = 0;
    for (; at < end; at++) value = (10 * value + (text[at] - (unsigned)'0')) % 256;
    return value;
}

/* True if a byte other than a blank comes so next, before or after a place. */
static bool is_at(const uint8_t *text, size_t bytes, size_t at, int step, uint8_t byte) {
    while (at < bytes && text[at] == ' ') at = at + (size_t)step;
    return at < bytes && text[at] == byte;
}

/* Looks at the bytes of a text that may leave the form. */
static Look look_at(const uint8_t *text, size_t bytes) {
    unsigned joints[MOST_OPEN + 1] = {0};
    Look look = {0};
    int open = 0;
    for (size_t i = 0; i < bytes; i++) {
        if (is_digit(text[i])) {
            size_t end = number_end(text, bytes, i);
            if (end - i > look.digits) look.digits = end - i;
            look.leading_zero |= text[i] == '0' && end - i > 1;
            look.round_number |= i > 0 && is_at(text, bytes, i - 1, -1, '(') && is_at(text, bytes, end, 1, ')');
            i = end - 1;
        } else if (text[i] == '(' && open < MOST_OPEN) {
            joints[++open] = 0;
        } else if (text[i] == ')' && open > 0) {
            open--;
        } else if (text[i] == '&' || text[i] == '|') {
            unsigned units = ++joints[open] + 1;
            if (units > look.units) look.units = units;
            if (open > 0 && units > look.inside) look.inside = units;
        }
        if (open > look.open) look.open = open;
    }
    return look;
}

/* True if one pair of brackets is round the whole of a text of the form. */
static bool round_whole(const uint8_t *text, size_t bytes) {
    size_t at = 0;
    int open = 0;
    while (text[at] == ' ') at++;
    if (text[at] != '(') return false;
    for (; at < bytes; at++) {
        open += text[at] == '(' ? 1 : text[at] == ')' ? -1 : 0;
        if (open == 0) break;
    }
    for (at++; at < bytes; at++)
        if (text[at] != ' ') return false;
    return true;
}

/* The depth of a formula that was accepted. */
static unsigned depth_of(const uint8_t *bytes, size_t *at) {
    uint8_t kind = bytes[(*at)++];
    if (kind == SYMBOL) return (*at)++, 1;
    unsigned first = depth_of(bytes, at), second = kind == NOT ? 0 : depth_of(bytes, at);
    return 1 + (first > second ? first : second);
}

/* True if there is a number of a formula's from a place on that is no symbol. */
static bool beyond_from(const uint8_t *bytes, size_t count, size_t from, unsigned symbols) {
    for (size_t at = 0; at < count; at += bytes[at] == SYMBOL ? 2 : 1)
        if (bytes[at] == SYMBOL && at >= from && (bytes[at + 1] == 0 || bytes[at + 1] > symbols)) return true;
    return false;
}

/* True if a number of the text between two places is no symbol. */
static bool text_beyond(const uint8_t *text, size_t from, size_t to, unsigned symbols) {
    for (size_t at = from; at < to; at++) {
        if (!is_digit(text[at])) continue;
        size_t end = number_end(text, to, at);
        unsigned number = number_at(text, at, end);
        if (number == 0 || number > symbols) return true;
        at = end;
    }
    return false;
}

/* ---- Texts read ---- */

/* Counts how a text of the form is spelt, and what it spells. */
static void cover_spelling(const Step *step, const Spelt *of) {
    const uint8_t *text = step->text;
    size_t last = step->bytes - 1, at = 0, front = 0;
    Look look = look_at(text, step->bytes);
    while (text[last] == ' ') last--;
    while (text[front] == ' ') front++;
    cases[BLANK_FRONT] += front > 0;
    cases[BLANK_END] += last + 1 < step->bytes;
    cases[BLANK_INSIDE] += memchr(text + front, ' ', last - front) != NULL;
    for (unsigned m = 0; m < 5; m++) cases[MARK_NOT + m] += memchr(text, "-&|>="[m], step->bytes) != NULL;
    cases[LEADING_ZEROS] += look.leading_zero;
    cases[CHAIN_AND] += look.units > 2 && memchr(text, '|', step->bytes) == NULL;
    cases[CHAIN_OR] += look.units > 2 && memchr(text, '&', step->bytes) == NULL;
    cases[CHAIN_16] += look.units == DEEPEST;
    cases[CHAIN_INSIDE] += look.inside > 2;
    cases[ROUND_NUMBER] += look.round_number;
    cases[ROUND_WHOLE] += round_whole(text, step->bytes);
    cases[OPEN_16] += look.open == MOST_OPEN;
    cases[DEPTH_16] += depth_of(of->bytes, &at) == DEEPEST;
    cases[NUMBER_200] += memchr(of->bytes, MOST_SYMBOLS, of->count) != NULL;
    cases[DIGITS_DONE] += look.digits >= MANY_DIGITS;
    cases[LONG_DONE] += step->bytes >= LONG;
    cases[TORN_DONE] += step->torn;
}

/* Counts the number that a refusal 2 is for: that of the text which is as many numbers on as there are symbols ahead of the place. */
static void cover_number(const Play *play, const Step *step, const Spelt *of) {
    size_t ahead = 0, place = play->last.place, at = 0;
    for (size_t i = 0; i + 1 < place; i += of->bytes[i] == SYMBOL ? 2 : 1) ahead += of->bytes[i] == SYMBOL;
    for (size_t number = 0;; at = number_end(step->text, step->bytes, at), number++) {
        while (!is_digit(step->text[at])) at++;
        if (number == ahead) break;
    }
    size_t end = number_end(step->text, step->bytes, at);
    unsigned number = number_at(step->text, at, end), low = low_byte(step->text, at, end);
    cases[BY_0] += number == 0;
    cases[BY_BYTE] += number > play->board.symbols && number < 256;
    cases[BY_256] += number == 256;
    cases[BY_LOW_BYTE] += number > 256 && low >= 1 && low <= play->board.symbols;
    cases[BY_DIGITS] += end - at >= MANY_DIGITS;
    cases[OTHER_IN_TEXT] += at != place;
}

/* Counts a refusal 2 or 5 of a text: what it is for, and what is due besides. */
static void cover_broken(const Play *play, const Step *step, const Spelt *of) {
    static uint8_t copy[MOST_COPY];
    size_t place = play->last.place;
    if (of->count > MOST_COPY) return;
    memcpy(copy, of->bytes, of->count);
    for (size_t i = 0; i < of->count; i += copy[i] == SYMBOL ? 2 : 1)
        if (copy[i] == SYMBOL) copy[i + 1] = 1;
    if (play->last.refusal == 2) {
        cover_number(play, step, of);
        cases[BEYOND_NOT_DEEP] += formula_breaks(copy, of->count, play->board.symbols).refusal == 5;
        return;
    }
    cases[DEEP_NOT_BEYOND] += beyond_from(of->bytes, of->count, place, play->board.symbols);
    cases[DEEP_AFTER_NOT] += of->bytes[place - 1] == NOT;
    cases[DEEP_AFTER_FORM] += of->bytes[place - 1] > NOT;
    cases[DEEP_LATER] += place > DEEPEST;
    cases[DEEP_CHAIN] += look_at(step->text, step->bytes).units > DEEPEST;
}

/* Counts a text that leaves the form. */
static void cover_form(const Play *play, const Step *step) {
    size_t place = play->last.place;
    unsigned minuses = 0, most = 0;
    cover_fault_at(step->text, step->bytes, place);
    for (size_t i = 0; i < place; i++) {
        minuses = step->text[i] == '-' ? minuses + 1 : step->text[i] == ' ' ? minuses : 0;
        if (minuses > most) most = minuses;
    }
    cases[FORM_NOT_BEYOND] += text_beyond(step->text, 0, place, play->board.symbols);
    cases[FORM_NOT_LATER] += text_beyond(step->text, place, step->bytes, play->board.symbols);
    cases[FORM_NOT_DEEP] += most >= DEEPEST;
    cases[FORM_FROM_256] += place >= 256;
    cases[CUT_STANDING] += place == step->bytes && step->bytes < step->standing;
}

/* Counts a rule from text. */
static void cover_text_rule(const Play *play, const Step *step, const Spelt *of) {
    uint8_t symbols[MOST_SYMBOLS];
    unsigned refusal = play->last.refusal, rows = play->board.rows;
    bool full = rows == rows_lent(step->numbers);
    cases[RULE_NO_ROWS] += refusal == 0 && play->last.added == 0;
    cases[RULE_FILLS] += refusal == 0 && play->last.added > 0 && full;
    cases[RULE_OF_8] += refusal == 0 && different_symbols(of->bytes, of->count, symbols) == RULE_SYMBOLS;
    cases[RULE_7_ON_FULL] += refusal == 7 && full;
    cases[RULE_8_ON_FULL] += refusal == 8 && full;
    cases[RULE_MORE_LENT] += refusal == 9 && rows == MOST_ROWS && step->numbers >= WIDTH * (MOST_ROWS + 1);
}

/* Counts the room that bytes were to be written to. */
static void cover_room(const Play *play, const Step *step, const Spelt *of) {
    unsigned refusal = play->last.refusal;
    size_t room = step->lent[0];
    cases[ROOM_JUST] += refusal == 0 && room == of->count;
    cases[ROOM_MORE] += refusal == 0 && room > of->count;
    cases[ROOM_ONE_SHORT] += refusal == 13 && room + 1 == of->count;
    cases[ROOM_NONE] += refusal == 13 && room == 0;
    cases[BEYOND_NOT_ROOM] += refusal == 2 && room < of->count;
    cases[DEEP_NOT_ROOM] += refusal == 5 && room < of->count;
    cases[FORM_NOT_ROOM] += refusal == 15 && room == 0;
    cases[BOARD_NOT_ROOM] += refusal == 1 && room < of->count;
}

/* Counts a text that was read to bytes or added as a rule. */
static void cover_text_given(const Play *play, const Step *step) {
    unsigned refusal = play->last.refusal;
    Spelt of = spelt_by(step->text, step->bytes);
    spelt[step->torn]++;
    if (refusal == 0) cover_spelling(step, &of);
    if (refusal == 2 || refusal == 5) cover_broken(play, step, &of);
    if (refusal == 15) cover_form(play, step);
    cases[BOARD_NOT_FORM] += refusal == 1 && of.place != NO_PLACE;
    cases[BOARD_NOT_BREAK] += refusal == 1 && of.place == NO_PLACE && formula_breaks(of.bytes, of.count, MOST_SYMBOLS).refusal != 0;
    if (step->kind == TEXT_RULE) cover_text_rule(play, step, &of);
    else cover_room(play, step, &of);
}

/* ---- Texts written ---- */

/* Counts a text that was written. */
static void cover_wrote(const Play *play, const Step *step) {
    const uint8_t *text = play->ours.text + GUARD;
    size_t written = play->last.written;
    Look look = look_at(text, written);
    cases[WROTE_SYMBOL] += step->formula[0] == SYMBOL;
    for (size_t i = 0; i + 1 < written && step->bytes < LONG; i++) cases[WROTE_NOT_FORM] += text[i] == '-' && text[i + 1] == '(';
    for (unsigned m = 0; m < 4; m++) cases[WROTE_AND + m] += memchr(text, "&|>="[m], written) != NULL;
    cases[WROTE_OPEN_14] += look.open == MOST_OPEN - 2;
    cases[WROTE_3_DIGITS] += look.digits == 3;
    cases[WROTE_LONG] += written >= LONG;
    cases[WROTE_LONGEST] += written == MOST_SPELLING;
    cases[WROTE_JUST] += step->lent[0] == written;
    cases[WROTE_MORE] += step->lent[0] > written;
}

/* Counts a formula that was to be written as text. */
static void cover_to_text(const Play *play, const Step *step) {
    static char text[MOST_SPELLING + 1];
    unsigned refusal = play->last.refusal;
    size_t room = step->lent[0];
    if (refusal == 0) cover_wrote(play, step);
    cases[WRITER_ONE_SHORT] += refusal == 13 && room + 1 == text_of_formula(step->formula, text);
    cases[WRITER_NONE] += refusal == 13 && room == 0;
    cases[WRITER_BREAK_NOT_ROOM] += refusal >= 2 && refusal <= 6 && room == 0;
    cases[WRITER_BOARD_NOT_ROOM] += refusal == 1 && room == 0;
}

/* Counts a step that reads or writes formula text. */
void cover_spelt(const Play *play, const Step *step) {
    if (step->kind == TO_TEXT) cover_to_text(play, step);
    else cover_text_given(play, step);
}

/* Counts a formula that was spelt, read, written and read back. */
void cover_spelt_trip(void) {
    trips++;
}

/* Counts a formula whose text and bytes added the same. */
void cover_both_ways(void) {
    both_ways++;
}

/* Counts a text that was held against the definition of 15. */
void cover_definition(void) {
    by_definition++;
}

/* Prints the closing line of formula texts. */
static void print_close(void) {
    printf("formula texts: %lu given, of them %lu damaged; %lu formulae spelt, read, written and read back; %lu added as text and as bytes; "
           "%lu places by definition\n", spelt[false] + spelt[true], spelt[true], trips, both_ways, by_definition);
}

/* True if all that can come up with formula text did, but for the cases; says what did not. */
static bool is_whole(void) {
    bool whole = came_up(trips, "read back", "formula texts", 0);
    whole &= came_up(both_ways, "added both ways", "formula texts", 0);
    whole &= came_up(by_definition, "by definition", "formula texts", 0);
    whole &= came_up(spelt[true], "damaged", "formula texts", 0);
    return whole;
}

const Part spelt_part = {.cases = {NULL, case_words, cases, CASES, 42}, .print_close = print_close, .is_whole = is_whole};
