/* The words of a line for desk: what a name, a number, a symbol and a literal is, and what is wrong where one is due. */
#include <string.h>

#include "coverdesk.h"
#include "desk.h"

/* A letter, large or small. */
bool is_letter(uint8_t byte) {
    return (byte >= 'a' && byte <= 'z') || (byte >= 'A' && byte <= 'Z');
}

/* Digits, and no other byte. */
static bool is_digit(uint8_t byte) {
    return byte >= '0' && byte <= '9';
}

/* "letters, digits and `_`". */
bool is_name_byte(uint8_t byte) {
    return is_letter(byte) || is_digit(byte) || byte == '_';
}

/* "A name has 3 to 24 letters, digits and `_`, a letter first." */
bool is_name(const uint8_t *bytes, size_t length) {
    if (length < SHORTEST_NAME || length > LONGEST_NAME || !is_letter(bytes[0])) return false;
    for (size_t i = 0; i < length; i++)
        if (!is_name_byte(bytes[i])) return false;
    return true;
}

/* The symbol that has the name, or 0. "Large and small letters differ." */
unsigned symbol_named(const Desk *desk, const uint8_t *bytes, size_t length) {
    for (unsigned s = 1; s <= desk->board.symbols; s++)
        if (length > 0 && strlen(desk->names[s]) == length && memcmp(desk->names[s], bytes, length) == 0) return s;
    return 0;
}

/* "A number is a word of digits, leading zeros taken; whatever is above 32,767 counts as 32,767". False for other bytes, and for none. */
bool number_by(const uint8_t *bytes, size_t length, unsigned *number) {
    unsigned value = 0;
    for (size_t i = 0; i < length; i++) {
        if (!is_digit(bytes[i])) return false;
        value = 10 * value + (bytes[i] - (unsigned)'0');
        if (value > LARGEST_WORD) value = LARGEST_WORD;
    }
    *number = value;
    return length > 0;
}

/* The next word: "a word is a run of bytes that are no spaces". */
Word next_word(Order *order) {
    size_t from = order->at, end;
    while (from < order->length && order->bytes[from] == ' ') from++;
    for (end = from; end < order->length && order->bytes[end] != ' ';) end++;
    order->at = end;
    return (Word){.place = from, .length = end - from};
}

/* True if the word is just these bytes. */
bool word_is(const Order *order, Word word, const char *text) {
    return word.length == strlen(text) && memcmp(order->bytes + word.place, text, word.length) == 0;
}

/* "a number is due, and there is no word or another". */
bool take_number(Order *order, unsigned *number) {
    Word word = next_word(order);
    if (!number_by(order->bytes + word.place, word.length, number)) return not_taken(order, word, F_NUMBER);
    cover_desk_case(CASE_NUMBER_CAPPED, *number == LARGEST_WORD);
    cover_desk_case(CASE_LEADING_ZEROS, word.length > 1 && order->bytes[word.place] == '0');
    return true;
}

/* The symbol that a word tells from its byte `from` on, by its number or its name. */
static bool symbol_in(const Order *order, Word word, size_t from, unsigned *symbol) {
    const uint8_t *bytes = order->bytes + word.place + from;
    size_t length = word.length - from;
    if (number_by(bytes, length, symbol)) return true;
    if (!is_name(bytes, length)) return not_taken(order, word, F_SYMBOL);
    *symbol = symbol_named(order->desk, bytes, length);
    cover_desk_case(CASE_NAME_GONE, *symbol == 0 && was_name(bytes, length));
    return *symbol != 0 || not_taken(order, word, F_NO_NAME);
}

/* "A symbol is a number, or the name of a symbol." */
bool take_symbol(Order *order, unsigned *symbol) {
    return symbol_in(order, next_word(order), 0, symbol);
}

/* The literal that a word tells: "a symbol, or `-` and a symbol without a blank between". */
static bool literal_in(const Order *order, Word word, int *literal) {
    unsigned symbol = 0;
    bool minus = word.length > 0 && order->bytes[word.place] == '-';
    if (!symbol_in(order, word, minus, &symbol)) return false;
    *literal = minus ? -(int)symbol : (int)symbol;
    return true;
}

/* A literal that has to be there. */
bool take_literal(Order *order, int *literal) {
    return literal_in(order, next_word(order), literal);
}

/* All words that are left, as literals; there may be none. */
bool take_literals(Order *order, int16_t *literals, unsigned *count) {
    int literal;
    *count = 0;
    for (Word word = next_word(order); word.length > 0; word = next_word(order)) {
        if (!literal_in(order, word, &literal)) return false;
        literals[(*count)++] = (int16_t)literal;
    }
    return true;
}

/* "a name is due, and there is no word or another". */
bool take_name(Order *order, Word *name) {
    *name = next_word(order);
    return is_name(order->bytes + name->place, name->length) || not_taken(order, *name, F_NAME);
}

/* "a word too many". */
bool take_end(Order *order) {
    Word word = next_word(order);
    return word.length == 0 || not_taken(order, word, F_MORE);
}
