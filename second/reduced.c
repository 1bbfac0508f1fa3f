/* The form of formula text a second way: no reader from the front, but units and chains put together from the inside until one is left. And by it the
 * place of a 15 as document 01 defines it: "the first byte that no text of the form can have there, or the length of a text cut short". */
#include <string.h>

#include "model.h"

enum { MOST_REDUCED = 512 };

/* Digits, and no other byte. */
static bool is_digit(uint8_t byte) {
    return byte >= '0' && byte <= '9';
}

/* Writes `u` for each number and leaves blanks out; false where a byte has no meaning or a bracket too many is opened. */
static bool simplify(const uint8_t *text, size_t length, char *out) {
    size_t used = 0;
    int open = 0;
    for (size_t i = 0; i < length; i++) {
        bool digit = is_digit(text[i]), first = digit && (i == 0 || !is_digit(text[i - 1]));
        if (first) out[used++] = 'u';
        if (digit || text[i] == ' ') continue;
        if (text[i] == 0 || strchr("-&|>=()", text[i]) == NULL) return false;
        open += text[i] == '(' ? 1 : text[i] == ')' ? -1 : 0;
        if (open > MOST_OPEN) return false;
        out[used++] = (char)text[i];
    }
    out[used] = 0;
    return true;
}

/* True for units `u` that make a chain: one, any number with one mark `&` or `|` between them, two with `>` or `=`. */
static bool is_chain(const char *units, size_t length) {
    if (length % 2 == 0 || units[0] != 'u') return false;
    for (size_t i = 1; i < length; i += 2)
        if (units[i] != units[1] || strchr("&|>=", units[i]) == NULL || units[i + 1] != 'u') return false;
    return length <= 3 || units[1] == '&' || units[1] == '|';
}

/* Leaves out so many bytes at a place. */
static void leave_out(char *at, size_t bytes) {
    memmove(at, at + bytes, strlen(at + bytes) + 1);
}

/* Makes every `-` with a unit after it a unit; the last one first. */
static void take_minuses(char *reduced) {
    for (size_t i = strlen(reduced); i > 0; i--)
        if (reduced[i - 1] == '-' && reduced[i] == 'u') leave_out(reduced + i - 1, 1);
}

/* True if the text is of the form; it is short enough. */
static bool text_is_of_form(const uint8_t *text, size_t length) {
    char reduced[MOST_REDUCED + 1];
    if (length > MOST_REDUCED || !simplify(text, length, reduced)) return false;
    for (;;) {
        take_minuses(reduced);
        char *close = strchr(reduced, ')'), *open = close;
        if (close == NULL) return is_chain(reduced, strlen(reduced));
        while (open > reduced && *open != '(') open--;
        if (*open != '(' || !is_chain(open + 1, (size_t)(close - open) - 1)) return false;
        leave_out(open, (size_t)(close - open));
        *open = 'u';
    }
}

/* True if some text of the form begins so: it is one with a number or nothing after it, and then so many brackets closed. */
static bool text_can_go_on(const uint8_t *text, size_t length) {
    uint8_t longer[MOST_REDUCED];
    if (length + 1 + MOST_OPEN > MOST_REDUCED) return false;
    memcpy(longer, text, length);
    for (size_t number = 0; number <= 1; number++) {
        if (number == 1) longer[length] = '1';
        memset(longer + length + number, ')', MOST_OPEN);
        for (size_t closed = 0; closed <= MOST_OPEN; closed++)
            if (text_is_of_form(longer, length + number + closed)) return true;
    }
    return false;
}

/* True if a text is of the form and has no place, or leaves it at the place: all before it can go on, and with the byte there it cannot, or there is
 * no byte there and the text is none. */
bool text_leaves_form_at(const uint8_t *text, size_t length, size_t place) {
    if (place == NO_PLACE) return text_is_of_form(text, length);
    if (text_is_of_form(text, length) || place > length || !text_can_go_on(text, place)) return false;
    return place == length || !text_can_go_on(text, place + 1);
}
