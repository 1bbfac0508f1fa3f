/* Formulae in plain text by document 02's Ticket 5 and document 01's "Text, where a ticket takes it": the bytes that a text spells, or where it
 * leaves the form; the one text that bytes are written as; and the three calls. */
#include <stdio.h>
#include <stdlib.h>
#include <string.h>

#include "model.h"

enum { SYMBOL = 0x10, NOT = 0x11, AND = 0x12, OR = 0x13, IMPLIES = 0x14, SAME = 0x15 };
enum { LARGEST = 255, END = -1, ROOM = 4194304 };

/* ---- Reading ---- */

/* A text being read: where it is read, the brackets open there, and the bytes spelt so far. Where it leaves the form it is read no further. */
typedef struct Scan {
    const uint8_t *text;
    size_t length, at;
    unsigned open;
    uint8_t *out;
    size_t used;
} Scan;

/* Digits, and no other byte. */
static bool is_digit(int byte) {
    return byte >= '0' && byte <= '9';
}

/* The kind of a form of two operands by its mark, or 0. */
static uint8_t kind_of(int mark) {
    switch (mark) {
    case '&': return AND;
    case '|': return OR;
    case '>': return IMPLIES;
    case '=': return SAME;
    default: return 0;
    }
}

/* The next byte that is no space, or END: "Spaces may stand round any mark". */
static int next_byte(Scan *scan) {
    while (scan->at < scan->length && scan->text[scan->at] == ' ') scan->at++;
    return scan->at < scan->length ? scan->text[scan->at] : END;
}

/* Writes a byte. */
static void put(Scan *scan, unsigned byte) {
    scan->out[scan->used++] = (uint8_t)byte;
}

/* Writes a kind so many times ahead of the bytes from `from` on. */
static void put_ahead(Scan *scan, size_t from, uint8_t kind, size_t times) {
    memmove(scan->out + from + times, scan->out + from, scan->used - from);
    memset(scan->out + from, kind, times);
    scan->used += times;
}

/* "A number is digits, leading zeros taken", and "above 255 counts as one byte that gives 2". */
static void read_number(Scan *scan) {
    unsigned value = 0;
    for (; scan->at < scan->length && is_digit(scan->text[scan->at]); scan->at++) {
        value = 10 * value + (scan->text[scan->at] - (unsigned)'0');
        if (value > LARGEST) value = LARGEST;
    }
    put(scan, SYMBOL);
    put(scan, value);
}

/* "a unit is a decimal symbol number, `-` and a unit, or a chain in round brackets", and "at most 16 brackets may be open at once". */
static bool read_chain(Scan *scan);
static bool read_unit(Scan *scan) {
    for (; next_byte(scan) == '-'; scan->at++) put(scan, NOT);
    if (is_digit(next_byte(scan))) return read_number(scan), true;
    if (next_byte(scan) != '(' || scan->open == MOST_OPEN) return false;
    scan->at++;
    scan->open++;
    if (!read_chain(scan) || next_byte(scan) != ')') return false;
    scan->at++;
    scan->open--;
    return true;
}

/* "a chain is a unit alone, units joined by `&` only or by `|` only, grouped from the left, or two units joined by `>` (implies) or by `=` (same)":
 * grouped from the left, all its kinds stand ahead of its first unit. */
static bool read_chain(Scan *scan) {
    size_t from = scan->used, joints = 0;
    if (!read_unit(scan)) return false;
    int mark = next_byte(scan);
    uint8_t kind = kind_of(mark);
    if (kind == 0) return true;
    size_t most = kind == AND || kind == OR ? SIZE_MAX : 1;
    for (; joints < most && next_byte(scan) == mark; joints++) {
        scan->at++;
        if (!read_unit(scan)) return false;
    }
    put_ahead(scan, from, kind, joints);
    return true;
}

/* What a text spells. "The whole text is a chain." No text spells more than two bytes for each of its own. */
Spelt spelt_by(const uint8_t *text, size_t length) {
    static uint8_t bytes[ROOM];
    Scan scan = {.text = text, .length = length, .out = bytes};
    if (length > ROOM / 2) abort();
    bool whole = read_chain(&scan) && next_byte(&scan) == END;
    return whole ? (Spelt){.place = NO_PLACE, .count = scan.used, .bytes = bytes} : (Spelt){.place = scan.at};
}

/* ---- Writing ---- */

/* Writes the operand at *at: "brackets round each two-operand form but the whole formula, no blanks, no leading zeros". */
static size_t write_operand(const uint8_t *formula, size_t *at, bool whole, char *out) {
    static const char marks[] = {[AND - AND] = '&', [OR - AND] = '|', [IMPLIES - AND] = '>', [SAME - AND] = '='};
    uint8_t kind = formula[(*at)++];
    size_t used = 0;
    if (kind == SYMBOL) return (size_t)sprintf(out, "%u", formula[(*at)++]);
    if (kind == NOT) {
        out[used++] = '-';
        return used + write_operand(formula, at, false, out + used);
    }
    if (!whole) out[used++] = '(';
    used += write_operand(formula, at, false, out + used);
    out[used++] = marks[kind - AND];
    used += write_operand(formula, at, false, out + used);
    if (!whole) out[used++] = ')';
    return used;
}

/* The text of a formula that was read, and its length. */
size_t text_of_formula(const uint8_t *formula, char out[MOST_SPELLING + 1]) {
    size_t at = 0;
    return write_operand(formula, &at, true, out);
}

/* ---- The calls ---- */

/* An outcome with a refusal, or with 0, its place, and the bytes written. */
static Outcome spelt_outcome(unsigned refusal, size_t place, size_t written) {
    return (Outcome){.refusal = refusal, .place = place, .written = written};
}

/* Writes the bytes that a text spells: "after 1, 15", "then whichever of 2 and 5 the resulting byte formula meets first", "13 if they don't fit,
 * after 2 and 5". */
Outcome model_to_bytes(const Board *board, const int16_t *table, size_t numbers, const uint8_t *text, size_t length, uint8_t *formula, size_t room) {
    if (!board_is_good(board, table, numbers)) return spelt_outcome(1, NO_PLACE, 0);
    Spelt spelt = spelt_by(text, length);
    if (spelt.place != NO_PLACE) return spelt_outcome(15, spelt.place, 0);
    Outcome broken = formula_breaks(spelt.bytes, spelt.count, board->symbols);
    if (broken.refusal != 0) return broken;
    if (spelt.count > room) return spelt_outcome(13, NO_PLACE, 0);
    memcpy(formula, spelt.bytes, spelt.count);
    return spelt_outcome(0, NO_PLACE, spelt.count);
}

/* Adds the rule that a text spells: "Text and bytes of one formula add the same rows". */
Outcome model_text_rule(Board *board, int16_t *table, size_t numbers, const uint8_t *text, size_t length) {
    if (!board_is_good(board, table, numbers)) return spelt_outcome(1, NO_PLACE, 0);
    Spelt spelt = spelt_by(text, length);
    if (spelt.place != NO_PLACE) return spelt_outcome(15, spelt.place, 0);
    return model_rule(board, table, numbers, spelt.bytes, spelt.count);
}

/* Writes a formula as text: "the writer gives 1 to 6 as the byte reader does, then 13 when the text doesn't fit". */
Outcome model_to_text(const Board *board, const int16_t *table, size_t numbers, const uint8_t *formula, size_t bytes, uint8_t *text, size_t room) {
    static char whole[MOST_SPELLING + 1];
    if (!board_is_good(board, table, numbers)) return spelt_outcome(1, NO_PLACE, 0);
    Outcome broken = formula_breaks(formula, bytes, board->symbols);
    if (broken.refusal != 0) return broken;
    size_t length = text_of_formula(formula, whole);
    if (length > room) return spelt_outcome(13, NO_PLACE, 0);
    memcpy(text, whole, length);
    return spelt_outcome(0, NO_PLACE, length);
}
