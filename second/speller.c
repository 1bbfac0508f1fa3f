/* Random formula texts: formulae spelt in any of the ways that Ticket 5 leaves free, texts of any bytes, and texts damaged in one place. */
#include "speller.h"

#include <stdio.h>
#include <string.h>

enum { SYMBOL = 0x10, NOT = 0x11, AND = 0x12, OR = 0x13, SAME = 0x15 };

/* The bytes that texts are made of, and after them some that no text has: among these the neighbours of those. */
static const uint8_t spelling[] = " 0123456789-&|>=()\t\n\r/:%'*,.<?{}+~!x_\x7F\x80\xA0\xAD\xB1\xFF";
enum { MARKS = 18, SPELLING = sizeof spelling }; /* the last of them is 0x00 */

/* An empty sheet, of an oddness that is drawn. */
void start_sheet(Sheet *sheet, Random *random, unsigned symbols) {
    bool tidy = random_chance(random, 25);
    sheet->random = random;
    sheet->symbols = symbols;
    sheet->blanks = tidy || random_chance(random, 30) ? 0 : random_between(random, 1, 60);
    sheet->zeros = tidy || random_chance(random, 40) ? 0 : random_between(random, 1, 40);
    sheet->brackets = tidy || random_chance(random, 30) ? 0 : random_between(random, 1, 50);
    sheet->beyond = random_chance(random, 95) ? 0 : random_between(random, 5, 60);
    sheet->open = 0;
    sheet->length = sheet->given = 0;
}

/* ---- Marks and numbers ---- */

/* Writes one byte, if there is room. */
static void put(Sheet *sheet, unsigned byte) {
    if (sheet->length < SHEET) sheet->bytes[sheet->length++] = (uint8_t)byte;
}

/* Writes blanks now and then. */
static void put_blanks(Sheet *sheet) {
    if (!random_chance(sheet->random, sheet->blanks)) return;
    for (unsigned n = random_chance(sheet->random, 2) ? 200 : random_between(sheet->random, 1, 3); n > 0; n--) put(sheet, ' ');
}

/* Writes a mark. */
static void put_mark(Sheet *sheet, unsigned mark) {
    put_blanks(sheet);
    put(sheet, mark);
    put_blanks(sheet);
    if (mark == '(') sheet->open++;
    if (mark == ')' && sheet->open > 0) sheet->open--;
}

/* Writes the digits of a number, or of one that a few bits would take for it: more by 256, by 2^16, by 2^32 or by 2^64; or many digits. */
static void put_digits(Sheet *sheet, unsigned number) {
    char digits[320];
    unsigned sort = random_chance(sheet->random, sheet->beyond) ? random_between(sheet->random, 1, 7) : 0;
    switch (sort) {
    case 0: snprintf(digits, sizeof digits, "%u", number); break;
    case 1: snprintf(digits, sizeof digits, "%u", number + 256); break;
    case 2: snprintf(digits, sizeof digits, "%u", number + 256 * random_between(sheet->random, 2, 40)); break;
    case 3: snprintf(digits, sizeof digits, "%u", number + 65536); break;
    case 4: snprintf(digits, sizeof digits, "%llu", number + 4294967296ull); break;
    case 5: snprintf(digits, sizeof digits, "18446744073709551%u", 616 + number); break;
    case 6: snprintf(digits, sizeof digits, "%u", random_chance(sheet->random, 30) ? 256 : random_between(sheet->random, 201, 999)); break;
    default:
        memset(digits, '0' + (int)random_below(sheet->random, 10), 300);
        snprintf(digits + random_between(sheet->random, 15, 300), 8, "%u", number);
    }
    for (const char *at = digits; *at != 0; at++) put(sheet, (uint8_t)*at);
}

/* Writes a symbol's number, now and then with leading zeros: few, or hundreds. */
static void put_number(Sheet *sheet, unsigned number) {
    unsigned zeros = random_chance(sheet->random, sheet->zeros) ? random_between(sheet->random, 1, 6) : 0;
    if (zeros == 6 && random_chance(sheet->random, 10)) zeros = 300;
    put_blanks(sheet);
    while (zeros-- > 0) put(sheet, '0');
    put_digits(sheet, number);
    put_blanks(sheet);
}

/* The mark of a kind with two operands. */
static unsigned mark_of(unsigned kind) {
    return (uint8_t) "&|>="[kind - AND];
}

/* ---- Spelling a formula ---- */

/* For each place of the formula where an operand starts: brackets that are open at once inside it, spelt as a unit with a pair for each form. */
static unsigned needs[INK];

/* Finds out what the operand at *at needs, whatever its depth; false where the bytes are no formula. */
static bool find_needs(const uint8_t *formula, size_t bytes, size_t *at) {
    size_t from = (*at)++, second;
    if (from >= bytes || formula[from] < SYMBOL || formula[from] > SAME) return false;
    needs[from] = 0;
    if (formula[from] == SYMBOL) return (*at)++ < bytes;
    if (!find_needs(formula, bytes, at)) return false;
    needs[from] = needs[from + 1];
    if (formula[from] == NOT) return true;
    second = *at;
    if (!find_needs(formula, bytes, at)) return false;
    if (needs[second] > needs[from]) needs[from] = needs[second];
    needs[from]++;
    return true;
}

/* Spells the operand at *at as a unit, and moves *at past it: mostly with no more brackets than are allowed. */
static void spell_chain(Sheet *sheet, const uint8_t *formula, size_t *at);
static void spell_unit(Sheet *sheet, const uint8_t *formula, size_t *at) {
    bool one_more = sheet->open + 1 + needs[*at] <= MOST_OPEN || random_chance(sheet->random, 1);
    bool bracket = formula[*at] > NOT || (one_more && random_chance(sheet->random, sheet->brackets));
    if (bracket) {
        put_mark(sheet, '(');
        if (one_more && formula[*at] > NOT && random_chance(sheet->random, sheet->brackets / 2)) spell_unit(sheet, formula, at);
        else spell_chain(sheet, formula, at);
        put_mark(sheet, ')');
    } else if (formula[*at] == NOT) {
        put_mark(sheet, '-');
        ++*at;
        spell_unit(sheet, formula, at);
    } else {
        put_number(sheet, formula[*at + 1]);
        *at += 2;
    }
}

/* Spells the operand at *at as a chain: a first operand with the same mark `&` or `|` mostly without brackets of its own. */
static void spell_chain(Sheet *sheet, const uint8_t *formula, size_t *at) {
    uint8_t kind = formula[*at];
    if (kind <= NOT) {
        spell_unit(sheet, formula, at);
        return;
    }
    ++*at;
    if (formula[*at] == kind && kind <= OR && !random_chance(sheet->random, sheet->brackets)) spell_chain(sheet, formula, at);
    else spell_unit(sheet, formula, at);
    put_mark(sheet, mark_of(kind));
    spell_unit(sheet, formula, at);
}

/* Spells a formula, of any depth and any numbers; false where the bytes are none, or the text has no room. */
bool spell_formula(Sheet *sheet, const uint8_t *formula, size_t bytes) {
    size_t used = 0, at = 0;
    sheet->length = sheet->open = 0;
    if (bytes > INK || !find_needs(formula, bytes, &used) || used != bytes) return false;
    if (random_chance(sheet->random, sheet->brackets)) spell_unit(sheet, formula, &at);
    else spell_chain(sheet, formula, &at);
    sheet->given = sheet->length;
    return sheet->length < SHEET;
}

/* ---- Texts of any bytes ---- */

/* A number for a text: mostly a symbol. */
static unsigned soup_number(Sheet *sheet) {
    return random_chance(sheet->random, 93) ? random_between(sheet->random, 1, sheet->symbols) : random_below(sheet->random, 256);
}

/* Writes a mark that joins: mostly the one given. */
static void put_joint(Sheet *sheet, unsigned mark, unsigned faults) {
    put_mark(sheet, random_chance(sheet->random, faults) ? mark_of(random_between(sheet->random, AND, SAME)) : mark);
}

/* Writes units and marks in turn, and now and then what is not due. */
static void put_walk(Sheet *sheet, unsigned faults) {
    Random *random = sheet->random;
    unsigned mark = mark_of(random_between(random, AND, SAME));
    bool due = true;
    for (unsigned n = random_between(random, 1, 12); n > 0; n--) {
        if (random_chance(random, faults)) put(sheet, spelling[random_below(random, random_chance(random, 80) ? MARKS : SPELLING)]);
        if (due && random_chance(random, 30)) put_mark(sheet, random_chance(random, 50) ? '-' : '(');
        else if (due) put_number(sheet, soup_number(sheet)), due = false;
        else if (sheet->open > 0 && random_chance(random, 40)) put_mark(sheet, ')');
        else put_joint(sheet, mark, faults), due = true;
    }
    if (due && random_chance(random, 80)) put_number(sheet, soup_number(sheet));
    while (sheet->open > 0 && random_chance(random, 97)) put_mark(sheet, ')');
}

/* Writes a chain of so many units: `-` and brackets before some. */
static void put_chain(Sheet *sheet, unsigned units, unsigned faults) {
    unsigned mark = mark_of(random_between(sheet->random, AND, random_chance(sheet->random, 90) ? OR : SAME));
    for (unsigned i = 0; i < units; i++) {
        bool bracket = random_chance(sheet->random, sheet->brackets / 2);
        if (i > 0) put_joint(sheet, mark, faults);
        if (random_chance(sheet->random, 10)) put_mark(sheet, '-');
        if (bracket) put_mark(sheet, '(');
        put_number(sheet, soup_number(sheet));
        if (bracket) put_mark(sheet, ')');
    }
}

/* Writes brackets round a symbol or a small chain, about as many as may be open, and mostly as many closed. */
static void put_brackets(Sheet *sheet) {
    Random *random = sheet->random;
    unsigned opened = random_between(random, MOST_OPEN - 2, MOST_OPEN + 2), closed = opened;
    if (random_chance(random, 15)) closed = random_between(random, opened - 2, opened + 1);
    for (unsigned i = 0; i < opened; i++) {
        if (random_chance(random, 10)) put_mark(sheet, '-');
        put_mark(sheet, '(');
    }
    put_chain(sheet, random_between(random, 1, 3), 3);
    for (unsigned i = 0; i < closed; i++) put_mark(sheet, ')');
}

/* Writes a run of `-`, about as many as a formula may have, and mostly a unit. */
static void put_minuses(Sheet *sheet) {
    for (unsigned n = random_between(sheet->random, DEEPEST - 4, DEEPEST + 3); n > 0; n--) put_mark(sheet, '-');
    if (random_chance(sheet->random, 85)) put_number(sheet, soup_number(sheet));
}

/* Writes a text of any bytes: of all, of marks and digits only, or nearly of the form. */
void write_soup(Sheet *sheet) {
    Random *random = sheet->random;
    sheet->length = sheet->open = 0;
    unsigned sort = random_below(random, 100), faults = random_chance(random, 50) ? 3 : random_between(random, 0, 25);
    if (random_chance(random, 10)) sheet->beyond = random_between(random, 5, 60);
    if (sort < 4)
        for (unsigned n = random_below(random, 20); n > 0; n--) put(sheet, (unsigned)random_next(random) & 255);
    else if (sort < 20)
        for (unsigned n = random_below(random, random_chance(random, 80) ? 8 : 30); n > 0; n--) put(sheet, spelling[random_below(random, MARKS)]);
    else if (sort < 60) put_walk(sheet, faults);
    else if (sort < 70) put_chain(sheet, random_between(random, 2, 6), faults);
    else if (sort < 82) put_chain(sheet, random_between(random, DEEPEST - 2, DEEPEST + 2), random_chance(random, 80) ? 0 : 3);
    else if (sort < 92) put_brackets(sheet);
    else put_minuses(sheet);
    sheet->given = sheet->length;
}

/* ---- Damage ---- */

/* Puts a run of one byte into the text. */
static void insert_run(Sheet *sheet, size_t at, size_t bytes, unsigned byte) {
    if (sheet->length + bytes > SHEET) return;
    memmove(sheet->bytes + at + bytes, sheet->bytes + at, sheet->length - at);
    memset(sheet->bytes + at, (int)byte, bytes);
    sheet->length += bytes;
}

/* Damages a text in one place, often at its end; or cuts it short, with the rest still standing there. */
void spoil_sheet(Sheet *sheet) {
    Random *random = sheet->random;
    unsigned byte = spelling[random_below(random, random_chance(random, 75) ? MARKS : SPELLING)], length = (unsigned)sheet->length;
    if (length == 0) return;
    size_t at = random_chance(random, 30) ? length - 1 : random_below(random, length);
    switch (random_below(random, 8)) {
    case 0: sheet->bytes[at] = (uint8_t)byte; break;
    case 1: memmove(sheet->bytes + at, sheet->bytes + at + 1, --sheet->length - at); break;
    case 2: insert_run(sheet, at, 1, sheet->bytes[at]); break;
    case 3: insert_run(sheet, at, 1, byte); break;
    case 4: insert_run(sheet, random_chance(random, 50) ? length : at, 1, byte); break;
    case 5: insert_run(sheet, at, random_between(random, 1, MOST_OPEN + 1), random_chance(random, 50) ? '(' : '-'); break;
    case 6: insert_run(sheet, at, 100, random_chance(random, 40) ? '0' : '1' + random_below(random, 9)); break;
    default: sheet->given = at; return;
    }
    sheet->given = sheet->length;
}
