/* Lines of desk that add a rule in text: formulae spelt in any way, names in place of numbers, and what is wrong with either. */
#include <string.h>

#include "scribe.h"
#include "speller.h"

enum { SYMBOL = 0x10, NOT = 0x11, AND = 0x12, IMPLIES = 0x14 };

/* Writes a literal as formula bytes. */
static void ink_literal(Ink *ink, int literal) {
    if (literal < 0) ink->bytes[ink->length++] = NOT;
    ink->bytes[ink->length++] = SYMBOL;
    ink->bytes[ink->length++] = (uint8_t)(literal < 0 ? -literal : literal);
}

/* A literal to lead on from, derived where some are: mostly another one than those before it. */
static int draw_cause(Scribe *scribe, const int *before, unsigned count) {
    int literal = 0;
    bool again = true;
    for (unsigned tries = 0; tries < 4 && again; tries++) {
        literal = random_chance(&scribe->random, 35) ? held_literal(scribe) : derived_literal(scribe);
        again = false;
        for (unsigned i = 0; i < count; i++) again |= before[i] == literal;
    }
    return literal;
}

/* Writes a rule that leads on: from one to four literals to any other one; now and then against one that is derived. So ranks grow, and trees come
 * by the same literal twice. */
static void write_link(Scribe *scribe, Ink *ink) {
    Random *random = &scribe->random;
    unsigned sort = random_below(random, 100), from = sort < 25 ? 1 : sort < 65 ? 2 : sort < 85 ? 3 : 4;
    int causes[4];
    ink->length = 0;
    ink->bytes[ink->length++] = IMPLIES;
    for (unsigned i = 1; i < from; i++) ink->bytes[ink->length++] = AND;
    for (unsigned i = 0; i < from; i++) ink_literal(ink, causes[i] = draw_cause(scribe, causes, i));
    ink_literal(ink, random_chance(random, 4) ? -derived_literal(scribe) : fresh_literal(scribe));
    ink->given = ink->length;
}

/* Writes a formula: mostly one that leads on, or what a plant would have. */
static void write_some(Scribe *scribe, Ink *ink) {
    static const unsigned sorts[SORTS] = {[PLANT] = 150, [TREE] = 30,   [SPINE] = 14,     [WIDE] = 2,      [PARITY] = 5,     [LITERALS] = 20,
                                          [NEVER] = 14,  [ALWAYS] = 12, [ANY_TRUTH] = 14, [TOO_MANY] = 12, [PARITY_OF_8] = 1};
    ink->random = &scribe->random;
    ink->leaning = scribe->leaning;
    ink->lean = 92;
    ink->symbols = scribe_symbols(scribe);
    if (random_chance(&scribe->random, 60)) write_link(scribe, ink);
    else write_formula(ink, random_weighted(&scribe->random, sorts, SORTS));
}

/* Writes a word that is no symbol's name as it stands: a digit ahead of a name, one byte more, an unknown name, a short word, a name twice. */
static void put_wrong_name(Scribe *scribe, const char *name) {
    char other[LONGEST_NAME + 1];
    draw_new_name(scribe, other);
    unsigned sort = random_below(&scribe->random, 7);
    if (sort == 0) put_byte(scribe, '0' + random_below(&scribe->random, 10));
    if (sort == 1) put_byte(scribe, '_');
    if (sort <= 3) put_text(scribe, name);
    if (sort == 2) put_text(scribe, random_chance(&scribe->random, 50) ? "_" : "x");
    if (sort == 3) put_byte(scribe, ' '), put_text(scribe, name);
    if (sort == 4 || sort == 5) put_text(scribe, other);
    if (sort == 6) put_text(scribe, random_chance(&scribe->random, 50) ? "ab" : "x");
}

/* Writes a text with names in place of most of its numbers; of a wrong one every few are not what they should be. */
static void put_named(Scribe *scribe, const Sheet *sheet, unsigned named, unsigned wrong) {
    for (size_t from = 0, end; from < sheet->given; from = end) {
        unsigned number = 0;
        for (end = from; end < sheet->given && sheet->bytes[end] >= '0' && sheet->bytes[end] <= '9';) end++;
        bool symbol = number_by(sheet->bytes + from, end - from, &number) && is_literal((int)number, scribe->desk->board.symbols);
        const char *name = symbol ? scribe->desk->names[number] : "";
        bool by_name = name[0] != 0 && random_chance(&scribe->random, named);
        if (end == from) put_byte(scribe, sheet->bytes[end++]);
        else if (random_chance(&scribe->random, wrong)) put_wrong_name(scribe, name);
        else if (by_name) put_text(scribe, name);
        else for (size_t i = from; i < end; i++) put_byte(scribe, sheet->bytes[i]);
    }
}

/* Draws the text of a rule: a formula, now and then spoilt, or any bytes. */
static void draw_text(Scribe *scribe, Sheet *sheet) {
    static Ink ink;
    Random *random = &scribe->random;
    start_sheet(sheet, random, scribe_symbols(scribe));
    write_some(scribe, &ink);
    if (random_chance(random, 4) || !spell_formula(sheet, ink.bytes, ink.given)) write_soup(sheet);
    if (random_chance(random, 7)) spoil_sheet(sheet);
}

/* Draws a line with a rule. One that is too long is mostly drawn again. */
void draw_rule_line(Scribe *scribe) {
    static Sheet sheet;
    Random *random = &scribe->random;
    unsigned named = random_chance(random, 20) ? 0 : random_between(random, 50, 100), wrong = random_chance(random, 5) ? 30 : 0;
    do {
        draw_text(scribe, &sheet);
        scribe->length = 0;
        put_blanks(scribe, 0);
        put_text(scribe, "rule");
        put_blanks(scribe, !random_chance(random, 1));
        if (!random_chance(random, 1)) put_named(scribe, &sheet, named, wrong);
        put_blanks(scribe, 0);
    } while (scribe->length > LONGEST_LINE && random_chance(random, 90));
}
