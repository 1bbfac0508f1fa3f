/* Formulae there and back: spelt in some way, read to their bytes, written as text and read again, and added as bytes and as text; texts and bytes at
 * every room; and texts of any bytes, whose place of a 15 is held against its definition. */
#include <stdio.h>
#include <string.h>

#include "cover.h"
#include "speller.h"
#include "spelttrials.h"
#include "tries.h"

enum { TRIPS = 3000, ROOMS = 40, SOUPS = 25000, LONGEST_SOUP = 80, ADDED_FIRST = 3 };

static const bool leaning[MOST_SYMBOLS + 1];
static Ink ink;
static Sheet sheet;
static uint8_t written[MOST_SPELLING];

/* What a rule left behind on the library's side. */
typedef struct Left {
    Outcome outcome;
    tup_board board;
    int16_t table[GUARD + TABLE_LENDABLE + GUARD];
} Left;

/* Draws a formula for a board of so many symbols. */
static void draw_formula(Random *random, unsigned symbols, bool faulty) {
    static const unsigned weights[SORTS] = {[PLANT] = 30, [TREE] = 30, [SPINE] = 12, [WIDE] = 2, [PARITY] = 5, [LITERALS] = 15, [NEVER] = 4,
                                            [ALWAYS] = 4, [LONG] = 1, [ANY_TRUTH] = 10, [TOO_MANY] = 2};
    ink.random = random;
    ink.leaning = leaning;
    ink.lean = 50;
    ink.symbols = symbols;
    write_formula(&ink, random_weighted(random, weights, SORTS));
    if (faulty) spoil_formula(&ink);
}

/* Draws one that can be spelt in some way, and spells it. Its numbers are bytes: none is above 255. */
static void draw_spelt(Random *random, unsigned symbols) {
    do {
        draw_formula(random, symbols, random_chance(random, 25));
        start_sheet(&sheet, random, symbols);
        sheet.beyond = 0;
    } while (!spell_formula(&sheet, ink.bytes, ink.given));
}

/* Draws S. */
static unsigned draw_symbols(Random *random) {
    return random_between(random, 1, random_chance(random, 80) ? 12 : MOST_SYMBOLS);
}

/* True if a text reads to the formula in ink: the library's bytes are its bytes, or it is refused as its bytes are. With a bracket too many it leaves
 * the form: then nothing is said here. */
static bool reads_back(Play *play, const uint8_t *text, size_t length) {
    if (!spelt_to_bytes(play, text, length, length, ink.given, false)) return false;
    Outcome broken = formula_breaks(ink.bytes, ink.given, play->board.symbols);
    if (play->last.refusal == 15) return text == sheet.bytes;
    if (broken.refusal != 0) return spelt_gave(play, broken.refusal, broken.place, 0);
    return spelt_gave(play, 0, NO_PLACE, ink.given) && memcmp(play->theirs.formula + GUARD, ink.bytes, ink.given) == 0;
}

/* Writes the formula in ink as text, and keeps what the library wrote; refused, its length is 0. */
static bool writes(Play *play, size_t *length) {
    if (!spelt_to_text(play, ink.bytes, ink.given, MOST_SPELLING)) return false;
    *length = play->library_last.written;
    memcpy(written, play->theirs.text + GUARD, *length);
    return true;
}

/* Opens a board with a few rows in use, a premise of furnace 1 and its opposite of furnace 2; the same one every time. */
static bool set_up(Play *play, unsigned symbols) {
    int premise = (int)symbols;
    bool good = spelt_open(play, symbols) && try_call(play, HOLD, 1, premise, 0) && try_call(play, HOLD, 2, -premise, 0);
    for (unsigned i = 0; i < ADDED_FIRST && good; i++)
        good = spelt_rule(play, (const uint8_t *)"\x10\x01", 2, TABLE_LENDABLE) && spelt_gave(play, 0, NO_PLACE, 0);
    return good;
}

/* Keeps what the last rule left. */
static void keep(const Play *play, Left *left) {
    left->outcome = play->library_last;
    left->board = play->library_board;
    memcpy(left->table, play->theirs.table, sizeof left->table);
}

/* True if two rules left the same, but for what a table had before beyond the rows that they added. */
static bool left_alike(const Left *one, const Left *other) {
    size_t rows = (GUARD + WIDTH * one->board.rows) * sizeof one->table[0];
    return one->outcome.refusal == other->outcome.refusal && one->outcome.place == other->outcome.place &&
           one->outcome.added == other->outcome.added && memcmp(&one->board, &other->board, sizeof one->board) == 0 &&
           memcmp(one->table, other->table, rows) == 0;
}

/* "Text and bytes of one formula add the same rows": the bytes, the text that was spelt, unless it has a bracket too many, and the text written. */
static bool adds_alike(Play *play, unsigned symbols, size_t length) {
    static Left by_bytes, by_text;
    size_t numbers = ink.bytes[0] % 2 == 0 ? TABLE_LENDABLE : WIDTH * (ADDED_FIRST + 2);
    bool good = set_up(play, symbols) && spelt_rule(play, ink.bytes, ink.given, numbers);
    keep(play, &by_bytes);
    good = good && set_up(play, symbols) && spelt_text_rule(play, sheet.bytes, sheet.given, sheet.length, numbers, false);
    keep(play, &by_text);
    if (play->last.refusal != 15) good = good && left_alike(&by_bytes, &by_text);
    if (!good || length == 0) return good;
    good = set_up(play, symbols) && spelt_text_rule(play, written, length, length, numbers, false);
    keep(play, &by_text);
    return good && left_alike(&by_bytes, &by_text);
}

/* Takes one formula there and back. */
static bool trip(Play *play, Random *random) {
    unsigned symbols = draw_symbols(random);
    size_t length = 0;
    draw_spelt(random, symbols);
    if (!spelt_open(play, symbols) || !reads_back(play, sheet.bytes, sheet.given))
        return spelt_wrong(play, "a formula that was spelt", sheet.bytes, sheet.given);
    if (!writes(play, &length) || (length > 0 && !reads_back(play, written, length)))
        return spelt_wrong(play, "a formula written as text and read back", sheet.bytes, sheet.given);
    cover_spelt_trip();
    if (!adds_alike(play, symbols, length)) return spelt_wrong(play, "a formula added as text and as bytes", sheet.bytes, sheet.given);
    cover_both_ways();
    return true;
}

/* True if formulae come back as they went, and add the same either way. */
bool spelt_trips_agree(Play *play, uint64_t seed) {
    return try_drawn(play, seed, 0x7472697073, TRIPS, trip);
}

/* Reads and writes one formula at every room from 0 to two bytes more than it needs. */
static bool every_room(Play *play, Random *random) {
    static char text[MOST_SPELLING + 1];
    unsigned symbols = draw_symbols(random);
    do {
        draw_formula(random, symbols, false);
        start_sheet(&sheet, random, symbols);
        sheet.beyond = 0;
    } while (ink.given > 60 || formula_breaks(ink.bytes, ink.given, symbols).refusal != 0 || !spell_formula(&sheet, ink.bytes, ink.given));
    size_t length = text_of_formula(ink.bytes, text), count = ink.given;
    bool good = spelt_open(play, symbols), form = spelt_by(sheet.bytes, sheet.given).place == NO_PLACE;
    for (size_t room = 0; room <= count + 2 && good; room++)
        good = spelt_to_bytes(play, sheet.bytes, sheet.given, sheet.length, room, false) &&
               (!form || spelt_gave(play, room < count ? 13 : 0, NO_PLACE, room < count ? 0 : count));
    for (size_t room = 0; room <= length + 2 && good; room++)
        good = spelt_to_text(play, ink.bytes, count, room) && spelt_gave(play, room < length ? 13 : 0, NO_PLACE, room < length ? 0 : length);
    return good || spelt_wrong(play, "a formula at every room", sheet.bytes, sheet.given);
}

/* True if the two sides read and write alike at every room. */
bool spelt_rooms_agree(Play *play, uint64_t seed) {
    return try_drawn(play, seed, 0x726F6F6D73, ROOMS, every_room);
}

/* Reads a text of any bytes, or one that was spelt and damaged; a 15 has to be where its definition says, and nowhere else. */
static bool place_agrees(Play *play, Random *random) {
    unsigned symbols = draw_symbols(random);
    do {
        start_sheet(&sheet, random, symbols);
        if (random_chance(random, 60)) write_soup(&sheet);
        else draw_spelt(random, symbols), spoil_sheet(&sheet);
    } while (sheet.given > LONGEST_SOUP);
    if (!spelt_open(play, symbols) || !spelt_to_bytes(play, sheet.bytes, sheet.given, sheet.length, ROOMY, false))
        return spelt_wrong(play, "a text of any bytes", sheet.bytes, sheet.given);
    size_t place = play->last.refusal == 15 ? play->last.place : NO_PLACE;
    cover_definition();
    return text_leaves_form_at(sheet.bytes, sheet.given, place) || spelt_wrong(play, "a text by the definition of 15", sheet.bytes, sheet.given);
}

/* True if every 15 is where its definition says. */
bool spelt_places_agree(Play *play, uint64_t seed) {
    return try_drawn(play, seed, 0x706C61636573, SOUPS, place_agrees);
}
