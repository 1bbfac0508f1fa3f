/* Names for symbols in the lines of desk: new ones, those of other symbols, those that symbols had. */
#include <string.h>

#include "scribe.h"

/* What names are made of: short words, words that lines begin with, large letters. */
static const char *const stems[] = {
    "fan", "gas", "air", "oil", "lid", "tap", "pump", "flue", "door", "lamp", "heat", "feed", "motor", "valve", "draught", "burner", "rule", "open",
    "rows", "hold", "sets", "Fan", "PUMP", "Door", "a_1", "x__", "Z99", "stack", "water"};
enum { STEMS = sizeof stems / sizeof stems[0] };

/* Makes a name longer, up to a length. */
static void lengthen(Random *random, char *name, size_t length) {
    static const char letters[] = "abcxyzABCXYZ0123456789_";
    size_t at = strlen(name);
    while (at < length) name[at++] = letters[random_below(random, sizeof letters - 1)];
    name[at] = 0;
}

/* A name of any form, which may be taken. */
void draw_new_name(Scribe *scribe, char name[LONGEST_NAME + 1]) {
    Random *random = &scribe->random;
    const char *stem = stems[random_below(random, STEMS)];
    unsigned sort = random_below(random, 100);
    if (sort < 25) snprintf(name, LONGEST_NAME + 1, "%s", stem);
    else if (sort < 55) snprintf(name, LONGEST_NAME + 1, "%s%u", stem, random_between(random, 1, 40));
    else if (sort < 85) snprintf(name, LONGEST_NAME + 1, "%s_%s", stem, stems[random_below(random, STEMS)]);
    else snprintf(name, LONGEST_NAME + 1, "%s_%u", stem, random_below(random, 100));
    if (sort >= 95) lengthen(random, name, sort >= 97 ? LONGEST_NAME : random_between(random, 8, LONGEST_NAME));
}

/* The name of some symbol, with a letter large that was small or the other way round; false where it has none. */
static bool turn_case(Scribe *scribe, char name[LONGEST_NAME + 1]) {
    const char *other = scribe->desk->names[random_between(&scribe->random, 1, scribe_symbols(scribe))];
    strcpy(name, other);
    if (other[0] != 0) name[0] ^= 32;
    return other[0] != 0;
}

/* The name for a line `name`: mostly a new one; now and then another symbol's, its own, one that was given up. */
static void choose_name(Scribe *scribe, unsigned symbol, char name[LONGEST_NAME + 1]) {
    unsigned sort = random_below(&scribe->random, 100), other = random_between(&scribe->random, 1, scribe_symbols(scribe));
    const char *taken = scribe->desk->names[sort < 8 ? other : symbol];
    draw_new_name(scribe, name);
    for (unsigned tries = 0; tries < 4 && symbol_named(scribe->desk, (uint8_t *)name, strlen(name)) != 0; tries++) draw_new_name(scribe, name);
    if (sort < 12 && taken[0] != 0) strcpy(name, taken);
    if (sort >= 12 && sort < 20 && scribe->freed[0] != 0) strcpy(name, scribe->freed);
    char turned[LONGEST_NAME + 1];
    if (sort >= 20 && sort < 24 && turn_case(scribe, turned)) strcpy(name, turned);
}

/* Draws a line that names a symbol, mostly one that has no name yet. */
void draw_name_line(Scribe *scribe) {
    unsigned symbol = random_between(&scribe->random, 1, scribe_symbols(scribe));
    for (unsigned tries = 0; tries < 3 && scribe->desk->names[symbol][0] != 0; tries++)
        symbol = random_between(&scribe->random, 1, scribe_symbols(scribe));
    char name[LONGEST_NAME + 1];
    choose_name(scribe, symbol, name);
    if (scribe->desk->names[symbol][0] != 0) strcpy(scribe->freed, scribe->desk->names[symbol]);
    start_words(scribe, "name");
    add_symbol(scribe, symbol);
    add_word(scribe, name);
}
