/* Formula texts damaged by one byte in every way: each byte replaced by every other and left out, every byte put in at every place, and the text cut
 * at every length. */
#include <string.h>

#include "speller.h"
#include "spelttrials.h"

enum { TORN_TEXT = 100, DRAWN = 90, MOST_DRAWN = 40, NEAR = 4096 };

/* A text to be torn, and S of the empty board that it is tried on. */
typedef struct Whole {
    const char *text;
    unsigned symbols;
} Whole;

static const Whole wholes[] = {
    {"1", 1}, {"-1", 1}, {"12", 12}, {"200", 200}, {"0012", 12}, {"256", 200}, {"1>2", 2}, {"1 = 2", 9}, {"(1&-2)>3", 3}, {"-(1=2)", 2},
    {"1|2|3|4", 4}, {"1&2&3", 3}, {"((1))", 1}, {" ( 1 ) ", 1}, {"(2&3)>4", 4}, {"(1&-2&3)|(4=5)", 5}, {"1>(2>(3>1))", 3}, {"((1=2)=3)=1", 3},
    {"--(-1|--2)", 2}, {" 01 &  -2 & 003 ", 9}, {"(1>2)&(-1>2)", 2}, {"1&300&2", 9}, {"300>0", 9}, {"-(1|2)=-3", 9}, {"(10|11)&(12|13)", 13},
    {"((((((((((((((((1))))))))))))))))", 1}, {"-((((((((((((((((1>2))))))))))))))))", 2}, {"(((((((((((((((1&(2)&3)))))))))))))))", 3},
    {"---------------1", 1}, {"----------------1", 1}, {"1&1&1&1&1&1&1&1&1&1&1&1&1&1&1&1", 1}, {"1|1|1|1|1|1|1|1|1|1|1|1|1|1|1|1|300", 1},
};

/* The damage, and the text that it leaves. */
static uint8_t torn[TORN_TEXT + 1];

/* Reads a damaged text to bytes, and adds it to an empty board. */
static bool try_torn(Play *play, unsigned symbols, size_t bytes, size_t standing) {
    bool good = spelt_to_bytes(play, torn, bytes, standing, ROOMY, true) && spelt_text_rule(play, torn, bytes, standing, TABLE_LENDABLE, true);
    if (good && play->board.rules > 0) good = spelt_open(play, symbols);
    return good || spelt_wrong(play, "a damaged formula text", torn, bytes);
}

/* Replaces one byte by every byte. */
static bool replace(Play *play, unsigned symbols, const uint8_t *text, size_t length, size_t at) {
    bool good = true;
    memcpy(torn, text, length);
    for (unsigned byte = 0; byte < 256 && good; byte++) {
        torn[at] = (uint8_t)byte;
        good = try_torn(play, symbols, length, length);
    }
    return good;
}

/* Puts every byte in at a place. */
static bool put_in(Play *play, unsigned symbols, const uint8_t *text, size_t length, size_t at) {
    bool good = true;
    memcpy(torn, text, at);
    memcpy(torn + at + 1, text + at, length - at);
    for (unsigned byte = 0; byte < 256 && good; byte++) {
        torn[at] = (uint8_t)byte;
        good = try_torn(play, symbols, length + 1, length + 1);
    }
    return good;
}

/* Leaves one byte out. */
static bool leave_out(Play *play, unsigned symbols, const uint8_t *text, size_t length, size_t at) {
    memcpy(torn, text, at);
    memcpy(torn + at, text + at + 1, length - at - 1);
    return try_torn(play, symbols, length - 1, length - 1);
}

/* Damages a text in every place; cut short, the rest still stands there. */
static bool tear(Play *play, unsigned symbols, const uint8_t *text, size_t length) {
    bool good = spelt_open(play, symbols);
    for (size_t at = 0; at < length && good; at++) {
        good = replace(play, symbols, text, length, at) && leave_out(play, symbols, text, length, at) && put_in(play, symbols, text, length, at);
        memcpy(torn, text, length);
        good = good && try_torn(play, symbols, at, length);
    }
    return good && put_in(play, symbols, text, length, length) && table_agrees(play);
}

/* Draws a formula of a few symbols, spells it and damages the text. */
static bool tear_drawn(Play *play, Random *random) {
    static Ink ink;
    static Sheet sheet;
    static const bool leaning[MOST_SYMBOLS + 1];
    static const unsigned sorts[] = {PLANT, TREE, LITERALS, NEVER, ALWAYS};
    ink.random = random;
    ink.leaning = leaning;
    ink.lean = 50;
    ink.symbols = random_between(random, 1, random_chance(random, 70) ? 5 : MOST_SYMBOLS);
    do {
        write_formula(&ink, sorts[random_below(random, 5)]);
        start_sheet(&sheet, random, ink.symbols);
        if (!spell_formula(&sheet, ink.bytes, ink.given)) sheet.length = SHEET;
    } while (sheet.length > MOST_DRAWN);
    return tear(play, ink.symbols, sheet.bytes, sheet.length);
}

/* True if the two sides agree on every damaged text. These are so many that of the clause table only the front is compared after each call, and the
 * whole of it after all damage to a text. */
bool torn_spelt_agree(Play *play, uint64_t seed) {
    Random random = random_for(seed, 0x746F726E73);
    bool good = true;
    play_start(play, seed, true);
    play->watched = NEAR;
    for (size_t i = 0; i < sizeof wholes / sizeof wholes[0]; i++)
        good = good && tear(play, wholes[i].symbols, (const uint8_t *)wholes[i].text, strlen(wholes[i].text));
    for (unsigned i = 0; i < DRAWN; i++) good = good && tear_drawn(play, &random);
    return good;
}
