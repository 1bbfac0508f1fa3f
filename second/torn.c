/* Texts damaged in every place: each byte replaced by each of a list, left out and doubled, and the text cut at every length. */
#include <string.h>

#include "texts.h"
#include "texttrials.h"

enum { TORN_TEXT = 1024, DRAWN = 4 };

/* A text to be torn, S of the empty board that it is read onto, and the rows lent. */
typedef struct Whole {
    const char *text;
    unsigned symbols, lent;
} Whole;

static const Whole wholes[] = {
    {"p cnf 3 2\n1 -2 0\n3 0\n", 3, 2},
    {"c\nc two\np cnf 12 3\n1 -12 0\n-3 4 -3 0\n2 0", 12, 8},
    {"p cnf  0010  3 \n\n 10 -1\n 0\n009 9 -09 0 1 2 3 4 5 6 7 8 0", 10, 3},
    {"p cnf 19 4\n1 0\n2 0\n3 -3 0\n19 1 0\n", 9, 9},
    {"p cnf 9 3\n1 0 1 0 1 0", 200, 1},
    {"p cnf 11 2\n1 2 3 4 5 6 7 8 9 0\n0\n", 11, 2},
    {"c p cnf 1 1\np cnf 32767 1\n-00199 00032767 0\n", 199, 4},
};

/* The damage, and the text that it leaves. */
static uint8_t torn[TORN_TEXT + 1];

/* Reads a damaged text onto an empty board. */
static bool read_torn(Play *play, const Whole *whole, size_t bytes, size_t standing) {
    return (text_open(play, whole->symbols) && text_read(play, torn, bytes, standing, WIDTH * whole->lent, true)) ||
           text_wrong(play, "a damaged text", torn, bytes);
}

/* Replaces one byte by each of the list. */
static bool replace(Play *play, const Whole *whole, const uint8_t *text, size_t length, size_t at) {
    unsigned count;
    const uint8_t *bytes = odd_bytes(&count);
    bool good = true;
    memcpy(torn, text, length);
    for (unsigned i = 0; i < count && good; i++) {
        torn[at] = bytes[i];
        good = read_torn(play, whole, length, length);
    }
    return good;
}

/* Leaves one byte out, and doubles it. */
static bool drop_and_double(Play *play, const Whole *whole, const uint8_t *text, size_t length, size_t at) {
    memcpy(torn, text, at);
    memcpy(torn + at, text + at + 1, length - at - 1);
    if (!read_torn(play, whole, length - 1, length - 1)) return false;
    memcpy(torn, text, at + 1);
    memcpy(torn + at + 1, text + at, length - at);
    return read_torn(play, whole, length + 1, length + 1);
}

/* Damages a text in every place; cut short, the rest still stands there. */
static bool tear(Play *play, const Whole *whole, const uint8_t *text, size_t length) {
    bool good = true;
    for (size_t at = 0; at < length && good; at++) {
        good = replace(play, whole, text, length, at) && drop_and_double(play, whole, text, length, at);
        memcpy(torn, text, length);
        good = good && read_torn(play, whole, at, length);
    }
    return good;
}

/* Draws a text and damages it. */
static bool tear_drawn(Play *play, Random *random) {
    static Page page;
    bool leaning[MOST_SYMBOLS + 1] = {false};
    Whole whole = {NULL, random_between(random, 1, 20), random_between(random, 1, 6)};
    page.random = random;
    page.leaning = leaning;
    page.lean = 50;
    page.symbols = whole.symbols;
    do write_text(&page, random_between(random, 2, 5), random_chance(random, 50));
    while (page.length > 300);
    return tear(play, &whole, page.bytes, page.length);
}

/* True if the two sides agree on every damaged text. */
bool torn_texts_agree(Play *play, uint64_t seed) {
    Random random = random_for(seed, 0x746F726E);
    bool good = true;
    play_start(play, seed, true);
    for (size_t i = 0; i < sizeof wholes / sizeof wholes[0]; i++)
        good = good && tear(play, &wholes[i], (const uint8_t *)wholes[i].text, strlen(wholes[i].text));
    for (unsigned i = 0; i < DRAWN; i++) good = good && tear_drawn(play, &random);
    return good;
}
