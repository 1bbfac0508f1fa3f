/* What is wrong with lines for desk: words of another form, too many or missing, first words that are none, any bytes, lines that are too long. */
#include <string.h>

#include "scribe.h"

/* Words that are out of place in most lines, and near to what is due. */
static const char *const odd[] = {
    "-", "--", "--3", "-0", "0", "00", "+3", "3x", "x3", "ab", "a", "-ab", "_ab", "9ab", "a-b", "pump!", "1.5", "32767", "32768", "-32768", "65537",
    "-65537", "99999999999999999999", "201", "256", "-256", "nobody", "-nobody", "No_Such_Name", "-No_Such_Name", "abcdefghijklmnopqrstuvwxy",
    "-abcdefghijklmnopqrstuvwxy", "abcdefghijklmnopqrstuvwx", "on", "off", "ON", "#", "(1)", "1|2", "1\t", "\x01\x02", "\x80\xFF", "gas\xC3\xA9",
    "0x1"};
enum { ODD = sizeof odd / sizeof odd[0] };

/* A word that is out of place: a number just beyond S, or one of those above. */
static void draw_odd_word(Scribe *scribe, char word[WORD_ROOM]) {
    unsigned sort = random_below(&scribe->random, 100);
    if (sort < 20) snprintf(word, WORD_ROOM, "%s%u", sort < 10 ? "-" : "", scribe_symbols(scribe) + 1);
    else if (sort < 35) snprintf(word, WORD_ROOM, "%s%u", sort < 28 ? "-" : "", random_between(&scribe->random, 1, scribe_symbols(scribe)));
    else snprintf(word, WORD_ROOM, "%s", odd[random_below(&scribe->random, ODD)]);
}

/* Leaves a word out. */
static void leave_out(Scribe *scribe, unsigned at) {
    for (unsigned i = at; i + 1 < scribe->words; i++) memcpy(scribe->word[i], scribe->word[i + 1], WORD_ROOM);
    scribe->words--;
}

/* Puts two words together to one. */
static void put_together(Scribe *scribe, unsigned at) {
    char both[2 * WORD_ROOM];
    snprintf(both, sizeof both, "%s%s", scribe->word[at], scribe->word[at + 1]);
    both[WORD_ROOM - 1] = 0;
    strcpy(scribe->word[at], both);
    leave_out(scribe, at + 1);
}

/* Exchanges two words, which may be the same one. */
static void exchange(Scribe *scribe, unsigned at, unsigned other) {
    char kept[WORD_ROOM];
    memcpy(kept, scribe->word[at], WORD_ROOM);
    memmove(scribe->word[at], scribe->word[other], WORD_ROOM);
    memcpy(scribe->word[other], kept, WORD_ROOM);
}

/* Does something wrong to the words of a line: all after one left out, one left out, one more, another word, two exchanged, two put together. */
void spoil_words(Scribe *scribe) {
    Random *random = &scribe->random;
    unsigned count = scribe->words, sort = random_below(random, 10), at = count > 1 ? random_between(random, 1, count - 1) : 0;
    char word[WORD_ROOM];
    draw_odd_word(scribe, word);
    if (count == 1 || sort < 2) {
        add_word(scribe, word);
    } else if (sort == 2) {
        scribe->words = at;
    } else if (sort == 3) {
        leave_out(scribe, at);
    } else if (sort < 8) {
        strcpy(scribe->word[at], word);
    } else if (sort == 8) {
        exchange(scribe, at, random_between(random, 1, count - 1));
    } else {
        put_together(scribe, at - 1);
    }
}

/* Draws a line whose first word is none. */
void draw_other_line(Scribe *scribe) {
    static const char *const firsts[] = {
        "Open", "opens", "ope", "rules", "rule1", "RULE", "askask", "-", "1", "nobody", "quit", "?", "hold,", "(rule", "why?"};
    char word[WORD_ROOM];
    if (random_chance(&scribe->random, 25)) {
        scribe->length = 0;
        put_byte(scribe, '!');
        for (unsigned n = random_below(&scribe->random, 40); n > 0; n--) put_byte(scribe, random_below(&scribe->random, 256));
        return;
    }
    start_words(scribe, firsts[random_below(&scribe->random, sizeof firsts / sizeof firsts[0])]);
    for (unsigned n = random_below(&scribe->random, 3); n > 0; n--) {
        draw_odd_word(scribe, word);
        add_word(scribe, word);
    }
    join_words(scribe);
}

/* Puts any bytes in place of some. */
void spoil_bytes(Scribe *scribe) {
    Random *random = &scribe->random;
    if (scribe->length == 0) return;
    for (unsigned n = random_between(random, 1, 3); n > 0; n--) {
        uint8_t byte = (uint8_t)random_next(random);
        scribe->bytes[random_below(random, (unsigned)scribe->length)] = byte == '\n' ? 0 : byte;
    }
}

/* Moves what a line has from a place on further back, and writes blanks there. */
static void widen(Scribe *scribe, size_t at, size_t length) {
    size_t rest = scribe->length - at;
    memmove(scribe->bytes + length - rest, scribe->bytes + at, rest);
    memset(scribe->bytes + at, ' ', length - rest - at);
    scribe->length = length;
}

/* Makes a line about as long as may be, or far longer: by blanks after its first byte that is followed by one, or at its end. */
void make_long(Scribe *scribe) {
    Random *random = &scribe->random;
    static const unsigned lengths[] = {LONGEST_LINE - 1, LONGEST_LINE, LONGEST_LINE, LONGEST_LINE + 1, LONGEST_LINE + 2};
    unsigned length = random_chance(random, 70) ? lengths[random_below(random, 5)] : random_between(random, 100, LINE_ROOM - 2);
    size_t at = 0;
    while (at < scribe->length && scribe->bytes[at] != ' ') at++;
    if (random_chance(random, 30)) at = scribe->length;
    if (length > scribe->length) widen(scribe, at, length);
}
