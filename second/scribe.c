/* Random lines for desk: their words and bytes, the blanks between, and how a line ends. */
#include "scribe.h"

#include <string.h>

/* Starts a line with its first word. */
void start_words(Scribe *scribe, const char *first) {
    scribe->words = 0;
    add_word(scribe, first);
}

/* Adds a word, if there is room. */
void add_word(Scribe *scribe, const char *word) {
    if (scribe->words < MOST_WORDS) snprintf(scribe->word[scribe->words++], WORD_ROOM, "%s", word);
}

/* Adds a number, now and then with leading zeros. */
void add_number(Scribe *scribe, unsigned number) {
    char word[WORD_ROOM];
    unsigned width = random_chance(&scribe->random, 4) ? random_between(&scribe->random, 2, 12) : 1;
    snprintf(word, sizeof word, "%0*u", (int)width, number);
    add_word(scribe, word);
}

/* Adds a symbol: mostly by its name, where it has one. */
void add_symbol(Scribe *scribe, unsigned symbol) {
    bool named = symbol <= MOST_SYMBOLS && scribe->desk->names[symbol][0] != 0;
    if (named && random_chance(&scribe->random, 75)) add_word(scribe, scribe->desk->names[symbol]);
    else add_number(scribe, symbol);
}

/* Adds a literal. */
void add_literal(Scribe *scribe, int literal) {
    char word[WORD_ROOM];
    add_symbol(scribe, (unsigned)(literal < 0 ? -literal : literal));
    if (literal > 0 || scribe->words == MOST_WORDS) return;
    snprintf(word, sizeof word, "-%.*s", WORD_ROOM - 2, scribe->word[scribe->words - 1]);
    strcpy(scribe->word[scribe->words - 1], word);
}

/* Writes one byte of a line, if there is room; a line has no line feed inside. */
void put_byte(Scribe *scribe, unsigned byte) {
    if (scribe->length < LINE_ROOM && byte != '\n') scribe->bytes[scribe->length++] = (uint8_t)byte;
}

/* Writes the bytes of a text. */
void put_text(Scribe *scribe, const char *text) {
    for (; *text != 0; text++) put_byte(scribe, (uint8_t)*text);
}

/* Writes blanks: as few as may be, or now and then more. */
void put_blanks(Scribe *scribe, unsigned least) {
    unsigned more = random_chance(&scribe->random, scribe->blanks) ? random_between(&scribe->random, 1, 4) : 0;
    for (unsigned n = least + more; n > 0; n--) put_byte(scribe, ' ');
}

/* Makes bytes of the words. */
void join_words(Scribe *scribe) {
    scribe->length = 0;
    for (unsigned i = 0; i < scribe->words; i++) {
        put_blanks(scribe, i > 0);
        put_text(scribe, scribe->word[i]);
    }
    put_blanks(scribe, 0);
}

/* Writes the line with its end, and gives it to the desk. The last line of an input may do without a line feed; a line of no bytes is then none. */
void give_line(Scribe *scribe, bool last) {
    if (random_chance(&scribe->random, scribe->length == LONGEST_LINE ? 25 : 4)) put_byte(scribe, '\r');
    if (last && scribe->length == 0) put_byte(scribe, '#');
    fwrite(scribe->bytes, 1, scribe->length, scribe->in);
    if (!last) putc('\n', scribe->in);
    desk_line(scribe->desk, scribe->bytes, scribe->length);
}
