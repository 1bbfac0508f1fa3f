/* Random DIMACS texts: clauses of every sort, spelt tidily or oddly, at fault or not; and texts damaged in one place. */
#include "texts.h"

#include <stdio.h>
#include <string.h>

/* Sorts of clauses; the last three are at fault. */
enum { PLAIN, EIGHT, REPEATING, ALWAYS_TRUE, LONG, GOOD_CLAUSES, MANY = GOOD_CLAUSES, EMPTY, BEYOND, CLAUSE_SORTS };

static const unsigned good_weights[GOOD_CLAUSES] = {[PLAIN] = 70, [EIGHT] = 6, [REPEATING] = 10, [ALWAYS_TRUE] = 10, [LONG] = 2};

/* The bytes that damage a text: those that have a meaning somewhere, and some that never have. */
static const uint8_t odd[] = {' ', '\n', '\t', '\r', '-', '0', '1', '9', 'c', 'p', 0x00, 0xFF, '+'};

/* Hands them out. */
const uint8_t *odd_bytes(unsigned *count) {
    *count = sizeof odd;
    return odd;
}

/* ---- Clauses ---- */

/* Adds a word. */
static void add_word(Page *page, int word) {
    if (page->words < PAGE_WORDS) page->word[page->words++] = word;
}

/* Adds different symbols, or all, with signs: all but one lean to be false, as in an implication. */
static void add_literals(Page *page, unsigned count) {
    Random *random = page->random;
    unsigned symbols[MOST_SYMBOLS], all = page->symbols;
    for (unsigned i = 0; i < all; i++) symbols[i] = i + 1;
    if (count > all) count = all;
    unsigned head = random_below(random, count);
    for (unsigned i = 0; i < count; i++) {
        unsigned j = i + random_below(random, all - i), symbol = symbols[j];
        symbols[j] = symbols[i];
        bool plus = page->leaning[symbol] == random_chance(random, page->lean);
        add_word(page, plus == (i == head) ? (int)symbol : -(int)symbol);
    }
}

/* Adds words of the clause that began at `from` once more, with the same sign or with any. */
static void repeat_words(Page *page, size_t from, unsigned count, bool any_sign) {
    size_t so_far = page->words - from;
    for (unsigned i = 0; i < count && so_far > 0; i++) {
        int word = page->word[from + random_below(page->random, (unsigned)so_far)];
        add_word(page, any_sign && random_chance(page->random, 50) ? -word : word);
    }
}

/* Changes places among the words of the clause that began at `from`. */
static void shuffle_words(Page *page, size_t from) {
    for (size_t i = page->words; i > from + 1; i--) {
        size_t j = from + random_below(page->random, (unsigned)(i - from));
        int word = page->word[i - 1];
        page->word[i - 1] = page->word[j];
        page->word[j] = word;
    }
}

/* A literal beyond S: the next one, the largest, or any. */
static int literal_beyond(Page *page) {
    unsigned sort = random_below(page->random, 3), next = page->symbols + 1;
    int symbol = (int)(sort == 0 ? next : sort == 1 ? 32767 : random_between(page->random, next, 32767));
    return random_chance(page->random, 50) ? symbol : -symbol;
}

/* Adds a clause of a sort and its 0. */
static void add_clause(Page *page, unsigned sort) {
    Random *random = page->random;
    size_t from = page->words;
    switch (sort) {
    case PLAIN: add_literals(page, random_between(random, 1, 4)); break;
    case EIGHT: add_literals(page, random_between(random, 7, 8)); break;
    case REPEATING: add_literals(page, random_between(random, 1, 8)), repeat_words(page, from, random_between(random, 1, 6), false); break;
    case ALWAYS_TRUE:
        add_literals(page, random_between(random, 1, 8));
        add_word(page, -page->word[from]);
        repeat_words(page, from, random_below(random, 4), true);
        break;
    case LONG: add_literals(page, 8), repeat_words(page, from, 60, random_chance(random, 30)); break;
    case MANY: add_literals(page, random_between(random, 9, 14)), repeat_words(page, from, random_below(random, 3), true); break;
    case BEYOND:
        add_literals(page, random_chance(random, 30) ? 9 : random_between(random, 1, 8));
        add_word(page, literal_beyond(page));
        break;
    default: break;
    }
    shuffle_words(page, from);
    add_word(page, 0);
    page->clauses++;
}

/* ---- Spelling ---- */

/* Writes one byte, if there is room. */
static void put(Page *page, unsigned byte) {
    if (page->length < PAGE) page->bytes[page->length++] = (uint8_t)byte;
}

/* Writes bytes that can be seen. */
static void put_words(Page *page, const char *words) {
    while (*words != 0) put(page, (uint8_t)*words++);
}

/* True where the spelling is odd. */
static bool oddly(Page *page) {
    return random_chance(page->random, page->odd);
}

/* Writes so many blanks, or a few more. */
static void put_blanks(Page *page, unsigned least) {
    for (unsigned i = least + (oddly(page) ? random_below(page->random, 4) : 0); i > 0; i--) put(page, ' ');
}

/* Writes a number, oddly with leading zeros: few, or a thousand. */
static void put_number(Page *page, int number) {
    char digits[12];
    unsigned zeros = oddly(page) && random_chance(page->random, 30) ? random_between(page->random, 1, 6) : 0;
    if (zeros == 6 && random_chance(page->random, 10)) zeros = 1000;
    if (number < 0) put(page, '-');
    while (zeros-- > 0) put(page, '0');
    snprintf(digits, sizeof digits, "%d", number < 0 ? -number : number);
    put_words(page, digits);
}

/* Writes a comment line: none of its bytes matters. */
static void put_comment(Page *page) {
    static const char *const lines[] = {"c\n", "c p cnf 3 3\n", "cnf 1 0\n", "c 1 -2 0\n", "cc\n", "c \t\r\n"};
    Random *random = page->random;
    if (random_chance(random, 60)) {
        put_words(page, lines[random_below(random, 6)]);
        return;
    }
    put(page, 'c');
    for (unsigned i = random_below(random, random_chance(random, 5) ? 400 : 30); i > 0; i--) {
        unsigned byte = random_below(random, 256);
        put(page, byte == '\n' ? 'c' : byte);
    }
    put(page, '\n');
}

/* The variables of the header: as many as the literals need, S, one more, or many more. */
static int header_variables(Page *page) {
    int most = 0, symbols = (int)page->symbols;
    unsigned sort = random_below(page->random, 100);
    for (size_t i = 0; i < page->words; i++) {
        int symbol = page->word[i] < 0 ? -page->word[i] : page->word[i];
        if (symbol > most) most = symbol;
    }
    if (sort < 20) return most;
    int enough = most > symbols ? most : symbols;
    if (sort < 80 || enough == 32767) return enough;
    return sort < 90 ? enough + 1 : (int)random_between(page->random, (unsigned)enough, 32767);
}

/* Writes what sets words apart: a blank or, after a 0, a line feed; oddly a few of both. */
static void put_gap(Page *page, int after) {
    put(page, oddly(page) ? (random_chance(page->random, 50) ? '\n' : ' ') : after == 0 ? '\n' : ' ');
    while (oddly(page) && random_chance(page->random, 60)) put(page, random_chance(page->random, 40) ? '\n' : ' ');
}

/* Writes all: comments, header, words. Oddly the text ends without its last line feed. */
static void spell(Page *page) {
    while (oddly(page) && random_chance(page->random, 60)) put_comment(page);
    put_words(page, "p cnf");
    put_blanks(page, 1);
    put_number(page, header_variables(page));
    put_blanks(page, 1);
    put_number(page, (int)page->clauses);
    put_blanks(page, 0);
    put(page, '\n');
    if (oddly(page) && random_chance(page->random, 50)) put_gap(page, 0);
    for (size_t i = 0; i < page->words; i++) {
        put_number(page, page->word[i]);
        put_gap(page, page->word[i]);
    }
    if (random_chance(page->random, 20))
        while (page->bytes[page->length - 1] == '\n' || page->bytes[page->length - 1] == ' ') page->length--;
    page->given = page->length;
}

/* Writes a text of so many clauses that keeps the form; faulty, some clause of it is refused, and now and then more than one. */
void write_text(Page *page, unsigned clauses, bool faulty) {
    Random *random = page->random;
    unsigned fault = faulty && clauses > 0 ? random_below(random, clauses) : clauses;
    page->clauses = 0;
    page->words = page->length = 0;
    page->odd = random_chance(random, 40) ? 0 : random_between(random, 1, 60);
    for (unsigned c = 0; c < clauses && page->words + 100 < PAGE_WORDS; c++) {
        bool at_fault = c == fault || (c > fault && random_chance(random, 10));
        add_clause(page, at_fault ? random_between(random, MANY, BEYOND) : random_weighted(random, good_weights, GOOD_CLAUSES));
    }
    spell(page);
}

/* ---- Damage ---- */

/* Opens a hole of so many bytes. */
static void open_hole(Page *page, size_t at, size_t bytes) {
    if (page->length + bytes > PAGE) return;
    memmove(page->bytes + at + bytes, page->bytes + at, page->length - at);
    page->length += bytes;
}

/* Puts a run of one byte into the text. */
static void insert_run(Page *page, size_t at, size_t bytes, uint8_t byte) {
    if (page->length + bytes > PAGE) return;
    open_hole(page, at, bytes);
    memset(page->bytes + at, byte, bytes);
}

/* The place after the next line feed from `at` on, or the end. */
static size_t next_line(const Page *page, size_t at) {
    while (at < page->length && page->bytes[at] != '\n') at++;
    return at < page->length ? at + 1 : at;
}

/* Puts words after the text, or after some line feed of it. */
static void insert_words(Page *page, size_t at, const char *words) {
    if (page->length + strlen(words) > PAGE) return;
    open_hole(page, at, strlen(words));
    memcpy(page->bytes + at, words, strlen(words));
}

/* Damages a text in one place, often at its front; or cuts it short, with the rest still standing there. */
void spoil_text(Page *page) {
    static const char *const lines[] = {"0\n", "1\n", "c 1\n", "1 0\n", "-0\n", "- 1 0\n", "1-1 0\n", "+1 0\n", "p cnf 1 1\n", "32768 0\n", "%\n0\n"};
    Random *random = page->random;
    bool front = random_chance(random, 40);
    size_t at = random_below(random, (unsigned)(front && page->length > 20 ? 20 : page->length));
    uint8_t byte = odd[random_below(random, sizeof odd)];
    switch (random_below(random, 8)) {
    case 0: page->bytes[at] = byte; break;
    case 1: memmove(page->bytes + at, page->bytes + at + 1, --page->length - at); break;
    case 2: insert_run(page, at, 1, page->bytes[at]); break;
    case 3: insert_run(page, at, 1, byte); break;
    case 4: insert_run(page, at, 1000, random_chance(random, 40) ? '0' : '1' + random_below(random, 9)); break;
    case 5: insert_words(page, page->length, lines[random_below(random, 11)]); break;
    case 6: insert_words(page, next_line(page, at), lines[random_below(random, 11)]); break;
    default: page->given = at; return;
    }
    page->given = page->length;
}
