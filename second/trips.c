/* Boards written as text: at every room, read back to the same rows, and texts held against their clauses added one by one as rules. */
#include <stdio.h>
#include <string.h>

#include "cover.h"
#include "texts.h"
#include "texttrials.h"
#include "tries.h"

enum { RULES_TRIED = 200, DRAWN = 3 };

static int16_t rows[MOST_ROWS * WIDTH];
static uint8_t text[MOST_TEXT + 1];

/* Says that a board came out otherwise, with the text last noted. */
static bool wrong(const Play *play, const char *what) {
    return text_wrong(play, what, text, strlen((char *)text));
}

/* Notes the rows in use, as they are, and their text; returns its length. */
static size_t note_board(const Play *play) {
    memcpy(rows, play->ours.table + GUARD, play->board.rows * WIDTH * sizeof rows[0]);
    return text_of_rows(&play->board, play->ours.table + GUARD, (char *)text);
}

/* Notes of each row that it is from a rule of its own, in row order, as a text read onto a new board leaves it. */
static void note_own_rules(unsigned count) {
    for (unsigned r = 0; r < count; r++) rows[WIDTH * r + RULE_PLACE] = (int16_t)(r + 1);
}

/* True if the rows in use are the rows noted, and so many rules are counted, in the library's board and table too. */
static bool rows_noted(const Play *play, unsigned count, unsigned rules) {
    size_t bytes = count * WIDTH * sizeof rows[0];
    return play->board.rows == count && play->library_board.rows == count && play->board.rules == rules && play->library_board.rules == rules &&
           memcmp(play->theirs.table + GUARD, rows, bytes) == 0;
}

/* "Reading what was written onto a new board of equal S gives the same rows, if as many are lent", and by Ticket 8 "reading back gives the same
 * literals", each row from a rule of its own: the library's text of the board in play, read by it over noise. With a number fewer lent the last row
 * no longer fits. A board that is not good has no text. */
bool trip_back(Play *play) {
    unsigned symbols = play->board.symbols, count = play->board.rows;
    if (!board_is_good(&play->board, play->ours.table + GUARD, TABLE_LENDABLE)) return true;
    size_t length = note_board(play);
    note_own_rules(count);
    if (!text_write(play, TABLE_LENDABLE, length) || play->last.written != length) return wrong(play, "writing a board");
    memcpy(text, play->theirs.text + GUARD, length);
    text_noise(play, length);
    bool good = text_open(play, symbols) && text_read(play, text, length, length, WIDTH * count, false) && play->last.refusal == 0 &&
                play->last.clauses == count && rows_noted(play, count, count);
    if (good && count > 0)
        good = text_open(play, symbols) && text_read(play, text, length, length, WIDTH * count - 1, false) && play->last.refusal == 9 &&
               play->last.clauses == count - 1;
    if (good) cover_trip();
    return good || wrong(play, "reading back what was written");
}

/* Writes the board in play at every room from 0 to two bytes more than it needs, or at the rooms near both ends of a long text. */
static bool every_room(Play *play) {
    size_t length = note_board(play);
    bool good = true;
    for (size_t room = 0; room <= length + 2 && good; room++) {
        if (length > 2000 && room == 20) room = length - 2;
        good = text_write(play, WIDTH * play->board.rows, room) && play->last.refusal == (room < length ? 13 : 0) &&
               play->last.written == (room < length ? 0 : length);
    }
    return good || wrong(play, "writing at every room");
}

/* Reads words, or so many rows of them, and writes the board at every room. */
static bool rooms_of(Play *play, unsigned symbols, const char *line, unsigned count) {
    static char words[MOST_TEXT + 1];
    int used = snprintf(words, sizeof words, "p cnf %u %u\n", symbols, count);
    for (unsigned i = 0; i < count; i++) used += snprintf(words + used, sizeof words - (size_t)used, "%s\n", line);
    bool good = text_open(play, symbols) && text_read(play, (uint8_t *)words, (size_t)used, (size_t)used, TABLE_LENDABLE, false) &&
                play->last.refusal == 0;
    return good ? every_room(play) && trip_back(play) : text_wrong(play, "a board to be written", (uint8_t *)words, (size_t)used);
}

/* A page for a board of so many symbols. */
static Page *page_for(Random *random, unsigned symbols) {
    static Page page;
    static const bool leaning[MOST_SYMBOLS + 1];
    page.random = random;
    page.leaning = leaning;
    page.lean = 50;
    page.symbols = symbols;
    return &page;
}

/* Reads a text that is drawn, all of it good. */
static bool read_drawn(Play *play, Page *page, unsigned clauses) {
    write_text(page, clauses, false);
    return (text_open(play, page->symbols) && text_read(play, page->bytes, page->given, page->length, TABLE_LENDABLE, false) &&
            play->last.refusal == 0) || text_wrong(play, "a good text", page->bytes, page->given);
}

/* True if the two sides write alike at every room: no row, counts on both sides of a digit more, drawn rows, and the longest text there is. */
bool rooms_agree(Play *play, uint64_t seed) {
    Random random = random_for(seed, 0x726F6F6D);
    play_start(play, seed, true);
    bool good = rooms_of(play, 1, "", 0) && rooms_of(play, 200, "", 0) && rooms_of(play, 9, "9 -1 0", 9) && rooms_of(play, 10, "-9 10 0", 10) &&
                rooms_of(play, 99, "-99 9 0", 99) && rooms_of(play, 100, "-100 10 99 0", 100) && rooms_of(play, 101, "101 0", 999) &&
                rooms_of(play, 199, "-199 0", 1000) && rooms_of(play, 200, "-193 -194 -195 -196 -197 -198 -199 -200 0", MOST_ROWS);
    for (unsigned i = 0; i < DRAWN; i++)
        good = good && read_drawn(play, page_for(&random, random_between(&random, 1, MOST_SYMBOLS)), 20) && every_room(play) && trip_back(play);
    return good;
}

/* Writes literals as formula bytes, joined by "or" in halves. */
static size_t write_or(uint8_t *bytes, const int *literals, unsigned count) {
    size_t used = 0;
    if (count == 1) {
        if (literals[0] < 0) bytes[used++] = 0x11;
        bytes[used++] = 0x10;
        bytes[used++] = (uint8_t)(literals[0] < 0 ? -literals[0] : literals[0]);
        return used;
    }
    bytes[used++] = 0x13;
    used += write_or(bytes + used, literals, count / 2);
    return used + write_or(bytes + used, literals + count / 2, count - count / 2);
}

/* Adds a clause as a rule, "one of these literals". */
static bool add_as_rule(Play *play, const Clause *clause) {
    uint8_t formula[8 * ROW_LITERALS];
    int literals[PLACES];
    unsigned count = 0;
    for (unsigned p = 0; p < PLACES; p++)
        if (clause->has[p]) literals[count++] = literal_at(p);
    size_t bytes = write_or(formula, literals, count);
    Step step = {.kind = RULE, .formula = formula, .bytes = bytes, .standing = bytes, .numbers = TABLE_LENDABLE};
    return play_step(play, &step) && play->last.refusal == 0;
}

/* "Each clause is added as one rule, in order": the same rows from the same rules, one rule after the other on a new board. */
static bool rules_of_text(Play *play, const Page *page) {
    Form form = {0};
    unsigned count = play->board.rows;
    bool good = text_keeps_form(page->bytes, page->given, &form);
    size_t at = form.body;
    note_board(play);
    text_noise(play, count);
    good = good && text_open(play, page->symbols);
    for (unsigned c = 0; c < form.clauses && good; c++) {
        Clause clause = next_clause(page->bytes, page->given, &at, page->symbols);
        good = add_as_rule(play, &clause);
    }
    if (good && rows_noted(play, count, form.clauses)) return cover_by_rules(), true;
    return text_wrong(play, "a text and its clauses as rules", page->bytes, page->given);
}

/* Draws a text and adds its clauses as rules. */
static bool rules_of_drawn(Play *play, Random *random) {
    Page *page = page_for(random, random_between(random, 1, random_chance(random, 80) ? 14 : MOST_SYMBOLS));
    return read_drawn(play, page, random_below(random, 10)) && rules_of_text(play, page);
}

/* True if texts and their clauses as rules give the same rows. */
bool rules_agree(Play *play, uint64_t seed) {
    return try_drawn(play, seed, 0x72756C65, RULES_TRIED, rules_of_drawn);
}
