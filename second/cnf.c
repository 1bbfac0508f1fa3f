/* The program cnf over the model: a text on a board of its header's variables with 2,048 rows, its rows written back, or one line that says why
 * not. And random texts for it. */
#include "cnf.h"

#include <stdio.h>

#include "cover.h"
#include "folder.h"
#include "texts.h"

enum { WHOLE_FROM = 100 };

static const unsigned can_say[] = {0, 2, 7, 8, 9, 15};
static unsigned long said[NUMBERS];

/* Says why a text is refused; for 2 the number is the header's variables, for the others that of the first clause at fault. */
static void say(FILE *err, unsigned refusal, unsigned number) {
    switch (refusal) {
    case 2: fprintf(err, "cnf: refused 2: the header counts %u variables, and a board has 1 to 200\n", number); break;
    case 7: fprintf(err, "cnf: refused 7: clause %u has more than 8 different symbols\n", number); break;
    case 8: fprintf(err, "cnf: refused 8: clause %u has no literal\n", number); break;
    case 9: fprintf(err, "cnf: refused 9: clause %u needs a row more than the 2048 there are\n", number); break;
    default:
        fprintf(err, "cnf: refused 15: the text breaks the form, has not the header's number of clauses, or has a literal beyond its variables\n");
    }
}

/* Writes what the program has to write to standard output and to standard error. */
static void expect(const uint8_t *text, size_t bytes, FILE *out, FILE *err) {
    static int16_t table[MOST_ROWS * WIDTH], record[RECORD_NUMBERS];
    static char rows[MOST_TEXT + 1];
    Form form = {0};
    Board board;
    bool header = text_has_header(text, bytes, &form);
    Outcome opened = model_open(&board, record, form.variables);
    Outcome outcome = {.refusal = !header ? 15 : opened.refusal};
    if (outcome.refusal == 0) outcome = model_read(&board, table, MOST_ROWS * WIDTH, text, bytes);
    said[outcome.refusal]++;
    if (outcome.refusal != 0) say(err, outcome.refusal, outcome.refusal == 2 ? form.variables : outcome.clauses + 1);
    else fwrite(rows, 1, text_of_rows(&board, table, rows), out);
}

/* Writes a text of so many rows, all alike. */
static void write_full(Page *page, unsigned rows) {
    page->length = (size_t)sprintf((char *)page->bytes, "p cnf 9 %u\n", rows);
    for (unsigned r = 0; r < rows; r++) page->length += (size_t)sprintf((char *)page->bytes + page->length, "9 -8 0\n");
    page->given = page->length;
}

/* Draws a text: the first two have 2,048 rows and one more; others a few clauses or many, some at fault, some damaged. */
static void draw_text(Page *page, uint64_t n) {
    static bool leaning[MOST_SYMBOLS + 1];
    Random *random = page->random;
    page->leaning = leaning;
    page->lean = random_between(random, 50, 100);
    page->symbols = random_between(random, 1, random_chance(random, 60) ? 12 : MOST_SYMBOLS);
    if (n < 2) {
        write_full(page, MOST_ROWS + (unsigned)n);
        return;
    }
    write_text(page, random_between(random, 0, random_chance(random, 90) ? 20 : 600), random_chance(random, 60));
    if (random_chance(random, 25)) spoil_text(page);
}

/* Writes one text, and what is due for it; false where a file can't be written. */
static bool write_one(const char *directory, uint64_t seed, uint64_t n) {
    static Page page;
    Random random = random_for(seed, n);
    FILE *in = open_numbered(directory, n, 3, "in"), *out = open_numbered(directory, n, 3, "out"), *err = open_numbered(directory, n, 3, "err");
    if (in == NULL || out == NULL || err == NULL) return false;
    page.random = &random;
    draw_text(&page, n);
    fwrite(page.bytes, 1, page.given, in);
    expect(page.bytes, page.given, out, err);
    int closed = fclose(in) | fclose(out) | fclose(err);
    return closed == 0;
}

/* Writes the texts; from 100 on, every refusal has to be among them. */
int write_texts(const char *directory, uint64_t seed, uint64_t count) {
    bool whole = true;
    for (uint64_t n = 0; n < count; n++)
        if (!write_one(directory, seed, n)) return 2;
    for (unsigned i = 0; i < sizeof can_say / sizeof can_say[0]; i++) whole &= came_up(said[can_say[i]], "refusal", "cnf", can_say[i]);
    if (count >= WHOLE_FROM && !whole) return 2;
    printf("second: %llu texts written; done %lu", (unsigned long long)count, said[0]);
    for (unsigned i = 1; i < sizeof can_say / sizeof can_say[0]; i++) printf(", refused %u: %lu", can_say[i], said[can_say[i]]);
    printf("\n");
    return 0;
}
