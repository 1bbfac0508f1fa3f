/* Drawing the steps of a sequence that read and write texts. */
#include "drawtext.h"

#include "texts.h"

/* The bytes that the board's rows need as text; of a board that is not good, some. */
size_t text_needed(const Play *play) {
    static char text[MOST_TEXT + 1];
    if (!board_is_good(&play->board, play->ours.table + GUARD, TABLE_LENDABLE)) return 40;
    return text_of_rows(&play->board, play->ours.table + GUARD, text);
}

/* A page for this sequence. */
static Page *start_page(Draft *draft, const Play *play) {
    static Page page;
    unsigned symbols = play->board.symbols;
    page.random = &draft->random;
    page.leaning = draft->leaning;
    page.lean = draft->lean;
    page.symbols = symbols >= 1 && symbols <= MOST_SYMBOLS ? symbols : draft->symbols;
    return &page;
}

/* Clauses for a text: none, a few, or about as many as there are free rows, or rules left where these are few. */
static unsigned draw_clauses(Draft *draft, const Play *play, size_t numbers) {
    Random *random = &draft->random;
    size_t lent = rows_lent(numbers), rows = play->board.rows;
    unsigned left = MOST_RULES - (play->board.rules < MOST_RULES ? play->board.rules : MOST_RULES);
    if (left < 5 && random_chance(random, 80)) return left + random_below(random, 3);
    if (rows <= lent && lent - rows < 60 && random_chance(random, 50)) return (unsigned)(lent - rows) + random_below(random, 6);
    return random_chance(random, 5) ? 0 : random_between(random, 1, random_chance(random, 90) ? 12 : 60);
}

/* Writes a text to be read, now and then at fault, and more often where there is one rule left at most, or damaged; sometimes with just the rows lent
 * that it has clauses. */
void draw_read(Draft *draft, const Play *play, Step *step) {
    Random *random = &draft->random;
    Page *page = start_page(draft, play);
    unsigned clauses = draw_clauses(draft, play, step->numbers);
    bool faulty = random_chance(random, play->board.rules + 1 >= MOST_RULES ? 70 : 30);
    write_text(page, clauses, faulty);
    step->torn = random_chance(random, 25);
    if (step->torn) spoil_text(page);
    step->faults += faulty + step->torn;
    step->text = keep_bytes(draft, step, page->bytes, page->length, page->given);
    size_t numbers = WIDTH * (play->board.rows + clauses);
    if (step->kind == READ && random_chance(random, 20) && numbers > 0 && numbers <= WIDTH * MOST_ROWS)
        step->numbers = random_chance(random, 50) ? numbers - 1 : numbers + random_below(random, WIDTH);
}

/* Adds a reading of so many clauses. */
void add_reading(Draft *draft, const Play *play, unsigned clauses) {
    Page *page = start_page(draft, play);
    write_text(page, clauses, false);
    Step *step = add_step(draft, READ);
    step->text = keep_bytes(draft, step, page->bytes, page->length, page->given);
}
