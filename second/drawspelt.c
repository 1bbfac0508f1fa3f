/* Drawing the steps of a sequence that read and write formula text. */
#include "drawspelt.h"

#include "speller.h"

/* Puts a text that was written into the step; its bytes stay in the pool. */
static void keep_sheet(Draft *draft, Step *step, const Sheet *sheet) {
    step->text = keep_bytes(draft, step, sheet->bytes, sheet->length, sheet->given);
}

/* Makes the step a rule from text, the formula spelt in some way; false where it cannot be spelt. */
bool spell_rule(Draft *draft, Step *step, const Ink *ink) {
    static Sheet sheet;
    start_sheet(&sheet, &draft->random, ink->symbols);
    sheet.beyond = 0;
    if (!spell_formula(&sheet, ink->bytes, ink->given)) return false;
    step->kind = TEXT_RULE;
    keep_sheet(draft, step, &sheet);
    return true;
}

/* Writes the text of a step: the formula spelt in some way, or any bytes where it is none; now and then damaged. */
void draw_spelling(Draft *draft, Step *step, const Ink *ink) {
    static Sheet sheet;
    Random *random = &draft->random;
    start_sheet(&sheet, random, ink->symbols);
    if (random_chance(random, 12) || !spell_formula(&sheet, ink->bytes, ink->given)) write_soup(&sheet);
    step->torn = random_chance(random, 15);
    if (step->torn) spoil_sheet(&sheet);
    step->faults += step->torn;
    keep_sheet(draft, step, &sheet);
}

/* The bytes that a step's text or formula needs where it is written; of one that is refused, some. */
static size_t room_needed(const Play *play, const Step *step) {
    static char text[MOST_SPELLING + 1];
    unsigned symbols = play->board.symbols <= MOST_SYMBOLS ? play->board.symbols : MOST_SYMBOLS;
    if (step->kind == TO_BYTES) {
        Spelt spelt = spelt_by(step->text, step->bytes);
        return spelt.place == NO_PLACE ? spelt.count : 20;
    }
    return formula_breaks(step->formula, step->bytes, symbols).refusal == 0 ? text_of_formula(step->formula, text) : 20;
}

/* Lends the bytes that a step writes: enough, just enough, one short, fewer, or nothing. */
void draw_room(Draft *draft, const Play *play, Step *step) {
    Random *random = &draft->random;
    unsigned sort = random_below(random, 100), needed = (unsigned)room_needed(play, step);
    if (sort < 16) {
        step->faults++;
        step->lent[0] = sort < 3 ? 0 : sort < 10 ? needed - 1 : random_below(random, needed);
    } else {
        step->lent[0] = sort < 50 ? needed : needed + random_below(random, 40);
    }
}
