/* The lines of desk that add rules: rule, valve and pairs; the names in a rule's text, its places, and the texts that are kept. */
#include <string.h>

#include "coverdesk.h"
#include "desk.h"

/* ---- Texts that are kept ---- */

/* Keeps the line from a place on as the text of a rule. */
static void keep_text(Order *order, size_t from, unsigned rule) {
    if (rule > KEPT_TEXTS) return;
    size_t length = order->length - from;
    memcpy(order->desk->texts[rule], order->bytes + from, length);
    order->desk->texts[rule][length] = 0;
}

/* "then, where R is above 2048, the line `the text of a rule above 2048 is not kept`". */
static void say_not_kept(const Order *order, unsigned last) {
    if (last > KEPT_TEXTS) fputs("  the text of a rule above 2048 is not kept\n", order->desk->out);
}

/* Answers with the number of the rule that was added last, and its rows. */
static void say_rule(const Order *order, unsigned added) {
    unsigned rule = order->desk->board.rules;
    cover_desk_rule(order, added);
    if (added == 0) fprintf(order->desk->out, "  rule %u: no row, always true\n", rule);
    else fprintf(order->desk->out, "  rule %u: %u row%s\n", rule, added, added == 1 ? "" : "s");
    say_not_kept(order, rule);
}

/* Where the first word from a place on starts, or the line's end. */
static size_t past_blanks(const Order *order, size_t at) {
    while (at < order->length && order->bytes[at] == ' ') at++;
    return at;
}

/* ---- rule ---- */

/* "the symbol's number with zeros before it, as many digits as the name has bytes". */
static void write_as_wide(uint8_t *out, size_t width, unsigned symbol) {
    for (size_t i = width; i > 0; symbol /= 10) out[--i] = (uint8_t)('0' + symbol % 10);
}

/* "Each run of letters, digits and `_` in the text that is a name of a symbol is replaced ..; every other byte stays." */
static void number_names(const Order *order, const uint8_t *text, size_t length, uint8_t *read) {
    memcpy(read, text, length);
    for (size_t from = 0, end; from < length; from = end + 1) {
        for (end = from; end < length && is_name_byte(text[end]);) end++;
        unsigned symbol = symbol_named(order->desk, text + from, end - from);
        if (symbol != 0) write_as_wide(read + from, end - from, symbol);
        cover_desk_run(order->desk, text + from, end - from, symbol);
    }
}

/* The sentence of 15, by the byte at its place in the text as it is read, where names are numbers. */
static const char *text_sentence(const uint8_t *read, size_t length, size_t place) {
    if (place == length) return "the formula ends too soon";
    if (is_letter(read[place])) return "no symbol has this name";
    return read[place] == '(' ? "no bracket may open here" : "no formula goes on like this";
}

/* "For 2 the place is that of the first number in the text that is no symbol of the board." */
static size_t first_no_symbol(const uint8_t *read, size_t length, unsigned symbols) {
    for (size_t from = 0, end; from < length; from = end + 1) {
        unsigned number = 0;
        for (end = from; end < length && read[end] >= '0' && read[end] <= '9';) end++;
        if (number_by(read + from, end - from, &number) && !is_literal((int)number, symbols)) return from;
    }
    return length;
}

/* As is_done, but "For a rule that is refused with 15, or with 2, the place is shown". */
static bool rule_is_done(const Order *order, const uint8_t *read, size_t length, const Outcome *outcome) {
    size_t ahead = order->length - length;
    if (outcome->refusal == 15) {
        cover_desk_text(order, read, length, outcome->place);
        cover_desk_answer(L_RULE, 15);
        show_place(order, ahead + outcome->place, "refused 15", text_sentence(read, length, outcome->place));
    } else if (outcome->refusal == 2) {
        size_t place = first_no_symbol(read, length, order->desk->board.symbols);
        cover_desk_no_symbol(order, ahead + place);
        cover_desk_answer(L_RULE, 2);
        show_place(order, ahead + place, "refused 2", "no symbol of the board has this number");
    } else {
        is_done(order, outcome->refusal);
    }
    return outcome->refusal == 0;
}

/* "adds a rule, in the text form; a symbol may be a name". The text is all that follows the word; what is kept of it, to be told "as it was typed,
 * without the word `rule`", starts with its first byte that is no blank, and has the blanks at its end. */
void work_rule(Order *order) {
    Desk *desk = order->desk;
    uint8_t read[LONGEST_LINE];
    const uint8_t *text = order->bytes + order->at;
    size_t length = order->length - order->at;
    number_names(order, text, length, read);
    Outcome outcome = model_text_rule(&desk->board, desk->table, DESK_NUMBERS, read, length);
    cover_desk_full(desk, outcome.refusal);
    if (!rule_is_done(order, read, length, &outcome)) return;
    keep_text(order, past_blanks(order, order->at), desk->board.rules);
    say_rule(order, outcome.added);
}

/* ---- valve and pairs ---- */

/* "enters a valve of N positions, the symbols from S on". */
void work_valve(Order *order) {
    Desk *desk = order->desk;
    Variable valve;
    if (!take_symbol(order, &valve.first) || !take_number(order, &valve.count) || !take_end(order)) return;
    Outcome outcome = model_positions(&desk->board, desk->table, DESK_NUMBERS, &valve);
    if (!is_done(order, outcome.refusal)) return;
    keep_text(order, past_blanks(order, 0), desk->board.rules);
    say_rule(order, outcome.added);
}

/* True if the word has a mark for each of so many positions; adds the pairs that it allows with position i. */
static bool read_marks(const Order *order, Word word, unsigned i, unsigned positions, uint64_t *pairs) {
    if (word.length != positions) return false;
    for (unsigned j = 0; j < positions; j++) {
        uint8_t mark = order->bytes[word.place + j];
        if (mark != '0' && mark != '1') return false;
        if (mark == '1') *pairs |= UINT64_C(1) << (7 * i + j);
    }
    return true;
}

/* "a word for each position of the first, in it a mark for each position of the second"; where they are not, the place is that "of the first mark's
 * word". */
static bool take_marks(Order *order, const Variable both[2], uint64_t *pairs) {
    Word first = next_word(order), word = first;
    bool good = true;
    for (unsigned i = 0; i < both[0].count; i++, word = next_word(order)) good = good && read_marks(order, word, i, both[1].count, pairs);
    return (good && word.length == 0) || not_taken(order, first, F_MARKS);
}

/* "enters the pair table of two valves": "the marks are tested last", which is of the words: a line whose marks are wrong "is no call as it stands";
 * "where a number of positions is outside 2 to 7 they are not looked at". */
void work_pairs(Order *order) {
    Desk *desk = order->desk;
    Variable both[2];
    uint64_t pairs = 0;
    for (unsigned i = 0; i < 2; i++)
        if (!take_symbol(order, &both[i].first) || !take_number(order, &both[i].count)) return;
    bool marked = variable_has_positions(&both[0]) && variable_has_positions(&both[1]);
    if (marked && !take_marks(order, both, &pairs)) return;
    unsigned first = desk->board.rules + 1;
    Outcome outcome = model_pairs(&desk->board, desk->table, DESK_NUMBERS, both, pairs);
    cover_desk_pairs(both, outcome.refusal);
    if (!is_done(order, outcome.refusal)) return;
    for (unsigned rule = first; rule <= desk->board.rules; rule++) keep_text(order, past_blanks(order, 0), rule);
    cover_desk_case(CASE_PAIRS_NOT_KEPT, desk->board.rules > KEPT_TEXTS);
    cover_desk_case(CASE_PAIRS_SOME_KEPT, desk->board.rules > KEPT_TEXTS && first <= KEPT_TEXTS);
    fprintf(desk->out, "  rules %u to %u: %u rows\n", first, desk->board.rules, outcome.added);
    say_not_kept(order, desk->board.rules);
}
