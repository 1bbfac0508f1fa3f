/* What desk prints in more than one place: a line again, symbols, lists, refusals and faults. */
#include "coverdesk.h"
#include "desk.h"

/* The line again, "each byte that does not print as `?`". */
void print_line(const Order *order) {
    for (size_t i = 0; i < order->length; i++) {
        uint8_t byte = order->bytes[i];
        bool prints = byte >= ' ' && byte <= '~';
        cover_desk_case(byte < ' ' ? CASE_LOW_BYTE_SHOWN : CASE_HIGH_BYTE_SHOWN, !prints);
        putc(prints ? byte : '?', order->desk->out);
    }
    putc('\n', order->desk->out);
}

/* "A symbol is shown by its name, or by its number where it has none". */
void print_symbol(const Desk *desk, int literal) {
    int symbol = literal < 0 ? -literal : literal;
    if (desk->names[symbol][0] != 0) fputs(desk->names[symbol], desk->out);
    else fprintf(desk->out, "%d", symbol);
}

/* "a literal -s with `-` before it". */
void print_literal(const Desk *desk, int literal) {
    if (literal < 0) putc('-', desk->out);
    print_symbol(desk, literal);
}

/* Literals with something between. */
void print_list(const Desk *desk, const int16_t *literals, unsigned count, const char *between) {
    for (unsigned i = 0; i < count; i++) {
        if (i > 0) fputs(between, desk->out);
        print_literal(desk, literals[i]);
    }
}

/* Lists the literals of the board that are marked: "Symbols are in rising order, of a symbol +s before -s". Returns how many. */
unsigned list_marked(const Desk *desk, const uint8_t *marks, int16_t *literals) {
    unsigned count = 0;
    for (unsigned p = 0; p < 2 * desk->board.symbols; p++)
        if (marks[p]) literals[count++] = (int16_t)literal_at(p);
    return count;
}

/* "the line again (where `echo` is on it stands there already)"; "and under it `^` in the column of the place, a blank", and the sentence. */
void show_place(const Order *order, size_t place, const char *what, const char *sentence) {
    if (!order->desk->echo) print_line(order);
    cover_desk_case(CASE_PLACE_ECHOED, order->desk->echo);
    cover_desk_case(CASE_PLACE_0, place == 0);
    cover_desk_case(CASE_PLACE_100, place >= 100);
    for (size_t i = 0; i < place; i++) putc(' ', order->desk->out);
    fprintf(order->desk->out, "^ %s: %s\n", what, sentence);
}

/* The sentence of 12, by the line. */
static const char *nothing_to_show(unsigned line) {
    if (line == L_WHY) return "neither it nor its opposite is derived";
    return line == L_GROUND ? "it is not derived" : "there is no conflict";
}

/* The sentence of a refusal; 15 has its own, by the place. */
static const char *refusal_sentence(unsigned line, unsigned refusal) {
    switch (refusal) {
    case 1: return "no board is open";
    case 2: return line == L_OPEN ? "a board has 1 to 200 symbols" : "no symbol of the board has this number";
    case 5: return "an operand stands deeper than 16";
    case 7: return "more than 8 different symbols";
    case 8: return "nothing satisfies it";
    case 9: return "no room for its rows";
    case 10: return "it is held already";
    case 11: return line == L_LEAST ? "not all of these are held" : "it is not held";
    case 12: return nothing_to_show(line);
    case 16: return "the furnaces are 1 and 2";
    case 17: return "at most 12 readings, each once";
    case 18: return "the conflict stays without all of these";
    case 19: return "a valve has 2 to 7 positions, and shares none";
    case 20: return "nothing is on trial";
    default: return "it is on trial: pop takes it back";
    }
}

/* "A call's refusal is a line `  refused N: ` and a sentence." */
void refuse(const Order *order, unsigned refusal) {
    cover_desk_answer(order->line, refusal);
    fprintf(order->desk->out, "  refused %u: %s\n", refusal, refusal_sentence(order->line, refusal));
}

/* Answers with the refusal where there is one, and else counts the line as done; true if it is. */
bool is_done(const Order *order, unsigned refusal) {
    if (refusal != 0) refuse(order, refusal);
    else cover_desk_answer(order->line, 0);
    return refusal == 0;
}

/* "A line that is no call as it stands is not taken. The line and the place are shown in the same way, the place being that of the word at fault, or
 * the line's end, behind its blanks, where a word is missing". False, so that the caller can return it. */
bool not_taken(const Order *order, Word word, unsigned fault) {
    static const char *const sentences[FAULTS] = {
        "no line begins with this word; help lists those that do",
        "a number is due here",
        "a symbol is due here, by its number or its name",
        "no symbol has this name",
        "a name is due here: 3 to 24 letters, digits and _, a letter first",
        "another symbol has this name",
        "marks are due here, 0 or 1: a word for each position of the first valve, a mark for each of the second",
        "on or off is due here",
        "nothing more is due here"};
    cover_desk_fault(order->line, fault, word.length == 0);
    show_place(order, word.place, "not taken", sentences[fault]);
    return false;
}
