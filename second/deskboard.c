/* The lines of desk about the board as a whole: open, name, furnace and echo. */
#include <string.h>

#include "coverdesk.h"
#include "desk.h"

/* "opens a board of N symbols; names are forgotten, and furnace 1 is worked. A refused open leaves the board that there is". */
void work_open(Order *order) {
    Desk *desk = order->desk;
    Board board;
    unsigned symbols;
    if (!take_number(order, &symbols) || !take_end(order)) return;
    cover_desk_open(desk, symbols);
    Outcome opened = model_open(&board, desk->record, symbols);
    if (!is_done(order, opened.refusal)) return;
    desk->board = board;
    desk->furnace = 1;
    memset(desk->names, 0, sizeof desk->names);
    fprintf(desk->out, "  board of %u symbols\n", symbols);
}

/* Gives the symbol its name, "in place of the one that it had". */
static void give_name(Desk *desk, unsigned symbol, const uint8_t *bytes, size_t length) {
    memcpy(desk->names[symbol], bytes, length);
    desk->names[symbol][length] = 0;
    cover_desk_answer(L_NAME, 0);
    fprintf(desk->out, "  %s is symbol %u\n", desk->names[symbol], symbol);
}

/* "the first words are tested for their form, then that there is no word too many, then 1 and 2, then whether the name is another symbol's". */
void work_name(Order *order) {
    Desk *desk = order->desk;
    unsigned symbol;
    Word name;
    if (!take_symbol(order, &symbol) || !take_name(order, &name) || !take_end(order)) return;
    if (desk->board.symbols == 0) {
        refuse(order, 1);
    } else if (!is_literal((int)symbol, desk->board.symbols)) {
        refuse(order, 2);
    } else {
        const uint8_t *bytes = order->bytes + name.place;
        unsigned owner = symbol_named(desk, bytes, name.length);
        cover_desk_name(desk, symbol, owner, bytes, name.length);
        if (owner != 0 && owner != symbol) not_taken(order, name, F_TAKEN);
        else give_name(desk, symbol, bytes, name.length);
    }
}

/* "works furnace N, 1 or 2, from here on"; of refusals it has 16 only, so that no board need be open. */
void work_furnace(Order *order) {
    unsigned furnace;
    if (!take_number(order, &furnace) || !take_end(order)) return;
    if (!is_done(order, is_furnace(furnace) ? 0 : 16)) return;
    cover_desk_case(CASE_FURNACE_NO_BOARD, order->desk->board.symbols == 0);
    order->desk->furnace = furnace;
    fprintf(order->desk->out, "  furnace %u\n", furnace);
}

/* "prints each line that follows ahead of its answer, .. or no longer": the line itself by what was said before it. */
void work_echo(Order *order) {
    Desk *desk = order->desk;
    Word word = next_word(order);
    bool on = word_is(order, word, "on");
    if (!on && !word_is(order, word, "off")) {
        not_taken(order, word, F_ON_OFF);
        return;
    }
    if (!take_end(order)) return;
    cover_desk_answer(L_ECHO, 0);
    cover_desk_case(on ? CASE_ECHO_ON : CASE_ECHO_OFF, true);
    cover_desk_case(CASE_ECHO_AGAIN, on == desk->echo);
    desk->echo = on;
    fprintf(desk->out, "  echo %s\n", on ? "on" : "off");
}
