/* The lines of desk that tell what stands, and what is in the table: ask, ground, marks, blame, rows and cnf. */
#include "coverdesk.h"
#include "desk.h"

/* "how a literal stands", by its own symbol as Ticket 11 has it. */
void work_ask(Order *order) {
    static const char *const standings[] = {
        [IS_OPEN] = "is open", [STANDS] = "stands", [RULED_OUT] = "is ruled out", [IN_CONFLICT] = "is in conflict"};
    Desk *desk = order->desk;
    int literal;
    if (!take_literal(order, &literal) || !take_end(order)) return;
    Outcome asked = model_ask(&desk->board, desk->table, DESK_NUMBERS, desk->furnace, literal);
    if (!is_done(order, asked.refusal)) return;
    cover_desk_standing(literal, asked.standing);
    fputs("  ", desk->out);
    print_literal(desk, literal);
    fprintf(desk->out, " %s\n", standings[asked.standing]);
}

/* A list of premises, or that there is none among them. */
static void print_premises(const Desk *desk, const uint8_t *marks) {
    int16_t literals[PLACES];
    unsigned count = list_marked(desk, marks, literals);
    if (count == 0) fputs("the rules alone", desk->out);
    else print_list(desk, literals, count, ", ");
    cover_desk_case(CASE_RULES_ALONE, count == 0);
    cover_desk_case(CASE_PREMISES_3, count > 2);
    putc('\n', desk->out);
}

/* "the premises that it stands on". */
void work_ground(Order *order) {
    Desk *desk = order->desk;
    uint8_t marks[PLACES];
    int literal;
    if (!take_literal(order, &literal) || !take_end(order)) return;
    Outcome told = model_ground(&desk->board, desk->table, DESK_NUMBERS, desk->furnace, literal, marks, PLACES);
    if (!is_done(order, told.refusal)) return;
    fputs("  ", desk->out);
    print_literal(desk, literal);
    fputs(" stands on ", desk->out);
    print_premises(desk, marks);
}

/* "the premises to blame for a conflict". */
void work_blame(Order *order) {
    Desk *desk = order->desk;
    uint8_t marks[PLACES];
    if (!take_end(order)) return;
    Outcome told = model_blame(&desk->board, desk->table, DESK_NUMBERS, desk->furnace, marks, PLACES);
    if (!is_done(order, told.refusal)) return;
    fputs("  to blame: ", desk->out);
    print_premises(desk, marks);
}

/* One line of `marks`: `SYMBOL stands` for +s, `SYMBOL is ruled out` for -s, "then `, held on trial` where it is on the furnace's stack, `, held`
 * where it is held otherwise, `, rank K` where it is not held; then `, in conflict` where its opposite is derived too". */
static void print_mark(const Desk *desk, const Findings *found, int literal) {
    bool held = premises_of(&desk->board, desk->furnace)[place_of(literal)], conflict = derived(found, place_of(-literal));
    fputs("  ", desk->out);
    print_symbol(desk, literal);
    fputs(literal > 0 ? " stands" : " is ruled out", desk->out);
    if (!held) fprintf(desk->out, ", rank %u", found->rank[place_of(literal)]);
    else fputs(is_stacked(desk->record, desk->furnace, literal) ? ", held on trial" : ", held", desk->out);
    if (conflict) fputs(", in conflict", desk->out);
    cover_desk_mark(desk, found, literal);
    putc('\n', desk->out);
}

/* "all that stands and all that is ruled out". */
void work_marks(Order *order) {
    Desk *desk = order->desk;
    if (!take_end(order)) return;
    unsigned refusal = furnace_tests(&desk->board, desk->table, DESK_NUMBERS, desk->furnace), shown = 0;
    if (!is_done(order, refusal)) return;
    Findings found = propagate(&desk->board, desk->furnace, desk->table);
    for (unsigned p = 0; p < 2 * desk->board.symbols; p++) {
        if (!derived(&found, p)) continue;
        print_mark(desk, &found, literal_at(p));
        shown++;
    }
    cover_desk_case(CASE_NO_MARK, shown == 0);
    if (shown == 0) fputs("  nothing stands, nothing is ruled out\n", desk->out);
}

/* "a line for each row: `row N, rule R: ` and its literals, ` | ` between; where there is none, `no row`". Rows count from 0, as in document 01. */
void work_rows(Order *order) {
    Desk *desk = order->desk;
    if (!take_end(order)) return;
    if (!is_done(order, board_is_good(&desk->board, desk->table, DESK_NUMBERS) ? 0 : 1)) return;
    cover_desk_case(CASE_NO_ROW, desk->board.rows == 0);
    if (desk->board.rows == 0) fputs("  no row\n", desk->out);
    for (unsigned r = 0; r < desk->board.rows; r++) {
        const int16_t *row = desk->table + WIDTH * r;
        unsigned count = 1;
        while (count < ROW_LITERALS && row[count] != 0) count++;
        fprintf(desk->out, "  row %u, rule %d: ", r, rule_number(desk->table, r));
        print_list(desk, row, count, " | ");
        putc('\n', desk->out);
    }
}

/* "the text that the call writes", which is Ticket 2's: two blanks stand ahead of the lines of every answer "but for `cnf`'s". */
void work_cnf(Order *order) {
    static uint8_t text[MOST_TEXT + 1];
    Desk *desk = order->desk;
    if (!take_end(order)) return;
    Outcome written = model_write(&desk->board, desk->table, DESK_NUMBERS, text, sizeof text);
    if (!is_done(order, written.refusal)) return;
    cover_desk_case(CASE_CNF_NO_ROW, desk->board.rows == 0);
    fwrite(text, 1, written.written, desk->out);
}
