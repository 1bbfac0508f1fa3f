/* The lines of desk that change what a furnace holds: hold, drop, push and pop. */
#include "coverdesk.h"
#include "desk.h"

/* Answers with a literal and what became of it, or with the refusal. */
static void say_done(const Order *order, unsigned refusal, int literal, const char *what) {
    if (!is_done(order, refusal)) return;
    cover_desk_case(CASE_FURNACE_2_CHANGED, order->desk->furnace == 2);
    fputs("  ", order->desk->out);
    print_literal(order->desk, literal);
    fprintf(order->desk->out, " %s\n", what);
}

/* hold "holds a literal", drop "withdraws it", push "holds a literal on trial". */
static Outcome change(Desk *desk, unsigned line, int literal) {
    if (line == L_HOLD) return model_hold(&desk->board, desk->table, DESK_NUMBERS, desk->furnace, literal);
    if (line == L_DROP) return model_withdraw(&desk->board, desk->table, DESK_NUMBERS, desk->record, desk->furnace, literal);
    return model_push(&desk->board, desk->table, DESK_NUMBERS, desk->record, desk->furnace, literal);
}

/* Any of the three. */
void work_literal(Order *order) {
    static const char *const became[] = {[L_HOLD] = "is held", [L_DROP] = "is dropped", [L_PUSH] = "is held on trial"};
    int literal;
    if (!take_literal(order, &literal) || !take_end(order)) return;
    say_done(order, change(order->desk, order->line, literal).refusal, literal, became[order->line]);
}

/* "takes back the last one". */
void work_pop(Order *order) {
    Desk *desk = order->desk;
    if (!take_end(order)) return;
    unsigned count = stack_count(desk->record, desk->furnace);
    int top = count == 0 ? 0 : stacked_at(desk->record, desk->furnace, count - 1);
    Outcome popped = model_pop(&desk->board, desk->table, DESK_NUMBERS, desk->record, desk->furnace);
    say_done(order, popped.refusal, top, "is taken back");
}
