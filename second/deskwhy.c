/* The line `why` of desk: rules and premises, as a tree. */
#include "coverdesk.h"
#include "desk.h"

/* A tree being printed: what was derived, and the literals that are not held and were shown in it. */
typedef struct Tree {
    const Desk *desk;
    Findings found;
    bool shown[PLACES];
} Tree;

/* The row's rule: "`rule R, ` and the rule's text as it was typed, from the first word after `rule` to the line's end (of a valve or a pair table
 * from the first word of the line on), or `rule R` alone where the text is not kept". */
static void print_rule(const Desk *desk, unsigned row) {
    unsigned rule = (unsigned)rule_number(desk->table, row);
    fprintf(desk->out, "rule %u", rule);
    if (rule <= KEPT_TEXTS) fprintf(desk->out, ", %s", desk->texts[rule]);
    cover_desk_case(CASE_WHY_NOT_KEPT, rule > KEPT_TEXTS);
    if (rule <= KEPT_TEXTS) cover_desk_told(desk, desk->texts[rule]);
    putc('\n', desk->out);
}

/* A premise: "`LITERAL is held on trial` or `LITERAL is held`". */
static void print_premise(const Desk *desk, int literal) {
    bool trial = is_stacked(desk->record, desk->furnace, literal);
    print_literal(desk, literal);
    cover_desk_case(trial ? CASE_WHY_TRIAL : CASE_WHY_HELD, true);
    fputs(trial ? " is held on trial\n" : " is held\n", desk->out);
}

/* Prints a derived literal so far in, and what stands under it: "two blanks further in, stand the opposites of the row's other literals, in the
 * row's order. Where a literal that is not held was shown before in the same tree, its line ends `: as above` in place of the rule, and nothing
 * stands under it." */
static void print_tree(Tree *tree, int literal, unsigned depth) {
    const Desk *desk = tree->desk;
    unsigned place = place_of(literal);
    fprintf(desk->out, "%*s", (int)(2 * depth), "");
    cover_desk_case(CASE_WHY_DEPTH_4, depth == 4);
    if (premises_of(&desk->board, desk->furnace)[place]) {
        print_premise(desk, literal);
        return;
    }
    print_symbol(desk, literal);
    fprintf(desk->out, " %s, rank %u: ", literal > 0 ? "stands" : "is ruled out", tree->found.rank[place]);
    cover_desk_case(CASE_WHY_AS_ABOVE, tree->shown[place]);
    if (tree->shown[place]) {
        fputs("as above\n", desk->out);
        return;
    }
    tree->shown[place] = true;
    print_rule(desk, tree->found.support[place]);
    const int16_t *row = desk->table + WIDTH * tree->found.support[place];
    for (unsigned i = 0; i < ROW_LITERALS && row[i] != 0; i++)
        if (row[i] != literal) print_tree(tree, -row[i], depth + 1);
}

/* "`why L` is about L where L is derived, else about its opposite where that is, else it is refused with 12." */
void work_why(Order *order) {
    Desk *desk = order->desk;
    int literal;
    if (!take_literal(order, &literal) || !take_end(order)) return;
    unsigned refusal = literal_tests(&desk->board, desk->table, DESK_NUMBERS, desk->furnace, literal);
    if (refusal != 0) {
        refuse(order, refusal);
        return;
    }
    Tree tree = {.desk = desk, .found = propagate(&desk->board, desk->furnace, desk->table)};
    bool itself = derived(&tree.found, place_of(literal)), opposite = derived(&tree.found, place_of(-literal));
    if (!is_done(order, itself || opposite ? 0 : 12)) return;
    cover_desk_case(itself ? CASE_WHY_ITSELF : CASE_WHY_OPPOSITE, true);
    cover_desk_case(CASE_WHY_BOTH, itself && opposite);
    print_tree(&tree, itself ? literal : -literal, 1);
}
