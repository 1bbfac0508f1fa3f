/* The program desk: a line after the other, what it is by its first word, `echo`, and the end. */
#include "desk.h"

#include <stdlib.h>
#include <string.h>

#include "coverdesk.h"

static const char *const words[LINES] = {"open", "name", "rule", "valve", "pairs", "furnace", "hold", "drop", "push", "pop", "ask", "why", "ground",
                                         "marks", "blame", "least", "sets", "rows", "cnf", "echo", "help", "other"};

/* What `help` prints is not fixed, and no script asks for it; with a word too many it is a line like the others. */
static void work_help(Order *order) {
    if (take_end(order)) abort();
}

static Work *const works[L_OTHER] = {
    work_open, work_name, work_rule, work_valve, work_pairs, work_furnace, work_literal, work_literal, work_literal, work_pop, work_ask, work_why,
    work_ground, work_marks, work_blame, work_least, work_sets, work_rows, work_cnf, work_echo, work_help};

/* The first word of such a line. */
const char *line_word(unsigned line) {
    return words[line];
}

/* Before the first line: no board, no name, `echo` off. Furnace 1 is worked, as after an open. */
void desk_start(Desk *desk, FILE *out) {
    memset(desk, 0, sizeof *desk);
    desk->out = out;
    desk->furnace = 1;
}

/* What the line is. */
static unsigned line_by(const Order *order, Word first) {
    unsigned line = L_OPEN;
    while (line < L_OTHER && !word_is(order, first, words[line])) line++;
    return line;
}

/* Answers a line. "A line without a word and a line whose first word begins with `#` are taken, and nothing is answered." */
static void answer(Order *order) {
    Word first = next_word(order);
    cover_desk_read(order, first);
    if (first.length == 0 || order->bytes[first.place] == '#') return;
    order->line = line_by(order, first);
    if (order->line == L_OTHER) not_taken(order, first, F_FIRST);
    else works[order->line](order);
}

/* Reads a line without its line feed. "A carriage return at a line's end is left out. A line has at most 500 bytes without these." One with more is
 * "not shown again, by `echo` neither"; every other one is, also where nothing is answered: "prints each line that follows ahead of its answer,
 * comments and blank lines too". */
void desk_line(Desk *desk, const uint8_t *raw, size_t length) {
    desk->lines++;
    bool returned = length > 0 && raw[length - 1] == '\r';
    if (returned) length--;
    cover_desk_length(desk, length, returned);
    if (length > LONGEST_LINE) {
        fprintf(desk->out, "  not taken: line %lu has more than 500 bytes\n", desk->lines);
        return;
    }
    Order order = {.desk = desk, .line = L_OTHER, .bytes = raw, .length = length};
    if (desk->echo) print_line(&order);
    answer(&order);
}

/* "Where the input ends, the last line is `N lines read`". */
void desk_end(Desk *desk) {
    fprintf(desk->out, "%lu lines read\n", desk->lines);
}
