/* Steps, formulae, boards and outcomes in readable words. */
#include <stdio.h>

#include "steps.h"

static const char *const words[KINDS] = {
    "open", "rule", "add text", "read", "positions", "pairs", "hold", "withdraw", "push", "pop", "settle", "ask", "ask whole", "explain", "ground",
    "blame", "least", "smallest", "write", "to bytes", "to text", "set S", "set rows used", "set rules", "set a held byte", "set a number",
    "set a count", "set a stacked one", "append a row"};

/* The word for a kind of step. */
const char *kind_word(Kind kind) {
    return words[kind];
}

/* Writes a byte place in words: its digits, or "none". */
void place_word(size_t place, char out[PLACE_WORD]) {
    if (place == NO_PLACE) snprintf(out, PLACE_WORD, "none");
    else snprintf(out, PLACE_WORD, "%zu", place);
}

/* Prints the operand at *at in brackets, and ??? where it is no formula. */
static void print_operand(const uint8_t *bytes, size_t length, size_t *at, unsigned depth) {
    static const char *const joints[] = {" and ", " or ", " implies ", " same "};
    if (*at >= length || depth > DEEPEST) {
        printf("???");
        *at = length;
        return;
    }
    uint8_t kind = bytes[(*at)++];
    if (kind == 0x10 && *at < length) {
        printf("%u", bytes[(*at)++]);
    } else if (kind == 0x11) {
        printf("not ");
        print_operand(bytes, length, at, depth + 1);
    } else if (kind >= 0x12 && kind <= 0x15) {
        printf("(");
        print_operand(bytes, length, at, depth + 1);
        printf("%s", joints[kind - 0x12]);
        print_operand(bytes, length, at, depth + 1);
        printf(")");
    } else {
        printf("???");
        *at = length;
    }
}

/* Prints a formula in words and in bytes. */
static void print_formula(const Step *step) {
    size_t at = 0;
    print_operand(step->formula, step->bytes, &at, 1);
    printf("; %zu bytes", step->bytes);
    for (size_t i = 0; i < step->bytes && i < 200; i++) printf(" %02X", step->formula[i]);
    if (step->standing > step->bytes) printf(" (bytes of the caller's go on after them)");
}

/* Prints a text with its line feeds as \\n and other bytes that cannot be seen in hex, and so much of it. */
void print_text(const uint8_t *text, size_t bytes) {
    printf("%zu bytes \"", bytes);
    for (size_t i = 0; i < bytes && i < 600; i++) {
        if (text[i] == '\n') printf("\\n");
        else if (text[i] < ' ' || text[i] > '~') printf("\\x%02X", text[i]);
        else printf("%c", text[i]);
    }
    printf("\"%s", bytes > 600 ? " and so on" : "");
}

/* Prints the furnace or the literal to explain, and the candidates, so many of them. */
static void print_candidates(const Step *step) {
    if (step->kind == LEAST) printf("for furnace %u of %zu candidates", step->furnace, step->bytes);
    else printf("sets for %d of %zu candidates", step->value, step->bytes);
    for (size_t i = 0; i < step->bytes && i < 40; i++) printf(" %d", step->candidates[i]);
    if (step->bytes > 40) printf(" and so on, the last %d", step->candidates[step->bytes - 1]);
    if (step->standing > step->bytes) printf(" (numbers of the caller's go on after them)");
}

/* Prints a position variable, or a pair table's two and its number with the pairs that it allows of their positions. */
static void print_variables(const Step *step) {
    const Variable *its = &step->variables[0], *others = &step->variables[1];
    printf("%u from symbol %u on", its->count, its->first);
    if (step->kind == POSITIONS) return;
    printf(" and %u from symbol %u on, allowed 0x%016llX:", others->count, others->first, (unsigned long long)step->pairs);
    for (unsigned i = 0; i < its->count && i < MOST_POSITIONS; i++)
        for (unsigned j = 0; j < others->count && j < MOST_POSITIONS; j++)
            if (pair_is_allowed(step->pairs, i, j)) printf(" %u with %u", its->first + i, others->first + j);
}

/* Prints the literals of a row. */
static void print_row(const int16_t *row) {
    unsigned last = ROW_LITERALS;
    while (last > 0 && row[last - 1] == 0) last--;
    for (unsigned i = 0; i < last; i++) printf(" %d", row[i]);
    if (last == 0) printf(" (nothing but zeros)");
}

/* Prints what a call other than open is lent. */
static void print_lent(const Step *step) {
    printf("; table of %zu numbers (%zu rows)", step->numbers, rows_lent(step->numbers));
    if (step->kind == SETTLE) printf("; %zu labels, %zu ranks, %zu supports lent", step->lent[0], step->lent[1], step->lent[2]);
    if (step->kind == GROUND || step->kind == BLAME) printf("; %zu marks lent", step->lent[0]);
    if (step->kind == SMALLEST) printf("; %zu places for sets lent", step->lent[0]);
    if (step->kind == WRITE || step->kind == TO_BYTES || step->kind == TO_TEXT) printf("; %zu bytes lent", step->lent[0]);
    if (gives_text(step->kind) && step->standing > step->bytes) printf("; bytes of the caller's go on after the text");
}

/* Prints a step on a line of its own. */
void print_step(const Step *step, size_t ordinal) {
    printf("  %zu. ", ordinal);
    switch (step->kind) {
    case SET_SYMBOLS: printf("the caller sets S to %d", step->value); break;
    case SET_ROWS: printf("the caller sets rows in use to %d", step->value); break;
    case SET_RULES: printf("the caller sets rules counted to %d", step->value); break;
    case SET_HELD: printf("the caller sets furnace %u's held byte of %d to %d", step->furnace, literal_at(step->place), step->value); break;
    case SET_NUMBER: printf("the caller sets row %u, place %u of it, to %d", step->place / WIDTH, step->place % WIDTH, step->value); break;
    case SET_COUNT: printf("the caller sets the count of furnace %u's stack to %d", step->furnace, step->value); break;
    case SET_STACKED: printf("the caller sets place %u of furnace %u's stack to %d", step->place, step->furnace, step->value); break;
    case APPEND_ROW: printf("the caller counts %u rules more, and appends the row", step->rules), print_row(step->row); break;
    case RULE: case TO_TEXT: printf("%s ", words[step->kind]), print_formula(step), print_lent(step); break;
    case READ: case TEXT_RULE: case TO_BYTES: printf("%s ", words[step->kind]), print_text(step->text, step->bytes), print_lent(step); break;
    case POSITIONS: case PAIRS: printf("%s ", words[step->kind]), print_variables(step), print_lent(step); break;
    case OPEN: printf("open %d", step->value); break;
    case WRITE: printf("write"), print_lent(step); break;
    case LEAST: case SMALLEST: printf("%s ", words[step->kind]), print_candidates(step), print_lent(step); break;
    case POP: case SETTLE: case BLAME: printf("%s for furnace %u", words[step->kind], step->furnace), print_lent(step); break;
    default: printf("%s %d for furnace %u", words[step->kind], step->value, step->furnace), print_lent(step);
    }
    printf("\n");
}

/* Prints what a call returned. */
void print_outcome(const char *who, Kind kind, const Outcome *outcome) {
    static const char *const standings[] = {"open", "stands", "ruled out", "conflict"};
    printf("  %s: ", who);
    if (outcome->refusal != 0) printf("refusal %u", outcome->refusal);
    else if (adds_rows(kind)) printf("%u rows added", outcome->added);
    else if (kind == WRITE || kind == TO_BYTES || kind == TO_TEXT) printf("%zu bytes written", outcome->written);
    else if (asks(kind)) printf("%s", outcome->standing < 4 ? standings[outcome->standing] : "no standing");
    else if (kind == SMALLEST) printf("%u sets listed", outcome->listed);
    else if (kind == EXPLAIN) printf("rank %u, row %u of %u literals, rule %u", outcome->rank, outcome->row, outcome->literals, outcome->rule);
    else printf("done");
    if (kind == LEAST) printf(", set %u", outcome->set);
    if (kind == READ) printf(", %u clauses before the fault or the end", outcome->clauses);
    if ((gives_formula(kind) || spells(kind) || gives_variables(kind)) && outcome->place != NO_PLACE) printf(", at byte %zu", outcome->place);
    printf("\n");
}

/* Prints the model's stack of a furnace, its bottom first, and what it says of its count where that is too large. */
static void print_stack(const Play *play, unsigned furnace) {
    const int16_t *record = play->ours.record + GUARD;
    unsigned count = stack_count(record, furnace), shown = count < PLACES ? count : PLACES;
    printf("; on its stack, count %u:", count);
    for (unsigned i = 0; i < shown && i < 40; i++) printf(" %d", stacked_at(record, furnace, i));
    if (shown > 40) printf(" and so on");
}

/* Prints the model's board, both stacks and the rows in use. */
void print_board(const Play *play, size_t numbers) {
    const Board *board = &play->board;
    printf("  board by the model: S %u, rows in use %u, rules %u", board->symbols, board->rows, board->rules);
    for (unsigned f = 1; f <= FURNACES; f++) {
        printf("; held for furnace %u:", f);
        for (unsigned p = 0; p < PLACES; p++)
            if (premises_of(board, f)[p]) printf(" %d", literal_at(p));
        print_stack(play, f);
    }
    printf("\n");
    for (unsigned r = 0; r < board->rows && r < rows_lent(numbers) && r < 40; r++) {
        printf("    row %u, rule %d:", r, rule_number(play->ours.table + GUARD, r));
        print_row(play->ours.table + GUARD + WIDTH * r);
        printf("\n");
    }
}
