/* The nine calls by document 01, a rule's places, blame's symbol and the two furnaces by document 02's Tickets 1, 4 and 6, no limit to the rounds by
 * Ticket 7, the numbers of the rules by Ticket 8, ask by symbol, with its old answer as one call more, by Ticket 11, and the record that open and
 * withdraw are lent by Ticket 14: what each tests, in its order, what it returns and what it writes. */
#include "model.h"

#include <string.h>

/* Ticket 8: "Rows lent is the length divided by 9, still at most 2,048". */
size_t rows_lent(size_t numbers) {
    return numbers / WIDTH < MOST_ROWS ? numbers / WIDTH : MOST_ROWS;
}

/* A furnace's number is 1 or 2. */
bool is_furnace(unsigned number) {
    return number == 1 || number == 2;
}

/* The premises of a furnace. */
const bool *premises_of(const Board *board, unsigned furnace) {
    return board->held[furnace - 1];
}

/* True for a number that is a literal of symbols 1 to S. */
bool is_literal(int number, unsigned symbols) {
    int symbol = number < 0 ? -number : number;
    return symbol >= 1 && symbol <= (int)symbols;
}

/* The literals of a sound row: one to eight with strictly rising symbols, zeros after them. */
static bool literals_are_sound(const int16_t *row, unsigned symbols) {
    unsigned length = 0;
    while (length < ROW_LITERALS && row[length] != 0) length++;
    if (length == 0) return false;
    for (unsigned i = length; i < ROW_LITERALS; i++)
        if (row[i] != 0) return false;
    for (unsigned i = 0; i < length; i++)
        if (!is_literal(row[i], symbols)) return false;
    for (unsigned i = 1; i < length; i++)
        if ((row[i - 1] < 0 ? -row[i - 1] : row[i - 1]) >= (row[i] < 0 ? -row[i] : row[i])) return false;
    return true;
}

/* The number of the rule that a row is from. */
int rule_number(const int16_t *table, unsigned row) {
    return table[WIDTH * row + RULE_PLACE];
}

/* Ticket 8: "A row is sound only if its rule number is from 1 to that count and not below that of the row before". */
static bool number_is_sound(const int16_t *table, unsigned row, unsigned rules) {
    int number = rule_number(table, row);
    if (number < 1 || number > (int)rules) return false;
    return row == 0 || number >= rule_number(table, row - 1);
}

/* True if no premise is of a symbol beyond S. */
static bool premises_are_good(const bool premises[PLACES], unsigned symbols) {
    for (unsigned p = 2 * symbols; p < PLACES; p++)
        if (premises[p]) return false;
    return true;
}

/* The test behind refusal 1: of both furnaces' premises, whichever is named, or none. */
bool board_is_good(const Board *board, const int16_t *table, size_t numbers) {
    if (board->symbols < 1 || board->symbols > MOST_SYMBOLS) return false;
    if (board->rules > MOST_RULES) return false;
    if (board->rows > rows_lent(numbers)) return false;
    for (unsigned r = 0; r < board->rows; r++)
        if (!literals_are_sound(table + WIDTH * r, board->symbols) || !number_is_sound(table, r, board->rules)) return false;
    return premises_are_good(premises_of(board, 1), board->symbols) && premises_are_good(premises_of(board, 2), board->symbols);
}

/* An outcome with a refusal, or with 0 for a call that is done. */
static Outcome outcome(unsigned refusal) {
    return (Outcome){.refusal = refusal};
}

/* The tests 1 and 16 of the calls that name a furnace. */
unsigned furnace_tests(const Board *board, const int16_t *table, size_t numbers, unsigned furnace) {
    if (!board_is_good(board, table, numbers)) return 1;
    return is_furnace(furnace) ? 0 : 16;
}

/* The tests 1, 16 and 2 of those that are given a literal besides. */
unsigned literal_tests(const Board *board, const int16_t *table, size_t numbers, unsigned furnace, int literal) {
    unsigned refusal = furnace_tests(board, table, numbers, furnace);
    if (refusal != 0) return refusal;
    return is_literal(literal, board->symbols) ? 0 : 2;
}

/* Opens a board, with no rules counted and no premises of either furnace; refused, it is the same with S = 0. Ticket 14: "a good open empties the
 * stacks", whatever the record has, and by the C interface it writes 0 in all of it; a refused one leaves it. */
Outcome model_open(Board *board, int16_t *record, unsigned symbols) {
    bool good = symbols >= 1 && symbols <= MOST_SYMBOLS;
    *board = (Board){.symbols = good ? symbols : 0};
    if (good) memset(record, 0, RECORD_NUMBERS * sizeof record[0]);
    return outcome(good ? 0 : 2);
}

/* An outcome of a rule with a refusal, or with 0, and the place where the formula breaks. */
static Outcome rule_outcome(unsigned refusal, size_t place) {
    return (Outcome){.refusal = refusal, .place = place};
}

/* Where a formula breaks: 2 to 6, each with its place. For 6 it is that "of the first byte too many". */
Outcome formula_breaks(const uint8_t *formula, size_t bytes, unsigned symbols) {
    Reading reading = read_formula(formula, bytes, symbols);
    if (reading.refusal != 0) return rule_outcome(reading.refusal, reading.place);
    return reading.used < bytes ? rule_outcome(6, reading.used) : rule_outcome(0, NO_PLACE);
}

/* The refusal of a formula by its bytes alone: 2 to 6, then 7. */
static Outcome formula_tests(const uint8_t *formula, size_t bytes, unsigned symbols) {
    uint8_t different[MOST_SYMBOLS];
    Outcome broken = formula_breaks(formula, bytes, symbols);
    if (broken.refusal != 0) return broken;
    return rule_outcome(different_symbols(formula, bytes, different) > RULE_SYMBOLS ? 7 : 0, NO_PLACE);
}

/* Appends a row, from the rule that was counted last. */
void append_row(Board *board, int16_t *table, const int16_t literals[ROW_LITERALS]) {
    int16_t *row = table + WIDTH * board->rows++;
    memcpy(row, literals, ROW_LITERALS * sizeof row[0]);
    row[RULE_PLACE] = (int16_t)board->rules;
}

/* Counts a rule, with prime implicates or without, and appends them. 9 also when 32,767 rules are counted. */
Outcome model_rule(Board *board, int16_t *table, size_t numbers, const uint8_t *formula, size_t bytes) {
    static int16_t primes[MOST_CLAUSES][ROW_LITERALS];
    if (!board_is_good(board, table, numbers)) return rule_outcome(1, NO_PLACE);
    Outcome tested = formula_tests(formula, bytes, board->symbols);
    if (tested.refusal != 0) return tested;
    Rule rule = rule_of(formula, bytes);
    if (rule.satisfying == 0) return rule_outcome(8, NO_PLACE);
    unsigned count = prime_rows(&rule, primes);
    if (board->rows + count > rows_lent(numbers) || board->rules == MOST_RULES) return rule_outcome(9, NO_PLACE);
    board->rules++;
    for (unsigned i = 0; i < count; i++) append_row(board, table, primes[i]);
    return (Outcome){.added = count, .place = NO_PLACE};
}

/* Puts a literal into the furnace's premises. */
Outcome model_hold(Board *board, const int16_t *table, size_t numbers, unsigned furnace, int literal) {
    unsigned refusal = literal_tests(board, table, numbers, furnace, literal);
    if (refusal != 0) return outcome(refusal);
    if (premises_of(board, furnace)[place_of(literal)]) return outcome(10);
    board->held[furnace - 1][place_of(literal)] = true;
    return outcome(0);
}

/* Takes a literal out of the furnace's premises. Ticket 14: "A stacked premise can't be withdrawn except by pop"; "21 for withdrawing a stacked
 * premise, after 11". */
Outcome model_withdraw(Board *board, const int16_t *table, size_t numbers, const int16_t *record, unsigned furnace, int literal) {
    unsigned refusal = stack_tests(board, table, numbers, record, furnace);
    if (refusal == 0) refusal = literal_tests(board, table, numbers, furnace, literal);
    if (refusal != 0) return outcome(refusal);
    if (!premises_of(board, furnace)[place_of(literal)]) return outcome(11);
    if (is_stacked(record, furnace, literal)) return outcome(21);
    board->held[furnace - 1][place_of(literal)] = false;
    return outcome(0);
}

/* Writes labels, ranks and supports. */
Outcome model_settle(const Board *board, const int16_t *table, size_t numbers, unsigned furnace, uint8_t *labels, size_t label_count,
                     uint16_t *ranks, size_t rank_count, uint16_t *supports, size_t support_count) {
    unsigned refusal = furnace_tests(board, table, numbers, furnace), symbols = board->symbols;
    if (refusal != 0) return outcome(refusal);
    if (label_count < symbols || rank_count < 2 * symbols || support_count < 2 * symbols) return outcome(13);
    Findings found = propagate(board, furnace, table);
    for (unsigned s = 1; s <= symbols; s++) labels[s - 1] = (uint8_t)label_of(&found, s);
    for (unsigned p = 0; p < 2 * symbols; p++) {
        ranks[p] = (uint16_t)found.rank[p];
        supports[p] = (uint16_t)found.support[p];
    }
    return outcome(0);
}

/* What both calls that ask share; they differ in where they answer conflict. Both are refused by document 01's "Order: 1, then 2 for a given
 * literal", with Ticket 6's "16 for a furnace number other than 1 or 2, just after 1" between the two; refused, the standing is IS_OPEN, by the C
 * interface. */
static Outcome answer_for(const Board *board, const int16_t *table, size_t numbers, unsigned furnace, int literal, bool whole) {
    unsigned refusal = literal_tests(board, table, numbers, furnace, literal);
    if (refusal != 0) return outcome(refusal);
    /* Ticket 6: "Every call but open and adding a rule names a furnace"; "From here demands 2 and 3 read the named furnace's premises". */
    Findings found = propagate(board, furnace, table);
    /* Document 01: "The opposite of a literal is its negation". */
    bool itself = derived(&found, place_of(literal)), opposite = derived(&found, place_of(-literal));
    /* The old answer: "conflict, if the board is in conflict", and it is "if some literal and its opposite are both derived". Ticket 11: "conflict
     * only where the literal and its opposite are both derived". */
    bool conflict = whole ? first_conflict(board, &found) != 0 : itself && opposite;
    if (conflict) return (Outcome){.standing = IN_CONFLICT};
    /* "else stands, if derived; ruled out, if the opposite is derived; else open"; in Ticket 11 "otherwise stands, ruled out or open". */
    if (itself) return (Outcome){.standing = STANDS};
    return (Outcome){.standing = opposite ? RULED_OUT : IS_OPEN};
}

/* How a literal stands by its own symbol. Ticket 11: "By default ask shall answer conflict only where the literal and its opposite are both derived;
 * otherwise stands, ruled out or open". */
Outcome model_ask(const Board *board, const int16_t *table, size_t numbers, unsigned furnace, int literal) {
    return answer_for(board, table, numbers, furnace, literal, false);
}

/* How a literal stands by the whole board. Ticket 11: "The old answer stays as a second call". Document 01: "conflict, if the board is in conflict;
 * else stands, if derived; ruled out, if the opposite is derived; else open". */
Outcome model_ask_whole(const Board *board, const int16_t *table, size_t numbers, unsigned furnace, int literal) {
    return answer_for(board, table, numbers, furnace, literal, true);
}

/* Why a derived literal that is not held stands; refused, the rule's number is 0. */
Outcome model_explain(const Board *board, const int16_t *table, size_t numbers, unsigned furnace, int literal) {
    Outcome answer = {.rank = NONE, .row = NONE};
    answer.refusal = literal_tests(board, table, numbers, furnace, literal);
    if (answer.refusal != 0) return answer;
    Findings found = propagate(board, furnace, table);
    unsigned place = place_of(literal);
    if (!derived(&found, place) || premises_of(board, furnace)[place]) {
        answer.refusal = 12;
        return answer;
    }
    answer.rank = found.rank[place];
    answer.row = found.support[place];
    const int16_t *row = table + WIDTH * answer.row;
    while (answer.literals < ROW_LITERALS && row[answer.literals] != 0) answer.literals++;
    answer.rule = (unsigned)rule_number(table, answer.row);
    return answer;
}

/* Writes the marks: 1 for each premise among the literals seen. */
static void write_marks(const Board *board, unsigned furnace, const bool seen[PLACES], uint8_t *marks) {
    for (unsigned p = 0; p < 2 * board->symbols; p++) marks[p] = seen[p] && premises_of(board, furnace)[p];
}

/* Marks the premises that a literal stands on. */
Outcome model_ground(const Board *board, const int16_t *table, size_t numbers, unsigned furnace, int literal, uint8_t *marks, size_t mark_count) {
    unsigned refusal = literal_tests(board, table, numbers, furnace, literal);
    if (refusal != 0) return outcome(refusal);
    if (mark_count < 2 * board->symbols) return outcome(13);
    Findings found = propagate(board, furnace, table);
    bool seen[PLACES] = {false};
    if (!derived(&found, place_of(literal))) return outcome(12);
    walk_back(premises_of(board, furnace), table, &found, place_of(literal), seen);
    write_marks(board, furnace, seen, marks);
    return outcome(0);
}

/* Writes the marks of a symbol in conflict: the premises reached by +s or -s. */
void mark_both(const Board *board, unsigned furnace, const int16_t *table, const Findings *found, unsigned symbol, uint8_t *marks) {
    bool seen[PLACES] = {false};
    walk_back(premises_of(board, furnace), table, found, place_of((int)symbol), seen);
    walk_back(premises_of(board, furnace), table, found, place_of(-(int)symbol), seen);
    write_marks(board, furnace, seen, marks);
}

/* Marks the premises behind a conflict. */
Outcome model_blame(const Board *board, const int16_t *table, size_t numbers, unsigned furnace, uint8_t *marks, size_t mark_count) {
    unsigned refusal = furnace_tests(board, table, numbers, furnace);
    if (refusal != 0) return outcome(refusal);
    if (mark_count < 2 * board->symbols) return outcome(13);
    Findings found = propagate(board, furnace, table);
    unsigned symbol = blamed_symbol(board, &found);
    if (symbol == 0) return outcome(12);
    mark_both(board, furnace, table, &found, symbol, marks);
    return outcome(0);
}
