/* The journal program by document 01, its lines with a place by document 02's Ticket 1, over the model; and random journals for it. By Ticket 6 it
 * works furnace 1, and by Ticket 11 its `ask` answers by symbol. */
#include "journal.h"

#include <stdio.h>
#include <string.h>

#include "cover.h"
#include "draw.h"
#include "folder.h"
#include "formulae.h"

enum { MOST_BYTES = 32768, BUFFER = 40000, HELD = 64, WHOLE_FROM = 200, FURNACE = 1 };
enum { C_OPEN = 1, C_RULE, C_HOLD, C_DROP, C_ASK, C_WHY, COMMANDS };
enum { STOP_END, STOP_KIND, STOP_BODY, STOP_FORMULA, STOP_BOARD, STOP_LONG, STOPS };

static const char *const command_words[COMMANDS] = {"", "open", "rule", "hold", "drop", "ask", "why"};
static const char *const stop_words[STOPS] = {"end of input", "unknown command", "body cut short", "formula", "refusal 1", "input too long"};
static unsigned long lines[COMMANDS][NUMBERS], standings[4], stops[STOPS], cut_bodies[COMMANDS];
static unsigned long beside[4];                  /* standings told on boards in conflict */
static unsigned long far_breaks[6], breaks_at_0; /* at places of two digits or more, by refusal; at place 0 */

/* The refusals a command can give, its cut body apart. */
static const unsigned can_give[COMMANDS][9] = {
    [C_OPEN] = {2}, [C_RULE] = {1, 2, 3, 4, 5, 7, 8, 9}, [C_HOLD] = {1, 2, 10}, [C_DROP] = {1, 2, 11}, [C_ASK] = {1, 2}, [C_WHY] = {1, 2, 12}};

/* A journal being read. */
typedef struct Reader {
    const uint8_t *bytes;
    size_t length, at;
    Board board;
    int16_t table[MOST_ROWS * WIDTH];
    int16_t record[RECORD_NUMBERS]; /* of stacks: the journal pushes nothing */
    FILE *out;
} Reader;

/* A journal being written. */
typedef struct Script {
    Random random;
    unsigned symbols;
    bool leaning[MOST_SYMBOLS + 1];
    int held[HELD]; /* literals given to hold so far */
    unsigned holds;
    uint8_t bytes[BUFFER];
    size_t length;
} Script;

/* Prints where a formula broke, 2 to 5. */
static void print_place(const Reader *reader, const Outcome *outcome) {
    far_breaks[outcome->refusal] += outcome->place >= 10;
    breaks_at_0 += outcome->place == 0;
    fprintf(reader->out, " at %zu", outcome->place);
}

/* Runs a rule: finds where its formula ends, and gives the model just that. Says whether the program stops. */
static int run_rule(Reader *reader) {
    const uint8_t *formula = reader->bytes + reader->at;
    size_t left = reader->length - reader->at, numbers = MOST_ROWS * WIDTH;
    unsigned before = reader->board.rows;
    Reading reading = {.place = NO_PLACE};
    bool good = board_is_good(&reader->board, reader->table, numbers);
    if (good) reading = read_formula(formula, left, reader->board.symbols);
    Outcome outcome = {.refusal = good ? reading.refusal : 1, .place = reading.place};
    if (outcome.refusal == 0) outcome = model_rule(&reader->board, reader->table, numbers, formula, reading.used);
    lines[C_RULE][outcome.refusal]++;
    if (outcome.refusal == 0) fprintf(reader->out, "rows %u %u", before, outcome.added);
    else fprintf(reader->out, "no %u", outcome.refusal);
    if (outcome.place != NO_PLACE) print_place(reader, &outcome);
    fprintf(reader->out, "\n");
    reader->at += reading.used;
    if (outcome.refusal == 1) return STOP_BOARD;
    return reading.refusal != 0 ? STOP_FORMULA : -1;
}

/* Prints the supporting row. */
static void print_reason(const Reader *reader, const Outcome *outcome) {
    fprintf(reader->out, "rank %u row %u:", outcome->rank, outcome->row);
    for (unsigned i = 0; i < outcome->literals; i++) fprintf(reader->out, " %d", reader->table[WIDTH * outcome->row + i]);
    fprintf(reader->out, "\n");
}

/* The literal of a body, low byte first. */
static int literal_in(const uint8_t *body) {
    int literal = body[0] + 256 * body[1];
    return literal > 32767 ? literal - 65536 : literal;
}

/* Makes the call of a command with a body. */
static Outcome call(Reader *reader, unsigned command, const uint8_t *body) {
    size_t numbers = MOST_ROWS * WIDTH;
    if (command == C_OPEN) return model_open(&reader->board, reader->record, body[0]);
    int literal = literal_in(body);
    if (command == C_HOLD) return model_hold(&reader->board, reader->table, numbers, FURNACE, literal);
    if (command == C_DROP) return model_withdraw(&reader->board, reader->table, numbers, reader->record, FURNACE, literal);
    if (command == C_ASK) return model_ask(&reader->board, reader->table, numbers, FURNACE, literal);
    return model_explain(&reader->board, reader->table, numbers, FURNACE, literal);
}

/* Counts an answer, and once more on a board in conflict, where document 01 had one answer for every literal. */
static void count_answer(const Reader *reader, int literal, unsigned standing) {
    Outcome whole = model_ask_whole(&reader->board, reader->table, MOST_ROWS * WIDTH, FURNACE, literal);
    standings[standing]++;
    beside[standing] += whole.standing == IN_CONFLICT;
}

/* Runs a command with a body. Says whether the program stops. */
static int run_call(Reader *reader, unsigned command) {
    static const char *const answers[] = {"open", "stands", "out", "conflict"};
    size_t body = command == C_OPEN ? 1 : 2;
    if (reader->length - reader->at < body) {
        cut_bodies[command]++;
        fprintf(reader->out, "no 3\n");
        return STOP_BODY;
    }
    Outcome outcome = call(reader, command, reader->bytes + reader->at);
    if (outcome.refusal == 0 && command == C_ASK) count_answer(reader, literal_in(reader->bytes + reader->at), outcome.standing);
    reader->at += body;
    lines[command][outcome.refusal]++;
    if (outcome.refusal != 0) fprintf(reader->out, "no %u\n", outcome.refusal);
    else if (command == C_ASK) fprintf(reader->out, "%s\n", answers[outcome.standing]);
    else if (command == C_WHY) print_reason(reader, &outcome);
    else fprintf(reader->out, "ok\n");
    return outcome.refusal == 1 ? STOP_BOARD : -1;
}

/* Writes all lines that the journal program has to print. */
static void expect(const uint8_t *bytes, size_t length, FILE *out) {
    static Reader reader;
    int stop = -1;
    reader = (Reader){.bytes = bytes, .length = length, .out = out};
    if (length > MOST_BYTES) {
        fprintf(out, "input too long\n");
        stops[STOP_LONG]++;
        return;
    }
    for (unsigned long ordinal = 1; stop < 0; ordinal++) {
        if (reader.at >= length) {
            stop = STOP_END;
            break;
        }
        unsigned command = bytes[reader.at++];
        bool known = command >= C_OPEN && command < COMMANDS;
        fprintf(out, "%lu %s ", ordinal, known ? command_words[command] : "kind");
        if (!known) fprintf(out, "no 4\n");
        stop = !known ? STOP_KIND : command == C_RULE ? run_rule(&reader) : run_call(&reader, command);
    }
    stops[stop]++;
}

/* Writes one byte of a journal. */
static void put(Script *script, unsigned byte) {
    if (script->length < BUFFER) script->bytes[script->length++] = (uint8_t)byte;
}

/* Writes a command with a literal. */
static void put_command(Script *script, unsigned command, int literal) {
    put(script, command);
    put(script, (unsigned)literal & 255);
    put(script, (unsigned)literal >> 8 & 255);
}

/* Writes a rule of a sort, now and then spoilt. */
static void put_rule(Script *script, unsigned sort, bool spoilt) {
    static Ink ink;
    ink.random = &script->random;
    ink.leaning = script->leaning;
    ink.lean = 85;
    ink.symbols = script->symbols;
    write_formula(&ink, sort);
    if (spoilt) spoil_formula(&ink);
    put(script, C_RULE);
    for (size_t i = 0; i < ink.given; i++) put(script, ink.bytes[i]);
}

/* A literal for a command: to withdraw one that was held, else one that mostly leans, or now and then none. */
static int draw_operand(Script *script, unsigned command) {
    Random *random = &script->random;
    unsigned symbol = random_between(random, 1, script->symbols);
    int literal = script->leaning[symbol] == random_chance(random, 85) ? (int)symbol : -(int)symbol;
    if (random_chance(random, 6)) return draw_bad_literal(random, script->symbols);
    if (command == C_DROP && script->holds > 0 && random_chance(random, 80)) literal = script->held[random_below(random, script->holds)];
    if (command == C_HOLD && script->holds < HELD) script->held[script->holds++] = literal;
    return literal;
}

/* Writes one command at random: at first mostly rules and premises. */
static void put_random(Script *script, bool first) {
    static const unsigned weights[2][6] = {{2, 26, 20, 14, 24, 26}, {1, 60, 30, 3, 5, 5}};
    static const unsigned sorts[SORTS] = {80, 15, 2, 3, 3, 4, 3, 3, 0, 0, 0, 10, 1};
    Random *random = &script->random;
    unsigned command = C_OPEN + random_weighted(random, weights[first], 6);
    if (command == C_OPEN) {
        put(script, command);
        put(script, random_chance(random, 80) ? script->symbols : random_chance(random, 50) ? 0 : 201);
    } else if (command == C_RULE) {
        put_rule(script, random_weighted(random, sorts, SORTS), random_chance(random, 2));
    } else {
        put_command(script, command, draw_operand(script, command));
    }
}

/* Writes an end: an unknown command with more after it, a spoilt rule, bytes cut off, a command with its body cut. */
static void put_end(Script *script) {
    Random *random = &script->random;
    unsigned sort = random_below(random, 5);
    if (sort == 0) put(script, random_chance(random, 30) ? 0 : random_between(random, 7, 255));
    if (sort == 1) put_rule(script, TREE, true);
    if (sort == 0 || (sort == 1 && random_chance(random, 60))) put_random(script, false);
    if (sort == 2 && script->length > 4) script->length -= random_below(random, 4);
    if (sort != 3) return;
    unsigned command = random_chance(random, 20) ? C_OPEN : random_between(random, C_HOLD, C_WHY);
    put(script, command);
    if (command != C_OPEN && random_chance(random, 50)) put(script, 1);
}

/* Writes a random journal: mostly an open, rules and premises, any commands, and an end of some sort. */
static void write_random(Script *script) {
    Random *random = &script->random;
    script->symbols = random_between(random, 1, random_chance(random, 80) ? 10 : MOST_SYMBOLS);
    if (random_chance(random, 10)) put_command(script, random_between(random, C_HOLD, C_WHY), 1);
    else put(script, C_OPEN), put(script, random_chance(random, 96) ? script->symbols : 0);
    unsigned first = random_between(random, 0, 12), then = random_between(random, 0, 40);
    for (unsigned i = 0; i < first; i++) put_random(script, true);
    for (unsigned i = 0; i < then; i++) put_random(script, false);
    put_end(script);
}

/* Writes a rule of nine symbols. */
static void put_nine(Script *script) {
    put(script, C_RULE);
    for (unsigned i = 1; i < 9; i++) put(script, 0x13);
    for (unsigned s = 1; s <= 9; s++) put(script, 0x10), put(script, s);
}

/* Writes a rule that breaks in the second operand of its second operand: a symbol beyond S, the end, a bad kind, one operand too deep. */
static void write_broken(Script *script, unsigned refusal) {
    static const uint8_t ahead[] = {0x13, 0x12, 0x10, 1, 0x10, 2, 0x13, 0x12, 0x10, 3, 0x10, 4};
    put(script, C_OPEN);
    put(script, 4);
    put(script, C_RULE);
    memcpy(script->bytes + script->length, ahead, sizeof ahead);
    script->length += sizeof ahead;
    for (unsigned depth = 3; refusal == 5 && depth <= DEEPEST; depth++) put(script, 0x11);
    put(script, refusal == 4 ? 0x16 : 0x10);
    if (refusal == 3) return;
    put(script, refusal == 2 ? 5 : 1);
    put_command(script, C_ASK, 1);
}

/* Fills all 2,048 rows, then rules that no longer fit, never fit, always do, and have nine symbols. */
static void write_full(Script *script) {
    script->symbols = 8;
    put(script, C_OPEN);
    put(script, 9);
    for (unsigned i = 0; i < 16; i++) put_rule(script, PARITY_OF_8, false);
    put_rule(script, PARITY_OF_8, false);
    put_rule(script, NEVER, false);
    put_rule(script, ALWAYS, false);
    put_nine(script);
    for (int s = 1; s <= 7; s++) put_command(script, C_HOLD, s);
    put_command(script, C_ASK, 8);
    put_command(script, C_WHY, 8);
}

/* Holds both signs of 1, 2 and -3, and asks for every literal: 1 is in conflict, 2 stands, 3 is ruled out and 4 is open. */
static void write_answers(Script *script) {
    static const int held[] = {1, -1, 2, -3};
    put(script, C_OPEN);
    put(script, 4);
    for (unsigned i = 0; i < 4; i++) put_command(script, C_HOLD, held[i]);
    for (unsigned p = 0; p < 8; p++) put_command(script, C_ASK, literal_at(p));
}

/* Writes asks to just so many bytes. */
static void write_length(Script *script, size_t length) {
    put(script, C_OPEN);
    put(script, 4);
    while (script->length < length) put_command(script, C_ASK, 1);
    script->length = length;
}

/* The journal in document 01. */
static void write_document(Script *script) {
    static const uint8_t bytes[] = {1, 4, 2, 0x14, 0x10, 1, 0x10, 2, 2, 0x14, 0x12, 0x10, 2, 0x10, 3, 0x10, 4, 3, 1, 0, 3, 3, 0,
                                    5, 4, 0, 6, 4, 0, 4, 1, 0, 5, 4, 0, 3, 0xFD, 0xFF, 5, 4, 0};
    memcpy(script->bytes, bytes, sizeof bytes);
    script->length = sizeof bytes;
}

/* Writes journal n: the first few are made by hand. */
static void write_script(Script *script, uint64_t seed, uint64_t n) {
    script->random = random_for(seed, n);
    script->length = 0;
    script->holds = 0;
    for (unsigned s = 0; s <= MOST_SYMBOLS; s++) script->leaning[s] = random_chance(&script->random, 70);
    switch (n) {
    case 0: write_document(script); break;
    case 1: break;
    case 2: write_length(script, MOST_BYTES); break;
    case 3: write_length(script, MOST_BYTES + 1); break;
    case 4: write_full(script); break;
    case 5: put(script, C_HOLD); break;
    case 6: put(script, C_RULE); break;
    case 7: put(script, C_OPEN); break;
    case 8: put(script, C_OPEN), put(script, 0), put(script, C_RULE), put(script, 0x10), put(script, 1); break;
    case 9: put(script, C_OPEN), put(script, 4), put(script, C_RULE); break;
    case 10: case 11: case 12: case 13: write_broken(script, (unsigned)n - 8); break;
    case 14: write_answers(script); break;
    default: write_random(script);
    }
}

/* True if places of one and of more digits came up: 0, and for each of 2 to 5 one from 10 on. */
static bool places_came_up(void) {
    bool whole = came_up(breaks_at_0, "place", "rule", 0);
    for (unsigned n = 2; n <= 5; n++) whole &= came_up(far_breaks[n], "a place of two digits or more for", "rule", n);
    return whole;
}

/* True if every refusal, answer and way to stop came up. */
static bool all_came_up(void) {
    bool whole = places_came_up();
    for (unsigned c = C_OPEN; c < COMMANDS; c++) {
        whole &= came_up(lines[c][0], "done", command_words[c], 0);
        if (c != C_RULE) whole &= came_up(cut_bodies[c], "body cut, 3", command_words[c], 0);
        for (unsigned i = 0; can_give[c][i] != 0; i++) whole &= came_up(lines[c][can_give[c][i]], "refusal", command_words[c], can_give[c][i]);
    }
    for (unsigned s = 0; s < 4; s++) {
        whole &= came_up(standings[s], "standing", "ask", s);
        whole &= came_up(beside[s], "on a board in conflict, standing", "ask", s);
    }
    for (unsigned s = 0; s < STOPS; s++) whole &= came_up(stops[s], stop_words[s], "stop:", s);
    return whole;
}

/* Prints the counts. */
static void print_counts(void) {
    printf("%-6s%9s", "line", "done");
    for (unsigned n = 1; n <= 12; n++) printf("%7u", n);
    printf("\n");
    for (unsigned c = C_OPEN; c < COMMANDS; c++) {
        printf("%-6s%9lu", command_words[c], lines[c][0]);
        for (unsigned n = 1; n <= 12; n++) printf("%7lu", lines[c][n] + (n == 3 ? cut_bodies[c] : 0));
        printf("\n");
    }
    printf("places of two digits or more for 2 to 5: %lu %lu %lu %lu; places 0: %lu\n", far_breaks[2], far_breaks[3], far_breaks[4],
           far_breaks[5], breaks_at_0);
    printf("ask open %lu, stands %lu, out %lu, conflict %lu; in a conflict open %lu, stands %lu, out %lu\nstopped at:", standings[IS_OPEN],
           standings[STANDS], standings[RULED_OUT], standings[IN_CONFLICT], beside[IS_OPEN], beside[STANDS], beside[RULED_OUT]);
    for (unsigned s = 0; s < STOPS; s++) printf(" %s %lu%s", stop_words[s], stops[s], s + 1 < STOPS ? "," : "\n");
}

/* True if the lines written are just those that document 01 prints, with line 11 as Ticket 11 changes it; says where they are not. */
static bool are_printed(FILE *out) {
    static const char printed[] = "1 open ok\n2 rule rows 0 1\n3 rule rows 1 1\n4 hold ok\n5 hold ok\n6 ask stands\n7 why rank 2 row 1: -2 -3 4\n"
                                  "8 drop ok\n9 ask open\n10 hold ok\n11 ask open\n";
    char written[sizeof printed];
    rewind(out);
    size_t length = fread(written, 1, sizeof written, out);
    if (length == sizeof printed - 1 && memcmp(written, printed, length) == 0) return true;
    printf("second: the journal in document 01 has other lines by the model\n");
    return false;
}

/* Writes the journals and their lines; from 200 on, all that can come up has to. */
int write_journals(const char *directory, uint64_t seed, uint64_t count) {
    static Script script;
    for (uint64_t n = 0; n < count; n++) {
        FILE *in = open_numbered(directory, n, 3, "in"), *out = open_numbered(directory, n, 3, "out");
        if (in == NULL || out == NULL) return 2;
        write_script(&script, seed, n);
        fwrite(script.bytes, 1, script.length, in);
        expect(script.bytes, script.length, out);
        bool printed = n != 0 || are_printed(out);
        if (fclose(in) != 0 || fclose(out) != 0 || !printed) return 2;
    }
    print_counts();
    if (count >= WHOLE_FROM && !all_came_up()) return 2;
    printf("second: %llu journals written\n", (unsigned long long)count);
    return 0;
}
