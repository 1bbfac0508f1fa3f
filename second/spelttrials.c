/* The calls that trials of formula text make: on both sides, compared and counted. */
#include "spelttrials.h"

#include <stdio.h>

#include "tries.h"

static Kind last_kind;

/* Plays a step, counts it and notes its kind. */
static bool make(Play *play, const Step *step) {
    last_kind = step->kind;
    return try_counted(play, step);
}

/* Opens a board, which has to be done; with 0 symbols there is none. */
bool spelt_open(Play *play, unsigned symbols) {
    Step step = {.kind = OPEN, .value = (int)symbols};
    return make(play, &step) && (symbols == 0 || play->last.refusal == 0);
}

/* Reads a text to bytes: so many of it given, with more standing there, and so much room. */
bool spelt_to_bytes(Play *play, const uint8_t *text, size_t bytes, size_t standing, size_t room, bool torn) {
    Step step = {.kind = TO_BYTES, .text = text, .bytes = bytes, .standing = standing, .lent = {room}, .numbers = TABLE_LENDABLE,
                 .noise = 2 * room + 1, .torn = torn};
    return make(play, &step);
}

/* Adds a rule from its text. */
bool spelt_text_rule(Play *play, const uint8_t *text, size_t bytes, size_t standing, size_t numbers, bool torn) {
    Step step = {.kind = TEXT_RULE, .text = text, .bytes = bytes, .standing = standing, .numbers = numbers, .noise = 1, .torn = torn};
    return make(play, &step);
}

/* Writes a formula as text. */
bool spelt_to_text(Play *play, const uint8_t *formula, size_t bytes, size_t room) {
    Step step = {.kind = TO_TEXT, .formula = formula, .bytes = bytes, .standing = bytes, .lent = {room}, .numbers = TABLE_LENDABLE,
                 .noise = 2 * room + 1};
    return make(play, &step);
}

/* Adds a rule from its bytes. */
bool spelt_rule(Play *play, const uint8_t *formula, size_t bytes, size_t numbers) {
    Step step = {.kind = RULE, .formula = formula, .bytes = bytes, .standing = bytes, .numbers = numbers, .noise = 1};
    return make(play, &step);
}

/* True if the last call gave just that. */
bool spelt_gave(const Play *play, unsigned refusal, size_t place, size_t written) {
    return play->last.refusal == refusal && play->last.place == place && play->last.written == written;
}

/* Says which text went wrong, and how; false, so that the caller can return it. */
bool spelt_wrong(const Play *play, const char *what, const uint8_t *text, size_t bytes) {
    printf("second: %s: ", what);
    print_text(text, bytes);
    printf("; %s, S %u, rows %u; %s\n", kind_word(last_kind), play->board.symbols, play->board.rows,
           play->difference[0] != 0 ? play->difference : "not as the documents say");
    print_outcome("library", last_kind, &play->library_last);
    print_outcome("model", last_kind, &play->last);
    return false;
}
