/* The calls that trials of texts make: on both sides, compared and counted. */
#include "texttrials.h"

#include <stdio.h>
#include <string.h>

#include "tries.h"

/* Opens a board, which has to be done; with 0 symbols there is none. */
bool text_open(Play *play, unsigned symbols) {
    Step step = {.kind = OPEN, .value = (int)symbols};
    return try_counted(play, &step) && (symbols == 0 || play->last.refusal == 0);
}

/* Reads a text of so many bytes, with more of them standing there. */
bool text_read(Play *play, const uint8_t *text, size_t bytes, size_t standing, size_t numbers, bool torn) {
    Step step = {.kind = READ, .text = text, .bytes = bytes, .standing = standing, .numbers = numbers, .noise = 1, .torn = torn};
    return try_counted(play, &step);
}

/* Writes the rows in use to so much room. */
bool text_write(Play *play, size_t numbers, size_t room) {
    Step step = {.kind = WRITE, .numbers = numbers, .lent = {room}, .noise = 2 * room + 1};
    return try_counted(play, &step);
}

/* Says which text went wrong, and how; false, so that the caller can return it. */
bool text_wrong(const Play *play, const char *what, const uint8_t *text, size_t bytes) {
    printf("second: %s: ", what);
    print_text(text, bytes);
    printf("; S %u, rows %u; %s\n", play->board.symbols, play->board.rows, play->difference[0] != 0 ? play->difference : "not as the documents say");
    print_outcome("library", READ, &play->library_last);
    print_outcome("model", READ, &play->last);
    return false;
}

/* Fresh noise in every number of the clause table, on both sides. */
void text_noise(Play *play, uint64_t seed) {
    random_fill(seed, play->ours.table, sizeof play->ours.table);
    memcpy(play->theirs.table, play->ours.table, sizeof play->ours.table);
}
