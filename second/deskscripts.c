/* Inputs for desk, of a hundred scripts each, and what it has to print for them. */
#include "deskscripts.h"

#include "coverdesk.h"
#include "folder.h"
#include "scripts.h"

enum { WHOLE_FROM = 100, IN_A_FILE = 100, NAME_DIGITS = 5 };

static Desk desk;
static Scribe scribe;

/* Writes the scripts of an input: in the first inputs one made by hand is among them. Every fourth input has lines ahead of the first open, and every
 * other one a last line without a line feed. */
static void write_input(FILE *in, FILE *out, uint64_t seed, uint64_t n) {
    desk_start(&desk, out);
    start_scribe(&scribe, &desk, in, random_for(seed ^ 0x6465736B, n));
    if (n % 4 == 0) write_before_open(&scribe);
    for (unsigned i = 0; i < IN_A_FILE; i++) {
        if (i == 1 && n < hand_scripts()) write_hand_script(&scribe, (unsigned)n);
        else write_random_script(&scribe);
    }
    bool cut = n % 2 == 0;
    if (cut) write_last_line(&scribe);
    cover_desk_case(CASE_NO_LINE_FEED, cut);
    desk_end(&desk);
}

/* Writes the inputs and what is due for them; from 100 on, all that can come up has to. */
int write_desk_scripts(const char *directory, uint64_t seed, uint64_t count) {
    unsigned long long lines = 0;
    for (uint64_t n = 0; n < count; n++) {
        FILE *in = open_numbered(directory, n, NAME_DIGITS, "in"), *out = open_numbered(directory, n, NAME_DIGITS, "out");
        if (in == NULL || out == NULL) return 2;
        write_input(in, out, seed, n);
        lines += desk.lines;
        int closed = fclose(in) | fclose(out);
        if (closed != 0) return 2;
    }
    cover_desk_print();
    if (count >= WHOLE_FROM && !cover_desk_is_whole()) return 1;
    unsigned long long inputs = count;
    printf("second: %llu inputs for desk written, %llu scripts, %llu lines\n", inputs, inputs * IN_A_FILE, lines);
    return 0;
}
