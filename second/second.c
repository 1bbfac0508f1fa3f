/* The independent second program of Tupahineka: random sequences of calls, the library against the documents by brute force.
 *
 * Written from document 01, Tickets 1, 2 and 4 to 14 of document 02, the project's exact readings of Tickets 5, 6, 8 to 11 and 14, docs/DESK.md for
 * the program desk, and include/tupahineka.h alone. No proved code was read for it; but the checks of Ticket 11 (answers.c, asktries.c,
 * coveranswers.c) were written with the project's definition of ask known, the model's two asks without. Of the project's other files only those
 * were read that build and run it: Makefile, tests/panel.sh and tools/kit.sh.
 *
 *   second SEED COUNT               plays COUNT sequences and compares everything after every call
 *   second show SEED NUMBER         prints sequence NUMBER in words, by the model alone
 *   second journals DIR SEED COUNT  writes COUNT journals and what the journal program has to print for them
 *   second texts DIR SEED COUNT     writes COUNT texts and what the program cnf has to write and say of them
 *   second desk DIR SEED COUNT      writes COUNT inputs of 100 scripts and what the program desk has to print for them
 *   second noise SEED LINES         prints LINES lines of noise for desk */
#include <signal.h>
#include <stdio.h>
#include <stdlib.h>
#include <string.h>

#include "apart.h"
#include "asktries.h"
#include "cnf.h"
#include "cover.h"
#include "deskscripts.h"
#include "document.h"
#include "draw.h"
#include "furnacetries.h"
#include "journal.h"
#include "leasttries.h"
#include "network.h"
#include "outside.h"
#include "outsidetries.h"
#include "positiontries.h"
#include "rowtries.h"
#include "ruletries.h"
#include "settries.h"
#include "smallboards.h"
#include "spelttrials.h"
#include "stacktries.h"
#include "texttrials.h"

enum { WHOLE_FROM = 2000 };

static Play play;
static Draft draft;
static volatile unsigned long long now_seed, now_number;
static volatile bool in_trials; /* past the sequences */

/* Says where the library ended the program, and ends it. */
static void library_died(int number) {
    if (in_trials) printf("second: signal %d in the boards and texts to try, seed %llu\n", number, now_seed);
    else printf("second: signal %d in sequence %llu; print it with: second show %llu %llu\n", number, now_number, now_seed, now_number);
    fflush(stdout);
    _Exit(3);
}

/* The noise in the clause table at the start of a sequence. */
static uint64_t noise_for(uint64_t seed, uint64_t number) {
    Random random = random_for(seed ^ 0x7461626C65, number);
    return random_next(&random);
}

/* Prints a difference: where, the shortest sequence, both outcomes and the board. */
static void report(uint64_t seed, uint64_t number) {
    size_t before = draft.count, count = shrink(&play, draft.steps, draft.count, noise_for(seed, number));
    const Step *last = &draft.steps[count - 1];
    printf("second: a difference, seed %llu, sequence %llu\n", (unsigned long long)seed, (unsigned long long)number);
    printf("  %zu steps, shrunk to the shortest that shows it, %zu:\n", before, count);
    for (size_t i = 0; i < count; i++) print_step(&draft.steps[i], i + 1);
    printf("  at step %zu, %s\n", count, play.difference);
    print_outcome("library", last->kind, &play.library_last);
    print_outcome("model", last->kind, &play.last);
    print_board(&play, last->numbers);
}

/* Draws and plays one sequence; false at a difference. */
static bool play_sequence(uint64_t seed, uint64_t number, bool with_library) {
    size_t played = 0;
    draft_start(&draft, seed, number);
    play_start(&play, noise_for(seed, number), with_library);
    while (draft_next(&draft, &play)) {
        for (; played < draft.count; played++) {
            if (!play_step(&play, &draft.steps[played])) {
                draft.count = played + 1;
                return false;
            }
            cover_step(&play, &draft.steps[played]);
        }
    }
    return true;
}

/* Says which sequence it was; false, so that the caller can return it. */
static bool wrong_sequence(const char *what) {
    printf("second: %s sequence %llu; print it with: second show %llu %llu\n", what, now_number, now_seed, now_number);
    return false;
}

/* Plays one sequence. Where its number is divisible by 4, its last board is written as text and read back; where 2 is left over, the library plays it
 * again without furnace 1's premises, and without furnace 2's. Where divided by 8 it leaves 1 over, premises outside grounds are withdrawn from its
 * last board. Says where it differs. */
static bool sequence_agrees(uint64_t seed, uint64_t number) {
    now_number = number;
    if (!play_sequence(seed, number, true)) {
        report(seed, number);
        return false;
    }
    if (number % 4 == 0) return trip_back(&play) || wrong_sequence("the last board of");
    if (number % 4 == 2) return furnaces_apart(&play, draft.steps, draft.count, noise_for(seed, number)) || wrong_sequence("in");
    return number % 8 != 1 || grounds_are_enough(&play, seed, number) || wrong_sequence("the last board of");
}

/* Formula texts: by hand, on the boards to try, damaged, long, there and back, at every room, and by the definition of 15. */
static bool spelt_agree(uint64_t seed) {
    return hand_spelt_agree(&play) && boards_spelt_agree(&play) && torn_spelt_agree(&play, seed) && long_spelt_agree(&play) &&
           spelt_trips_agree(&play, seed) && spelt_rooms_agree(&play, seed) && spelt_places_agree(&play, seed);
}

/* Position variables and pair tables: by hand, refused, as formulae, and on networks of them. */
static bool valves_agree(uint64_t seed) {
    return position_tries_agree(&play) && valve_tries_agree(&play) && positions_by_formula_agree(&play, seed) && arcs_agree(&play, seed);
}

/* Readings that are tried and taken back: by hand, records by hand, as deep as can be, and nested at random. */
static bool stacks_agree(uint64_t seed) {
    return stack_tries_agree(&play) && record_tries_agree(&play) && deep_tries_agree(&play) && nested_tries_agree(&play, seed);
}

/* The boards that the documents name, those worked out by hand, all of few symbols, then the texts. */
static bool trials_agree(uint64_t seed) {
    in_trials = true;
    return document_agrees(&play) && furnace_tries_agree(&play) && row_tries_agree(&play) && rule_tries_agree(&play) && number_tries_agree(&play) &&
           ask_tries_agree(&play) && outside_tries_agree(&play) && set_tries_agree(&play) && candidate_tries_agree(&play) &&
           least_tries_agree(&play) && held_tries_agree(&play) && valves_agree(seed) && stacks_agree(seed) && small_boards_agree(&play) &&
           spellings_agree(&play) && torn_texts_agree(&play, seed) && long_texts_agree(&play) && rooms_agree(&play, seed) &&
           rules_agree(&play, seed) && spelt_agree(seed);
}

/* Plays all sequences of a seed, then what is to be tried besides. */
static int play_all(uint64_t seed, uint64_t count) {
    now_seed = seed;
    for (uint64_t n = 0; n < count; n++)
        if (!sequence_agrees(seed, n)) return 1;
    if (!trials_agree(seed)) return 1;
    cover_print();
    small_boards_close();
    if (count >= WHOLE_FROM && !cover_is_whole()) return 2;
    printf("second: %llu sequences, %lu calls, all agree\n", (unsigned long long)count, cover_calls());
    return 0;
}

/* Prints one sequence without the library. */
static int show(uint64_t seed, uint64_t number) {
    play_sequence(seed, number, false);
    for (size_t i = 0; i < draft.count; i++) print_step(&draft.steps[i], i + 1);
    return 0;
}

/* Reads the options. */
int main(int argc, char **argv) {
    signal(SIGABRT, library_died);
    signal(SIGSEGV, library_died);
    signal(SIGILL, library_died);
    signal(SIGFPE, library_died);
    if (argc == 3) return play_all(strtoull(argv[1], NULL, 0), strtoull(argv[2], NULL, 0));
    if (argc == 4 && strcmp(argv[1], "show") == 0) return show(strtoull(argv[2], NULL, 0), strtoull(argv[3], NULL, 0));
    if (argc == 5 && strcmp(argv[1], "journals") == 0)
        return write_journals(argv[2], strtoull(argv[3], NULL, 0), strtoull(argv[4], NULL, 0));
    if (argc == 5 && strcmp(argv[1], "texts") == 0) return write_texts(argv[2], strtoull(argv[3], NULL, 0), strtoull(argv[4], NULL, 0));
    if (argc == 5 && strcmp(argv[1], "desk") == 0) return write_desk_scripts(argv[2], strtoull(argv[3], NULL, 0), strtoull(argv[4], NULL, 0));
    if (argc == 4 && strcmp(argv[1], "noise") == 0) return write_noise(strtoull(argv[2], NULL, 0), strtoull(argv[3], NULL, 0));
    fprintf(stderr, "second SEED COUNT | second show SEED NUMBER | second journals DIR SEED COUNT | second texts DIR SEED COUNT | "
                    "second desk DIR SEED COUNT | second noise SEED LINES\n");
    return 2;
}
