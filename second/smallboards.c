/* All boards of few symbols: of 1 and 2 with every set of sound rows and every set of premises, of 3 with every set of up to four rows and nothing
 * held. Each is settled for each furnace, while the other one holds just the literals that this one does not, and every literal is asked by symbol
 * and of the whole board beside it. Over the same rows the smallest sets of all literals are listed: of 1 and 2 symbols for every literal, of 3 with
 * up to three rows for one of them, by turns. And where premises are held, the least of them to withdraw is told: of all, and of all but one.
 *
 * The highest rank of all has to be 2S - 1. None is 2S: that takes 2S rounds of one literal each and nothing held, but then the round that completes
 * the first conflict, or the one before it, gives two. */
#include "smallboards.h"

#include <stdio.h>
#include <string.h>

#include "tries.h"

enum { MOST_SOUND = 26, SIZES = 3 };

/* The boards of so many symbols: of how many rows at most, and from how many sets of premises. Then their sound rows, and what was met. */
typedef struct Size {
    unsigned symbols, most_rows, sets;
    unsigned sound, highest;
    unsigned long boards, lists, told;
    int16_t row[MOST_SOUND][ROW_LITERALS];
} Size;

static Size sizes[SIZES] = {{.symbols = 1, .most_rows = 2, .sets = 4}, {.symbols = 2, .most_rows = 8, .sets = 16},
                            {.symbols = 3, .most_rows = 4, .sets = 1}};

/* Lists the sound rows, each once: every symbol is left out, or stands there as + or as -, but not all are left out. */
static void list_rows(Size *size) {
    unsigned codes = 1;
    for (unsigned s = 1; s <= size->symbols; s++) codes *= 3;
    size->sound = codes - 1;
    for (unsigned code = 1; code < codes; code++) {
        int16_t *row = size->row[code - 1];
        unsigned used = 0, rest = code;
        for (int s = 1; rest > 0; s++, rest /= 3)
            if (rest % 3 != 0) row[used++] = (int16_t)(rest % 3 == 1 ? s : -s);
    }
}

/* The caller writes the premises: those of the furnace by the bits of a number, and for the other one what is left. */
static void set_premises(Play *play, unsigned furnace, unsigned set) {
    for (unsigned p = 0; p < 2 * play->board.symbols; p++) {
        int held = set >> p & 1;
        play_step(play, &(Step){.kind = SET_HELD, .furnace = furnace, .place = p, .value = held});
        play_step(play, &(Step){.kind = SET_HELD, .furnace = 3 - furnace, .place = p, .value = !held});
    }
}

/* Tells the least to withdraw of so many candidates; false where the sides differ, or it is refused though no conflict stays. */
static bool tells(Play *play, Size *size, unsigned furnace, const int16_t *candidates, unsigned count) {
    Step step = try_least(furnace, candidates, count, size->told++ << 20);
    return play_step(play, &step) && (play->last.refusal == 0 || play->last.refusal == 18);
}

/* Tells it of the furnace's premises, all of them and all but the first, which is another one each time. */
static bool least_agrees(Play *play, Size *size, unsigned furnace, unsigned set) {
    int16_t candidates[2 * SIZES];
    unsigned places = 2 * size->symbols, first = (unsigned)(size->told / 2 % places), count = 0;
    for (unsigned i = 0; i < places; i++)
        if (set >> (first + i) % places & 1) candidates[count++] = (int16_t)literal_at((first + i) % places);
    return tells(play, size, furnace, candidates, count) && (count == 0 || tells(play, size, furnace, candidates + 1, count - 1));
}

/* Settles the rows in use from a set of premises; false where the sides differ. Keeps the library's highest rank. */
static bool board_agrees(Play *play, Size *size, unsigned furnace, unsigned set) {
    set_premises(play, furnace, set);
    if (!try_call(play, SETTLE, furnace, 0, 0) || play->asked != 2 * size->symbols) return false;
    size->boards += furnace == 1;
    for (unsigned p = 0; p < 2 * size->symbols; p++) {
        uint16_t rank = play->theirs.ranks[GUARD + p];
        if (rank != NONE && rank > size->highest) size->highest = rank;
    }
    return size->sets == 1 || least_agrees(play, size, furnace, set);
}

/* Lists the smallest sets of all literals, the first of which is another one each time, for the literal at a place; false where the sides differ. */
static bool list_agrees(Play *play, Size *size, unsigned place) {
    int16_t candidates[2 * SIZES];
    unsigned places = 2 * size->symbols, first = (unsigned)(size->lists++ / places % places);
    for (unsigned i = 0; i < places; i++) candidates[i] = (int16_t)literal_at((first + i) % places);
    Step step = {.kind = SMALLEST, .value = literal_at(place), .numbers = TABLE_LENDABLE, .candidates = candidates, .bytes = places,
                 .standing = places, .lent = {ALL_SETS}, .noise = size->lists << 4};
    return play_step(play, &step) && play->last.refusal == 0;
}

/* Lists them over the rows in use, for every literal or by turns. */
static bool lists_agree(Play *play, Size *size) {
    unsigned places = 2 * size->symbols;
    if (size->symbols == SIZES) return play->board.rows == size->most_rows || list_agrees(play, size, (unsigned)(size->lists % places));
    for (unsigned p = 0; p < places; p++)
        if (!list_agrees(play, size, p)) return false;
    return true;
}

/* Tries the rows in use, and those with each later sound row added, as long as so many more may be; so each set of rows comes once. */
static bool rows_agree(Play *play, Size *size, unsigned from, unsigned more) {
    unsigned rows = play->board.rows;
    for (unsigned i = 0; i < FURNACES * size->sets; i++)
        if (!board_agrees(play, size, 1 + i % FURNACES, i / FURNACES)) return false;
    if (!lists_agree(play, size)) return false;
    for (unsigned r = from; r < size->sound && more > 0; r++) {
        try_row(play, size->row[r]);
        if (!rows_agree(play, size, r + 1, more - 1)) return false;
        try_act(play, SET_ROWS, 0, (int)rows);
        try_act(play, SET_RULES, 0, (int)rows);
    }
    return true;
}

/* Tries all boards of so many symbols; says which one goes wrong. */
static bool size_agrees(Play *play, Size *size) {
    list_rows(size);
    play_start(play, 10, true);
    if (!try_call(play, OPEN, 0, (int)size->symbols, 0) || !rows_agree(play, size, 0, size->most_rows)) {
        try_wrong(play, "all boards of few symbols", "S", size->symbols);
        print_board(play, TABLE_LENDABLE);
        return false;
    }
    if (size->highest == 2 * size->symbols - 1) return true;
    printf("second: the highest rank of all boards with S %u is %u, and not 2S - 1\n", size->symbols, size->highest);
    return false;
}

/* True if all boards of few symbols come out alike on both sides, and with the highest ranks that were worked out. */
bool small_boards_agree(Play *play) {
    for (unsigned i = 0; i < SIZES; i++)
        if (!size_agrees(play, &sizes[i])) return false;
    return true;
}

/* Prints the closing line of these boards. */
void small_boards_close(void) {
    printf("all boards of 1 and 2 symbols, and of 3 with up to %u rows: %lu boards for each furnace, highest ranks %u, %u, %u; %lu lists of sets; "
           "the least to withdraw %lu times\n", sizes[2].most_rows, sizes[0].boards + sizes[1].boards + sizes[2].boards, sizes[0].highest,
           sizes[1].highest, sizes[2].highest, sizes[0].lists + sizes[1].lists + sizes[2].lists, sizes[0].told + sizes[1].told);
}
