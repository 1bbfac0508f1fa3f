/* Texts spelt by hand, with what document 02's Ticket 2 and document 01 say of each: held against the model and the library alike. */
#include "texttrials.h"
#include "tries.h"

/* A text, S of an empty board and its rows lent; the refusal, the clauses before the fault or the end, and the rows added. Where there are any, each
 * clause is a row, but for some at the end that are always true. */
typedef struct Spelling {
    const char *text;
    size_t length;
    unsigned symbols, lent, refusal, clauses, rows;
    int16_t row[3][ROW_LITERALS];
} Spelling;

#define TEXT(text) text, sizeof text - 1
#define GOOD(text, ...) {TEXT(text), 9, 4, 0, __VA_ARGS__}
#define BROKEN(text) {TEXT(text), 9, 4, 15, 0, 0, {{0}}}
#define ZEROS_50 "00000000000000000000000000000000000000000000000000"
#define NINES_50 "99999999999999999999999999999999999999999999999999"

static const Spelling spellings[] = {
    /* the form, and what it leaves free */
    GOOD("p cnf 3 2\n1 -2 0\n3 0\n", 2, 2, {{1, -2}, {3}}),
    GOOD("p cnf 0 0\n", 0, 0, {{0}}),
    GOOD("p cnf 9 0", 0, 0, {{0}}),
    GOOD("p cnf 9 0   ", 0, 0, {{0}}),
    GOOD("p cnf 9 0\n\n \n", 0, 0, {{0}}),
    GOOD("p cnf 3 1\n1 0", 1, 1, {{1}}),
    GOOD("p cnf 3 1\n1 0  \n\n", 1, 1, {{1}}),
    GOOD("p cnf   3    1  \n  \n\n 1\n\n2 \n 0", 1, 1, {{1, 2}}),
    GOOD("p cnf 3 3\n1 0 2 0 3 0", 3, 3, {{1}, {2}, {3}}),
    GOOD("c\nc p cnf 1 1\ncnf\np cnf 3 1\n3 2 0\n", 1, 1, {{2, 3}}),
    GOOD("c \t\r 0 - \x01\xFF\np cnf 3 1\n3 0\n", 1, 1, {{3}}),
    GOOD("p cnf 003 0001\n-002 0000003 00\n", 1, 1, {{-2, 3}}),
    GOOD("p cnf 3 1\n" ZEROS_50 ZEROS_50 "3 " ZEROS_50 "\n", 1, 1, {{3}}),
    GOOD("p cnf " ZEROS_50 "3 " ZEROS_50 "1\n-" ZEROS_50 "3 0\n", 1, 1, {{-3}}),
    /* clauses as rows */
    GOOD("p cnf 9 2\n9 -1 5 0 -4 -3 -2 0\n", 2, 2, {{-1, 5, 9}, {-2, -3, -4}}),
    GOOD("p cnf 9 1\n2 1 2 1 1 2 0\n", 1, 1, {{1, 2}}),
    GOOD("p cnf 9 2\n1 -1 0\n2 3 -2 2 0\n", 2, 0, {{0}}),
    GOOD("p cnf 9 1\n8 7 6 5 4 3 2 1 0\n", 1, 1, {{1, 2, 3, 4, 5, 6, 7, 8}}),
    GOOD("p cnf 9 1\n1 2 3 4 5 6 7 8 -1 -8 0\n", 1, 0, {{0}}),
    GOOD("p cnf 9 3\n1 2 0\n1 2 0\n2 1 0\n", 3, 3, {{1, 2}, {1, 2}, {1, 2}}),
    GOOD("p cnf 32767 1\n9 0\n", 1, 1, {{9}}),
    {TEXT("p cnf 2 1\n-2 0\n"), 200, 1, 0, 1, 1, {{-2}}},
    /* comment lines and the header */
    BROKEN(""),
    BROKEN("\n"),
    BROKEN("c"),
    BROKEN("c\n"),
    BROKEN("c p cnf 3 1"),
    BROKEN("\np cnf 3 1\n1 0\n"),
    BROKEN(" p cnf 3 1\n1 0\n"),
    BROKEN(" c\np cnf 3 1\n1 0\n"),
    BROKEN("c\n\np cnf 3 1\n1 0\n"),
    BROKEN("C\np cnf 3 1\n1 0\n"),
    BROKEN("P cnf 3 1\n1 0\n"),
    BROKEN("p CNF 3 1\n1 0\n"),
    BROKEN("p  cnf 3 1\n1 0\n"),
    BROKEN("pcnf 3 1\n1 0\n"),
    BROKEN("p\tcnf 3 1\n1 0\n"),
    BROKEN("p cnf\t3 1\n1 0\n"),
    BROKEN("p cnf3 1\n1 0\n"),
    BROKEN("p cnf 3\n1 0\n"),
    BROKEN("p cnf 3\n1\n1 0\n"),
    BROKEN("p cnf\n3 1\n1 0\n"),
    BROKEN("p cnf"),
    BROKEN("p cn"),
    BROKEN("p cnf 3"),
    BROKEN("p cnf 3 "),
    BROKEN("p cnf -3 1\n1 0\n"),
    BROKEN("p cnf 3 -1\n1 0\n"),
    BROKEN("p cnf 3 -0\n"),
    BROKEN("p cnf +3 1\n1 0\n"),
    BROKEN("p cnf 3 1 1 0\n"),
    BROKEN("p cnf 3 1 1\n1 0\n"),
    BROKEN("p cnf 3 1x\n1 0\n"),
    BROKEN("p cnf 3 1\r\n1 0\n"),
    BROKEN("p cnf 3 1\t\n1 0\n"),
    BROKEN("p cnf 32768 1\n1 0\n"),
    BROKEN("p cnf 3 32768\n1 0\n"),
    BROKEN("p cnf 65539 1\n1 0\n"),
    BROKEN("p cnf 3 65537\n1 0\n"),
    BROKEN("p cnf 4294967299 1\n1 0\n"),
    BROKEN("p cnf 3 18446744073709551617\n1 0\n"),
    BROKEN("p cnf " NINES_50 NINES_50 " 1\n1 0\n"),
    BROKEN("p dnf 3 1\n1 0\n"),
    BROKEN("p cnf 3 1\np cnf 3 1\n1 0\n"),
    BROKEN("\xEF\xBB\xBFp cnf 3 1\n1 0\n"),
    /* the body */
    BROKEN("p cnf 3 1\nc\n1 0\n"),
    BROKEN("p cnf 3 1\n1 0\nc\n"),
    BROKEN("p cnf 3 1\n1 0\n%\n0\n"),
    BROKEN("p cnf 3 1\n1\t0\n"),
    BROKEN("p cnf 3 1\n1 0\r\n"),
    BROKEN("p cnf 3 1\n1 -0\n"),
    BROKEN("p cnf 3 1\n1 -00\n"),
    BROKEN("p cnf 3 1\n- 1 0\n"),
    BROKEN("p cnf 3 1\n-\n1 0\n"),
    BROKEN("p cnf 3 1\n--1 0\n"),
    BROKEN("p cnf 3 1\n1-2 0\n"),
    BROKEN("p cnf 3 1\n1- 0\n"),
    BROKEN("p cnf 3 1\n+1 0\n"),
    BROKEN("p cnf 3 1\n1,2 0\n"),
    BROKEN("p cnf 3 1\n1.0 0\n"),
    BROKEN("p cnf 3 1\n0x1 0\n"),
    BROKEN("p cnf 3 1\n1 0 -"),
    BROKEN("p cnf 3 1\n1 0\n\0"),
    BROKEN("p cnf 3 1\n1\0 0\n"),
    BROKEN("p cnf 3 1\n1"),
    BROKEN("p cnf 3 1\n1\n"),
    BROKEN("p cnf 3 1\n1 0 2\n"),
    BROKEN("p cnf 3 1\n"),
    BROKEN("p cnf 3 1"),
    BROKEN("p cnf 3 2\n1 0\n"),
    BROKEN("p cnf 3 1\n1 0\n0\n"),
    BROKEN("p cnf 3 0\n1 0\n"),
    BROKEN("p cnf 3 0\n0\n"),
    BROKEN("p cnf 3 1\n4 0\n"),
    BROKEN("p cnf 3 1\n-4 0\n"),
    BROKEN("p cnf 0 1\n1 0\n"),
    BROKEN("p cnf 32767 1\n32768 0\n"),
    BROKEN("p cnf 32767 1\n-32768 0\n"),
    BROKEN("p cnf 32767 1\n65537 0\n"),
    BROKEN("p cnf 32767 1\n4294967297 0\n"),
    BROKEN("p cnf 32767 1\n18446744073709551617 0\n"),
    BROKEN("p cnf 32767 1\n1" ZEROS_50 " 0\n"),
    BROKEN("p cnf 32767 1\n" NINES_50 NINES_50 " 0\n"),
    /* 15 ahead of all, wherever in the text it is due */
    BROKEN("p cnf 30 3\n1 0\n30 0\n1 2 x\n"),
    BROKEN("p cnf 30 2\n0\n1\n"),
    BROKEN("p cnf 30 9\n1 2 3 4 5 6 7 8 9 0\n0\n"),
    BROKEN("p cnf 9 9\n1 0 2 0 3 0 4 0 5 0 6 0 7 0 8 0 10 0\n"),
    /* the first clause at fault */
    {TEXT("p cnf 10 2\n1 0\n10 0\n"), 9, 4, 2, 1, 0, {{0}}},
    {TEXT("p cnf 32767 1\n-32767 0\n"), 9, 4, 2, 0, 0, {{0}}},
    {TEXT("p cnf 256 1\n256 0\n"), 9, 4, 2, 0, 0, {{0}}},
    {TEXT("p cnf 257 1\n257 0\n"), 9, 4, 2, 0, 0, {{0}}},
    {TEXT("p cnf 10 1\n10 -10 0\n"), 9, 4, 2, 0, 0, {{0}}},
    {TEXT("p cnf 10 1\n1 2 3 4 5 6 7 8 9 10 0\n"), 9, 4, 2, 0, 0, {{0}}},
    {TEXT("p cnf 9 1\n1 2 3 4 5 6 7 8 9 0\n"), 9, 4, 7, 0, 0, {{0}}},
    {TEXT("p cnf 9 1\n1 -1 2 3 4 5 6 7 8 9 0\n"), 9, 4, 7, 0, 0, {{0}}},
    {TEXT("p cnf 9 3\n1 0\n0\n1 2 3 4 5 6 7 8 9 0\n"), 9, 4, 8, 1, 0, {{0}}},
    {TEXT("p cnf 10 3\n1 0\n1 2 3 4 5 6 7 8 9 0\n10 0\n"), 9, 4, 7, 1, 0, {{0}}},
    {TEXT("p cnf 9 1\n0\n"), 9, 4, 8, 0, 0, {{0}}},
    {TEXT("p cnf 0 1\n0"), 9, 4, 8, 0, 0, {{0}}},
    {TEXT("p cnf 9 1\n0\n"), 9, 0, 8, 0, 0, {{0}}},
    {TEXT("p cnf 9 1\n1 2 3 4 5 6 7 8 9 0\n"), 9, 0, 7, 0, 0, {{0}}},
    {TEXT("p cnf 9 1\n1 0\n"), 9, 0, 9, 0, 0, {{0}}},
    {TEXT("p cnf 9 1\n1 -1 0\n"), 9, 0, 0, 1, 0, {{0}}},
    {TEXT("p cnf 9 3\n1 0\n2 0\n3 0\n"), 9, 2, 9, 2, 0, {{0}}},
    {TEXT("p cnf 9 3\n1 0\n2 0\n3 -3 0\n"), 9, 2, 0, 3, 2, {{1}, {2}}},
    {TEXT("p cnf 9 4\n1 0\n1 -1 0\n2 0\n3 0\n"), 9, 2, 9, 3, 0, {{0}}},
    {TEXT("p cnf 9 4\n1 0\n2 0\n3 0\n0\n"), 9, 2, 9, 2, 0, {{0}}},
    {TEXT("p cnf 9 4\n1 0\n2 0\n0\n3 0\n"), 9, 2, 8, 2, 0, {{0}}},
    /* no board: 1, whatever the text is */
    {TEXT("p cnf 3 1\n1 0\n"), 0, 4, 1, 0, 0, {{0}}},
    {TEXT("p cnf 3 1\n1\n"), 0, 4, 1, 0, 0, {{0}}},
    {TEXT(""), 0, 4, 1, 0, 0, {{0}}},
};

/* Tries one spelling on an empty board, or on none where S is 0. */
static bool try_spelling(Play *play, const Spelling *spelling) {
    size_t numbers = WIDTH * spelling->lent;
    play_start(play, 8, true);
    bool good = text_open(play, spelling->symbols) &&
                text_read(play, (const uint8_t *)spelling->text, spelling->length, spelling->length, numbers, false);
    good = good && play->last.refusal == spelling->refusal && play->last.clauses == spelling->clauses && play->last.added == spelling->rows &&
           play->board.rows == spelling->rows && play->board.rules == (spelling->refusal == 0 ? spelling->clauses : 0);
    for (unsigned r = 0; r < spelling->rows; r++) good = good && try_has_row(play, r, spelling->row[r], r + 1);
    return good || text_wrong(play, "a text spelt by hand", (const uint8_t *)spelling->text, spelling->length);
}

/* True if every spelling comes out as the documents say. */
bool spellings_agree(Play *play) {
    bool good = true;
    for (size_t i = 0; i < sizeof spellings / sizeof spellings[0]; i++) good = good && try_spelling(play, &spellings[i]);
    return good;
}
