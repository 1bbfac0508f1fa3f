/* Long texts: comments, numbers, lines and gaps of a megabyte, and as many clauses as a header can count. */
#include <stdio.h>

#include "longtext.h"
#include "texttrials.h"

enum { MEGABYTE = 1048576, MOST_COUNTED = 32767 };

/* Reads the text onto a board of 9 symbols and as many rows as there are; false where anything is other than it is said here. */
static bool expect(Play *play, const char *what, unsigned refusal, unsigned clauses, unsigned rows) {
    bool good = text_open(play, 9) && text_read(play, long_text, long_length, long_length, TABLE_LENDABLE, false);
    good = good && play->last.refusal == refusal && play->last.clauses == clauses && play->last.added == rows;
    return good || text_wrong(play, what, long_text, long_length);
}

/* Comments of a megabyte in one line and in many, and one without its end. */
static bool long_comments(Play *play) {
    start_with("c"), add("c", MEGABYTE), add("\np cnf 3 1\n1 0\n", 1);
    if (!expect(play, "a comment of a megabyte", 0, 1, 1)) return false;
    start_with(""), add("c\n", MEGABYTE / 2), add("p cnf 3 1\n1 0\n", 1);
    if (!expect(play, "a megabyte of comments", 0, 1, 1)) return false;
    start_with("c"), add("c", MEGABYTE);
    return expect(play, "a comment of a megabyte and no line feed", 15, 0, 0);
}

/* A number of many digits between two pieces of text, and what reading it comes to: the refusal, and as many clauses and rows. */
static const struct {
    const char *front, *digit, *back, *what;
    unsigned refusal, clauses;
} many_digits[] = {
    {"p cnf 3 1\n-", "0", "3 0\n", "a literal with leading zeros", 0, 1},
    {"p cnf 3 1\n3 ", "0", "", "a long 0", 0, 1},
    {"p cnf ", "0", "3 1\n3 0\n", "variables with leading zeros", 0, 1},
    {"p cnf 3 ", "0", "1\n3 0\n", "clauses with leading zeros", 0, 1},
    {"p cnf 32767 1\n1", "0", " 0\n", "a literal of many digits", 15, 0},
    {"p cnf 32767 1\n3 -", "0", "", "a long -0", 15, 0},
    {"p cnf 1", "0", " 1\n3 0\n", "variables of many digits", 15, 0},
    {"p cnf 3 ", "9", "\n3 0\n", "clauses of many digits", 15, 0},
};

/* Numbers of a thousand digits and of a million. */
static bool long_numbers(Play *play) {
    for (size_t digits = 1000; digits <= 1000000; digits *= 1000)
        for (size_t i = 0; i < sizeof many_digits / sizeof many_digits[0]; i++) {
            start_with(many_digits[i].front), add(many_digits[i].digit, digits), add(many_digits[i].back, 1);
            if (!expect(play, many_digits[i].what, many_digits[i].refusal, many_digits[i].clauses, many_digits[i].clauses)) return false;
        }
    return true;
}

/* A line, a clause and a gap of a megabyte. */
static bool long_lines(Play *play) {
    start_with("p cnf 9 1\n"), add("9 8 ", MEGABYTE / 4), add("0", 1);
    if (!expect(play, "a clause of half a million words", 0, 1, 1)) return false;
    start_with("p cnf 9 1\n"), add("9 -9 ", MEGABYTE / 5), add("0", 1);
    if (!expect(play, "an always true clause of many words", 0, 1, 0)) return false;
    start_with("p cnf 9 1\n9"), add(" ", MEGABYTE), add("0\n", 1);
    if (!expect(play, "a megabyte of blanks", 0, 1, 1)) return false;
    start_with("p cnf 9 1"), add(" ", MEGABYTE / 2), add("\n", MEGABYTE / 2), add("9 0", 1);
    return expect(play, "a megabyte of blanks and line feeds", 0, 1, 1);
}

/* The most clauses that a header can count, and one more; the last of them at fault; and 2,048 rows, and one more. */
static bool many_clauses(Play *play) {
    start_with("p cnf 9 32767\n"), add("1 -1 0\n", MOST_COUNTED);
    if (!expect(play, "32,767 clauses", 0, MOST_COUNTED, 0)) return false;
    add("1 -1 0\n", 1);
    if (!expect(play, "a clause more than the 32,767 counted", 15, 0, 0)) return false;
    start_with("p cnf 9 32767\n"), add("1 -1 0\n", MOST_COUNTED - 1), add("0\n", 1);
    if (!expect(play, "32,767 clauses, the last one empty", 8, MOST_COUNTED - 1, 0)) return false;
    start_with("p cnf 9 2048\n"), add("1 2 0\n", MOST_ROWS);
    if (!expect(play, "2,048 rows", 0, MOST_ROWS, MOST_ROWS)) return false;
    start_with("p cnf 9 2049\n"), add("1 2 0\n", MOST_ROWS + 1);
    return expect(play, "2,049 rows", 9, MOST_ROWS, 0);
}

/* True if all long texts come out as the documents say. */
bool long_texts_agree(Play *play) {
    play_start(play, 9, true);
    return long_comments(play) && long_numbers(play) && long_lines(play) && many_clauses(play);
}
