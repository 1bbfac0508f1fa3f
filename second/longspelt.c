/* Long formula texts: marks, blanks, digits and chains of a megabyte, the largest formulae there are and their texts. */
#include <string.h>

#include "longtext.h"
#include "spelttrials.h"

enum { MILLION = 1000000, CHAIN = 100000 };

static uint8_t formula[MOST_FORMULA + 1];

/* Reads the text to bytes and adds it, on a board of 9 symbols; false where either is refused otherwise, or at another place. */
static bool expect(Play *play, const char *what, unsigned refusal, size_t place, size_t count) {
    bool good = spelt_open(play, 9) && spelt_to_bytes(play, long_text, long_length, long_length, FORMULA_LENDABLE, false) &&
                spelt_gave(play, refusal, place, count) && spelt_text_rule(play, long_text, long_length, long_length, TABLE_LENDABLE, false) &&
                spelt_gave(play, refusal, place, 0);
    return good || spelt_wrong(play, what, long_text, long_length);
}

/* A million of one mark, and of blanks and brackets. */
static bool long_marks(Play *play) {
    start_with(""), add("-", MILLION);
    if (!expect(play, "a million -", 15, MILLION, 0)) return false;
    add("1", 1);
    if (!expect(play, "a million - and 1", 5, 16, 0)) return false;
    add(")", 1);
    if (!expect(play, "a million -, 1 and )", 15, MILLION + 1, 0)) return false;
    start_with(""), add("(", MILLION);
    if (!expect(play, "a million (", 15, 16, 0)) return false;
    start_with(""), add("(-", MILLION / 2), add("1", 1);
    if (!expect(play, "half a million (-", 15, 32, 0)) return false;
    start_with(""), add(" ", MILLION);
    if (!expect(play, "a million blanks", 15, MILLION, 0)) return false;
    add("1", 1);
    if (!expect(play, "a million blanks and 1", 0, NO_PLACE, 2)) return false;
    start_with("-(1"), add(" ", MILLION), add(")", 1), add(" ", 1000);
    if (!expect(play, "a million blanks before )", 0, NO_PLACE, 3)) return false;
    start_with("1"), add(" ", MILLION), add("2", 1);
    return expect(play, "a million blanks between two numbers", 15, MILLION + 1, 0);
}

/* Numbers of a million digits. */
static bool long_numbers(Play *play) {
    start_with(""), add("0", MILLION);
    if (!expect(play, "a million times 0", 2, 1, 0)) return false;
    add("9", 1);
    if (!expect(play, "9 with a million leading zeros", 0, NO_PLACE, 2)) return false;
    start_with("1&"), add("9", MILLION);
    if (!expect(play, "a million times 9", 2, 4, 0)) return false;
    start_with("1"), add("0", MILLION), add("1>-2", 1);
    if (!expect(play, "1, a million times 0 and 1", 2, 2, 0)) return false;
    start_with(""), add("9", MILLION), add(" 9", 1);
    return expect(play, "a million times 9 and 9", 15, MILLION + 1, 0);
}

/* Runs as long as a few bits count to, one more and one less: no count of `-`, of marks, of digits or of brackets comes round to a small one. */
static bool long_runs(Play *play) {
    static const size_t runs[] = {255, 256, 257, 65535, 65536, 65537, 524288};
    bool good = true;
    for (size_t i = 0; i < sizeof runs / sizeof runs[0] && good; i++) {
        start_with(""), add("-", runs[i]), add("1", 1);
        good = expect(play, "a run of - and 1", 5, 16, 0);
        start_with("1"), add("&1", runs[i]);
        good = good && expect(play, "a run of & 1", 5, 16, 0);
        start_with("1"), add("|-(1)", runs[i] / 3);
        good = good && expect(play, "a run of | and - and brackets", 5, 16, 0);
        start_with(""), add("0", runs[i]), add("9", 1);
        good = good && expect(play, "a run of 0 and 9", 0, NO_PLACE, 2);
        start_with("1>1"), add("0", runs[i]), add("1", 1);
        good = good && expect(play, "1, a run of 0 and 1", 2, 4, 0);
        start_with(""), add(" ", runs[i]), add("1", 1), add(" ", runs[i]);
        good = good && expect(play, "1 between runs of blanks", 0, NO_PLACE, 2);
        start_with(""), add("(", runs[i]), add("1", 1);
        good = good && expect(play, "a run of (", 15, 16, 0);
        start_with("(1"), add(")", runs[i]);
        good = good && expect(play, "a run of )", 15, 3, 0);
    }
    return good;
}

/* Chains whose bytes would be far more than any formula has: too deep, unless the text leaves the form. */
static bool long_chains(Play *play) {
    start_with("1"), add("&1", CHAIN - 1);
    if (!expect(play, "a chain of 100,000", 5, 16, 0)) return false;
    add("&", 1);
    if (!expect(play, "a chain of 100,000 and &", 15, 2 * CHAIN, 0)) return false;
    start_with("300"), add("|1", CHAIN - 1);
    if (!expect(play, "a chain of 100,000 from 300 on", 5, 16, 0)) return false;
    add(">1", 1);
    if (!expect(play, "a chain of 100,000 and >", 15, 2 * CHAIN + 1, 0)) return false;
    start_with("1"), add("|9", MILLION / 2);
    if (!expect(play, "a chain of 500,001", 5, 16, 0)) return false;
    start_with("300&(1"), add("&1", CHAIN), add(")", 1);
    if (!expect(play, "a chain of 100,001 after 300", 2, 2, 0)) return false;
    start_with("1&(1"), add("&1", CHAIN), add(")", 1);
    if (!expect(play, "a chain of 100,001 after 1", 5, 18, 0)) return false;
    start_with("1&1"), add("&(2|3)", 14);
    if (!expect(play, "16 units, all but two of them deeper", 0, NO_PLACE, 15 + 4 + 14 * 5)) return false;
    start_with("1"), add("&(2|3)", 15);
    if (!expect(play, "16 units, the second of them deeper", 5, 18, 0)) return false;
    start_with("(2|3)"), add("&1", 15);
    return expect(play, "16 units, the first of them deeper", 5, 16, 0);
}

/* Writes the formula that has symbols at the given depth and forms of two operands everywhere above; returns its length. */
static size_t write_full(uint8_t *bytes, unsigned depth, unsigned kind, unsigned symbol) {
    if (depth == 1) {
        bytes[0] = 0x10;
        bytes[1] = (uint8_t)symbol;
        return 2;
    }
    bytes[0] = (uint8_t)kind;
    size_t first = 1 + write_full(bytes + 1, depth - 1, kind, symbol);
    return first + write_full(bytes + first, depth - 1, kind, symbol);
}

/* Writes the largest formula of a kind as text, reads that back, and adds it: of symbol 200 only, as the longest text has it. */
static bool largest_there_and_back(Play *play, unsigned kind) {
    bool good = write_full(formula, DEEPEST, kind, MOST_SYMBOLS) == MOST_FORMULA && spelt_open(play, MOST_SYMBOLS) &&
                spelt_to_text(play, formula, MOST_FORMULA, MOST_SPELLING) && spelt_gave(play, 0, NO_PLACE, MOST_SPELLING);
    long_length = MOST_SPELLING;
    memcpy(long_text, play->theirs.text + GUARD, long_length);
    good = good && spelt_to_text(play, formula, MOST_FORMULA, MOST_SPELLING - 1) && spelt_gave(play, 13, NO_PLACE, 0) &&
           spelt_to_bytes(play, long_text, long_length, long_length, MOST_FORMULA, false) && spelt_gave(play, 0, NO_PLACE, MOST_FORMULA) &&
           memcmp(play->theirs.formula + GUARD, formula, MOST_FORMULA) == 0 &&
           spelt_to_bytes(play, long_text, long_length, long_length, MOST_FORMULA - 1, false) && spelt_gave(play, 13, NO_PLACE, 0) &&
           spelt_text_rule(play, long_text, long_length, long_length, TABLE_LENDABLE, false) && play->last.refusal == 0;
    return good || spelt_wrong(play, "the largest formula", long_text, long_length);
}

/* The end of the largest formula's text: the last number and its brackets are replaced by other bytes. */
static const struct {
    const char *end, *what;
    unsigned refusal;
    size_t place;
} text_ends[] = {
    {"9", "the largest formula, its last number shorter", 0, NO_PLACE},
    {"300", "the largest formula, its last number beyond S", 2, MOST_FORMULA - 1},
    {"256", "the largest formula, its last number 256", 2, MOST_FORMULA - 1},
    {"-1", "the largest formula, its last number with -", 5, MOST_FORMULA - 1},
    {"(1&1)", "the largest formula, its last number a form", 5, MOST_FORMULA - 1},
    {"(1)", "the largest formula, its last number in brackets", 0, NO_PLACE},
    {"1 1", "the largest formula, its last number and another", 15, MOST_SPELLING - 15},
};

/* Tries the largest formula's text with every end, and cut short by a bracket. The whole ends with 14 brackets, and three digits ahead of them. */
static bool largest_ends(Play *play) {
    const size_t closed = DEEPEST - 2, front = MOST_SPELLING - closed - 3;
    bool good = true;
    for (size_t i = 0; i < sizeof text_ends / sizeof text_ends[0] && good; i++) {
        size_t place = text_ends[i].place;
        long_length = front;
        add(text_ends[i].end, 1), add(")", closed);
        good = spelt_open(play, MOST_SYMBOLS) && spelt_to_bytes(play, long_text, long_length, long_length, FORMULA_LENDABLE, false) &&
               play->last.refusal == text_ends[i].refusal && play->last.place == place &&
               spelt_text_rule(play, long_text, long_length, long_length, TABLE_LENDABLE, false) && spelt_gave(play, text_ends[i].refusal, place, 0);
        if (!good) return spelt_wrong(play, text_ends[i].what, long_text, long_length);
    }
    long_length = front;
    add("200", 1), add(")", closed - 1);
    good = spelt_to_bytes(play, long_text, long_length, long_length + 1, 0, false) && spelt_gave(play, 15, long_length, 0);
    return good || spelt_wrong(play, "the largest formula without its last bracket", long_text, long_length);
}

/* The end of the largest formula's bytes, to be written as text: its last symbol's two bytes, the bytes given, the refusal and its place. */
static const struct {
    uint8_t kind, number;
    size_t count;
    unsigned refusal;
    size_t place;
} byte_ends[] = {
    {0x10, 201, MOST_FORMULA, 2, MOST_FORMULA - 1},    {0x10, 1, MOST_FORMULA - 1, 3, MOST_FORMULA - 1},
    {0x10, 1, MOST_FORMULA - 2, 3, MOST_FORMULA - 2},  {0x16, 1, MOST_FORMULA, 4, MOST_FORMULA - 2},
    {0x11, 1, MOST_FORMULA, 5, MOST_FORMULA - 1},      {0x10, 1, MOST_FORMULA + 1, 6, MOST_FORMULA},
};

/* Tries to write nothing but one kind, as many times as there are bytes. */
static bool all_kinds(Play *play) {
    bool good = spelt_open(play, MOST_SYMBOLS);
    for (unsigned kind = 0x11; kind <= 0x15 && good; kind++) {
        memset(formula, (int)kind, sizeof formula);
        good = spelt_to_text(play, formula, sizeof formula, MOST_SPELLING) && spelt_gave(play, 5, 16, 0);
    }
    return good || spelt_wrong(play, "nothing but kinds", long_text, 0);
}

/* Tries to write the largest formula with every end. */
static bool largest_breaks(Play *play) {
    bool good = spelt_open(play, MOST_SYMBOLS);
    for (size_t i = 0; i < sizeof byte_ends / sizeof byte_ends[0] && good; i++) {
        formula[MOST_FORMULA - 2] = byte_ends[i].kind;
        formula[MOST_FORMULA - 1] = byte_ends[i].number;
        good = spelt_to_text(play, formula, byte_ends[i].count, MOST_SPELLING) && spelt_gave(play, byte_ends[i].refusal, byte_ends[i].place, 0);
    }
    return good || spelt_wrong(play, "the largest formula, broken at its end", long_text, 0);
}

/* True if all long texts come out as the documents say. */
bool long_spelt_agree(Play *play) {
    bool good = true;
    play_start(play, 9, true);
    for (unsigned kind = 0x12; kind <= 0x15; kind++) good = good && largest_there_and_back(play, kind);
    good = good && largest_ends(play) && largest_breaks(play) && all_kinds(play);
    return good && long_marks(play) && long_numbers(play) && long_runs(play) && long_chains(play);
}
