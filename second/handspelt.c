/* Formula texts spelt by hand, with the bytes, or the refusal and its place, that document 02's Ticket 5 and document 01 give each; and bytes with
 * the one text that they are written as. Held against the model and the library alike. */
#include <string.h>

#include "spelttrials.h"

/* A text to be read, or bytes to be written; S of an empty board; and what that comes to: the refusal and its place, or the bytes, or the text. */
typedef struct Spelling {
    const char *given;
    size_t length;
    unsigned symbols, refusal;
    size_t place;
    const char *due;
    size_t count;
} Spelling;

#define TEXT(text) text, sizeof text - 1
#define GIVES(given, due) {TEXT(given), 9, 0, NO_PLACE, TEXT(due)}
#define BREAKS(given, refusal, place) {TEXT(given), 9, refusal, place, TEXT("")}
#define LEAVES(text, place) BREAKS(text, 15, place)

#define MINUS_5 "-----"
#define MINUS_15 MINUS_5 MINUS_5 MINUS_5
#define OPEN_4 "(((("
#define OPEN_15 OPEN_4 OPEN_4 OPEN_4 "((("
#define OPEN_16 OPEN_4 OPEN_4 OPEN_4 OPEN_4
#define CLOSE_4 "))))"
#define CLOSE_16 CLOSE_4 CLOSE_4 CLOSE_4 CLOSE_4
#define NOTS_5 "\x11\x11\x11\x11\x11"
#define NOTS_15 NOTS_5 NOTS_5 NOTS_5
#define AND_5 "\x12\x12\x12\x12\x12"
#define OR_5 "\x13\x13\x13\x13\x13"
#define ONES_5 "\x10\x01\x10\x01\x10\x01\x10\x01\x10\x01"
#define ZEROS_50 "00000000000000000000000000000000000000000000000000"
#define NINES_50 "99999999999999999999999999999999999999999999999999"
#define AND_1_5 "&1&1&1&1&1"
#define OR_1_5 "|1|1|1|1|1"

static const Spelling texts[] = {
    /* units and chains */
    GIVES("1", "\x10\x01"),
    GIVES("9", "\x10\x09"),
    GIVES("-1", "\x11\x10\x01"),
    GIVES("--1", "\x11\x11\x10\x01"),
    GIVES("1&2", "\x12\x10\x01\x10\x02"),
    GIVES("1|2", "\x13\x10\x01\x10\x02"),
    GIVES("1>2", "\x14\x10\x01\x10\x02"),
    GIVES("1=2", "\x15\x10\x01\x10\x02"),
    GIVES("2>1", "\x14\x10\x02\x10\x01"),
    GIVES("-1>-2", "\x14\x11\x10\x01\x11\x10\x02"),
    GIVES("(1&-2)>3", "\x14\x12\x10\x01\x11\x10\x02\x10\x03"),
    GIVES("-(1=2)", "\x11\x15\x10\x01\x10\x02"),
    GIVES("-(1=2)=3", "\x15\x11\x15\x10\x01\x10\x02\x10\x03"),
    GIVES("-1&2", "\x12\x11\x10\x01\x10\x02"),
    GIVES("1&2&3", "\x12\x12\x10\x01\x10\x02\x10\x03"),
    GIVES("(1&2)&3", "\x12\x12\x10\x01\x10\x02\x10\x03"),
    GIVES("1&(2&3)", "\x12\x10\x01\x12\x10\x02\x10\x03"),
    GIVES("1|2|3|4", "\x13\x13\x13\x10\x01\x10\x02\x10\x03\x10\x04"),
    GIVES("1|(2|3)|4", "\x13\x13\x10\x01\x13\x10\x02\x10\x03\x10\x04"),
    GIVES("(1|2)|(3|4)", "\x13\x13\x10\x01\x10\x02\x13\x10\x03\x10\x04"),
    GIVES("(1&2)|3", "\x13\x12\x10\x01\x10\x02\x10\x03"),
    GIVES("1|(2&3)", "\x13\x10\x01\x12\x10\x02\x10\x03"),
    GIVES("(1>2)>3", "\x14\x14\x10\x01\x10\x02\x10\x03"),
    GIVES("1>(2>3)", "\x14\x10\x01\x14\x10\x02\x10\x03"),
    GIVES("(1=2)>(3|4|5)", "\x14\x15\x10\x01\x10\x02\x13\x13\x10\x03\x10\x04\x10\x05"),
    GIVES("1&-(2|-3)&4", "\x12\x12\x10\x01\x11\x13\x10\x02\x11\x10\x03\x10\x04"),
    GIVES("(1&-2&3)|(4=5)", "\x13\x12\x12\x10\x01\x11\x10\x02\x10\x03\x15\x10\x04\x10\x05"),
    GIVES("1&-1", "\x12\x10\x01\x11\x10\x01"),
    GIVES("1|2|3|4|5|6|7|8|9", OR_5 "\x13\x13\x13\x10\x01\x10\x02\x10\x03\x10\x04\x10\x05\x10\x06\x10\x07\x10\x08\x10\x09"),
    /* brackets without need */
    GIVES("(1)", "\x10\x01"),
    GIVES("((1))", "\x10\x01"),
    GIVES("-(1)", "\x11\x10\x01"),
    GIVES("(-1)", "\x11\x10\x01"),
    GIVES("-(-(1))", "\x11\x11\x10\x01"),
    GIVES("(1>2)", "\x14\x10\x01\x10\x02"),
    GIVES("((1)>(2))", "\x14\x10\x01\x10\x02"),
    GIVES("((1&2))&3", "\x12\x12\x10\x01\x10\x02\x10\x03"),
    GIVES(OPEN_16 "1" CLOSE_16, "\x10\x01"),
    GIVES(OPEN_16 "1&2" CLOSE_16 ">3", "\x14\x12\x10\x01\x10\x02\x10\x03"),
    GIVES(OPEN_16 "1" CLOSE_16 "|" OPEN_16 "2" CLOSE_16, "\x13\x10\x01\x10\x02"),
    /* blanks: at the front, at the end, round any mark */
    GIVES(" 1", "\x10\x01"),
    GIVES("1 ", "\x10\x01"),
    {TEXT("   12   "), 200, 0, NO_PLACE, TEXT("\x10\x0C")},
    GIVES("- 1", "\x11\x10\x01"),
    GIVES("- - 1", "\x11\x11\x10\x01"),
    GIVES("( 1 )", "\x10\x01"),
    GIVES("  1  &  - 2  ", "\x12\x10\x01\x11\x10\x02"),
    GIVES("1 >2", "\x14\x10\x01\x10\x02"),
    GIVES("1> 2", "\x14\x10\x01\x10\x02"),
    GIVES(" ( 1 = - ( 2 | 3 ) ) ", "\x15\x10\x01\x11\x13\x10\x02\x10\x03"),
    /* numbers: leading zeros, and those that are no symbol, by their place in the bytes */
    GIVES("0001", "\x10\x01"),
    GIVES("01>002", "\x14\x10\x01\x10\x02"),
    GIVES(ZEROS_50 ZEROS_50 "9", "\x10\x09"),
    {TEXT("200"), 200, 0, NO_PLACE, TEXT("\x10\xC8")},
    {TEXT("00200|199"), 200, 0, NO_PLACE, TEXT("\x13\x10\xC8\x10\xC7")},
    {TEXT("201"), 200, 2, 1, TEXT("")},
    {TEXT("255"), 200, 2, 1, TEXT("")},
    {TEXT("256"), 200, 2, 1, TEXT("")},
    {TEXT("257"), 200, 2, 1, TEXT("")},
    {TEXT("1"), 1, 0, NO_PLACE, TEXT("\x10\x01")},
    {TEXT("2"), 1, 2, 1, TEXT("")},
    BREAKS("0", 2, 1),
    BREAKS("000", 2, 1),
    BREAKS("10", 2, 1),
    BREAKS("300", 2, 1),
    BREAKS("512", 2, 1),
    BREAKS("513", 2, 1),
    BREAKS("65536", 2, 1),
    BREAKS("65537", 2, 1),
    BREAKS("4294967297", 2, 1),
    BREAKS("18446744073709551617", 2, 1),
    BREAKS("340282366920938463463374607431768211457", 2, 1),
    BREAKS(NINES_50 NINES_50, 2, 1),
    BREAKS("1" ZEROS_50 "1", 2, 1),
    BREAKS("-300", 2, 2),
    BREAKS("((300))", 2, 1),
    BREAKS("   0   ", 2, 1),
    BREAKS("1&300", 2, 4),
    BREAKS("300&1", 2, 2),
    BREAKS("1&2&300", 2, 7),
    BREAKS("1&(2&300)", 2, 7),
    BREAKS("1 > -0", 2, 5),
    BREAKS("256>257", 2, 2),
    BREAKS("(1|2|3)=(4&0)", 2, 13),
    /* depth is that of the bytes */
    GIVES(MINUS_15 "1", NOTS_15 "\x10\x01"),
    BREAKS(MINUS_15 "-1", 5, 16),
    BREAKS(MINUS_15 "-300", 5, 16),
    BREAKS(MINUS_15 "300", 2, 16),
    BREAKS(MINUS_15 "(1&2)", 5, 16),
    BREAKS(MINUS_15 MINUS_15 "1", 5, 16),
    BREAKS("1&" MINUS_15 "1", 5, 18),
    BREAKS(MINUS_15 "1&1", 5, 16),
    BREAKS(MINUS_15 "1&300", 5, 16),
    BREAKS("300&" MINUS_15 "1", 2, 2),
    GIVES("1" AND_1_5 AND_1_5 AND_1_5, AND_5 AND_5 AND_5 ONES_5 ONES_5 ONES_5 "\x10\x01"),
    GIVES("1" OR_1_5 OR_1_5 OR_1_5, OR_5 OR_5 OR_5 ONES_5 ONES_5 ONES_5 "\x10\x01"),
    BREAKS("1" AND_1_5 AND_1_5 AND_1_5 "&1", 5, 16),
    BREAKS("1" OR_1_5 OR_1_5 OR_1_5 "|1", 5, 16),
    BREAKS("300" AND_1_5 AND_1_5 AND_1_5 "&1", 5, 16),
    BREAKS("1" AND_1_5 AND_1_5 AND_1_5 ">300", 15, 31),
    BREAKS("(1" AND_1_5 AND_1_5 AND_1_5 ")>300", 5, 16),
    BREAKS("(1" AND_1_5 AND_1_5 "&1&1&1&1)>300", 2, 46),
    /* where a text leaves the form */
    LEAVES("", 0),
    LEAVES(" ", 1),
    LEAVES("   ", 3),
    LEAVES("1 2", 2),
    LEAVES("1   2", 4),
    LEAVES("1 0", 2),
    LEAVES("1>2>3", 3),
    LEAVES("1=2=3", 3),
    LEAVES("1>2=3", 3),
    LEAVES("1=2>3", 3),
    LEAVES("1&2|3", 3),
    LEAVES("1|2&3", 3),
    LEAVES("1&2>3", 3),
    LEAVES("1|2=3", 3),
    LEAVES("1>2&3", 3),
    LEAVES("1=2|3", 3),
    LEAVES("1&2&3|4", 5),
    LEAVES("1 & -2 > 3", 7),
    LEAVES("(1>2>3)", 4),
    LEAVES("(1&2|3)&4", 4),
    LEAVES("(1&2)|3&4", 7),
    LEAVES("1 |(2|3)&4", 8),
    LEAVES("(1", 2),
    LEAVES("(1 ", 3),
    LEAVES("(", 1),
    LEAVES("((1)", 4),
    LEAVES("(1&", 3),
    LEAVES("-", 1),
    LEAVES("- ", 2),
    LEAVES("1&", 2),
    LEAVES("1> ", 3),
    LEAVES("1&-", 3),
    LEAVES(")", 0),
    LEAVES("1)", 1),
    LEAVES("(1))", 3),
    LEAVES("()", 1),
    LEAVES("( )", 2),
    LEAVES("1&()", 3),
    LEAVES("(-)", 2),
    LEAVES("&1", 0),
    LEAVES("1&&2", 2),
    LEAVES("1&|2", 2),
    LEAVES("1>>2", 2),
    LEAVES("1==2", 2),
    LEAVES("1->2", 1),
    LEAVES("1-2", 1),
    LEAVES("1 - 2", 2),
    LEAVES("1(2)", 1),
    LEAVES("1 (2)", 2),
    LEAVES("(1)2", 3),
    LEAVES("(1) 2", 4),
    LEAVES("(1)(2)", 3),
    LEAVES("(1)-2", 3),
    LEAVES("+1", 0),
    LEAVES("1+2", 1),
    LEAVES("~1", 0),
    LEAVES("!1", 0),
    LEAVES("1.", 1),
    LEAVES("1,2", 1),
    LEAVES("0x1", 1),
    LEAVES("x", 0),
    LEAVES("1\n", 1),
    LEAVES("\n1", 0),
    LEAVES("1\t&2", 1),
    LEAVES("\t1", 0),
    LEAVES("1\r\n", 1),
    LEAVES("1\0", 1),
    LEAVES("\0", 0),
    LEAVES("1&2\0", 3),
    LEAVES("1<2", 1),
    LEAVES("[1]", 0),
    LEAVES("{1}", 0),
    LEAVES("1\xA0", 1),
    LEAVES("\xC2\xA0" "1", 0),
    LEAVES("\xEF\xBB\xBF" "1", 0),
    LEAVES("1 & 2 c", 6),
    LEAVES(OPEN_16 "(1)" CLOSE_16, 16),
    LEAVES(OPEN_16 "(", 16),
    LEAVES(OPEN_16 OPEN_16, 16),
    LEAVES(OPEN_15 "1&((1))" ")))))))))))))))", 18),
    LEAVES(OPEN_16 "1" CLOSE_16 ")", 33),
    LEAVES(OPEN_16 "1" ")))))))))))))))", 32),
    LEAVES(OPEN_16, 16),
    /* 15 ahead of 2 and 5, wherever in the text it is due */
    LEAVES("300 300", 4),
    LEAVES("0&", 2),
    LEAVES("0&1|", 3),
    LEAVES("1&2|300", 3),
    LEAVES(MINUS_15 MINUS_15, 30),
    LEAVES(MINUS_15 MINUS_15 "1)", 31),
    LEAVES(MINUS_15 MINUS_15 "1&300>1", 35),
    LEAVES("1" AND_1_5 AND_1_5 AND_1_5 "&1&", 34),
    LEAVES("1" AND_1_5 AND_1_5 AND_1_5 "&1|1", 33),
    LEAVES(NINES_50 NINES_50 " 1", 101),
    /* no board: 1, whatever the text is */
    {TEXT("1"), 0, 1, NO_PLACE, TEXT("")},
    {TEXT(""), 0, 1, NO_PLACE, TEXT("")},
    {TEXT("300"), 0, 1, NO_PLACE, TEXT("")},
    {TEXT("1&2|3"), 0, 1, NO_PLACE, TEXT("")},
    {TEXT(MINUS_15 MINUS_15 "1"), 0, 1, NO_PLACE, TEXT("")},
};

static const Spelling formulae[] = {
    GIVES("\x10\x01", "1"),
    GIVES("\x11\x10\x01", "-1"),
    GIVES("\x11\x11\x10\x01", "--1"),
    GIVES("\x12\x10\x01\x10\x02", "1&2"),
    GIVES("\x13\x10\x01\x10\x02", "1|2"),
    GIVES("\x14\x10\x01\x10\x02", "1>2"),
    GIVES("\x15\x10\x01\x10\x02", "1=2"),
    GIVES("\x12\x12\x10\x01\x10\x02\x10\x03", "(1&2)&3"),
    GIVES("\x12\x10\x01\x12\x10\x02\x10\x03", "1&(2&3)"),
    GIVES("\x13\x13\x13\x10\x01\x10\x02\x10\x03\x10\x04", "((1|2)|3)|4"),
    GIVES("\x11\x15\x10\x01\x10\x02", "-(1=2)"),
    GIVES("\x11\x11\x12\x10\x01\x10\x02", "--(1&2)"),
    GIVES("\x14\x12\x10\x01\x11\x10\x02\x10\x03", "(1&-2)>3"),
    GIVES("\x14\x12\x10\x02\x10\x03\x10\x04", "(2&3)>4"),
    GIVES("\x12\x14\x10\x01\x10\x02\x14\x11\x10\x01\x10\x02", "(1>2)&(-1>2)"),
    GIVES("\x15\x11\x13\x10\x01\x10\x02\x11\x10\x09", "-(1|2)=-9"),
    GIVES("\x13\x12\x12\x10\x01\x11\x10\x02\x10\x03\x15\x10\x04\x10\x05", "((1&-2)&3)|(4=5)"),
    GIVES(NOTS_15 "\x10\x01", MINUS_15 "1"),
    GIVES("\x11" AND_5 AND_5 "\x12\x12\x12\x12" ONES_5 ONES_5 ONES_5, "-((((((((((((((1&1)&1)&1)&1)&1)&1)&1)&1)&1)&1)&1)&1)&1)&1)"),
    {TEXT("\x10\xC8"), 200, 0, NO_PLACE, TEXT("200")},
    {TEXT("\x14\x10\x0A\x10\x63"), 200, 0, NO_PLACE, TEXT("10>99")},
    {TEXT("\x15\x10\x64\x10\xC8"), 200, 0, NO_PLACE, TEXT("100=200")},
    /* as the byte reader refuses them */
    BREAKS("", 3, 0),
    BREAKS("\x10", 3, 1),
    BREAKS("\x10\x00", 2, 1),
    BREAKS("\x10\x0A", 2, 1),
    BREAKS("\x10\xFF", 2, 1),
    BREAKS("\x11", 3, 1),
    BREAKS("\x14\x10\x01", 3, 3),
    BREAKS("\x14\x10\x01\x10", 3, 4),
    BREAKS("\x12\x10\x01\x99", 4, 3),
    BREAKS("\x31", 4, 0),
    BREAKS("\x13\x10\x01\x10\x00", 2, 4),
    BREAKS("\x10\x01\x10", 6, 2),
    BREAKS("\x10\x01\x11\x10\x02", 6, 2),
    BREAKS(NOTS_15 "\x11", 5, 16),
    BREAKS(NOTS_15 "\x11\x10\x01", 5, 16),
    BREAKS(NOTS_15 "\x12\x10\x00\x10\x01", 5, 16),
    BREAKS(NOTS_15 "\x10\x00\x10", 2, 16),
    BREAKS("\x12\x10\x00\x99", 2, 2),
    {TEXT("\x10\x01"), 0, 1, NO_PLACE, TEXT("")},
    {TEXT(""), 0, 1, NO_PLACE, TEXT("")},
    {TEXT("\x99"), 0, 1, NO_PLACE, TEXT("")},
};

typedef bool Call(Play *play, const uint8_t *given, size_t length, size_t room);

/* Reads a text to bytes, with nothing standing behind it. */
static bool to_bytes(Play *play, const uint8_t *text, size_t length, size_t room) {
    return spelt_to_bytes(play, text, length, length, room, false);
}

/* True if a call comes to what is said, and writes it there: with room to spare, with just as much, and one byte short. */
static bool comes_to(Play *play, Call *call, const Spelling *it, const uint8_t *there) {
    const uint8_t *given = (const uint8_t *)it->given;
    if (!call(play, given, it->length, ROOMY) || !spelt_gave(play, it->refusal, it->place, it->count)) return false;
    if (it->refusal != 0) return call(play, given, it->length, 0) && spelt_gave(play, it->refusal, it->place, 0);
    return memcmp(there, it->due, it->count) == 0 &&
           call(play, given, it->length, it->count) && spelt_gave(play, 0, NO_PLACE, it->count) &&
           call(play, given, it->length, it->count - 1) && spelt_gave(play, 13, NO_PLACE, 0);
}

/* True if adding the rule from the text is refused so; or does what adding its bytes does. */
static bool adds(Play *play, const Spelling *it) {
    static int16_t rows[MOST_ROWS * WIDTH];
    if (!spelt_text_rule(play, (const uint8_t *)it->given, it->length, it->length, TABLE_LENDABLE, false)) return false;
    if (it->refusal != 0) return spelt_gave(play, it->refusal, it->place, 0) && play->board.rows == 0 && play->board.rules == 0;
    Outcome by_text = play->library_last;
    memcpy(rows, play->theirs.table + GUARD, by_text.added * WIDTH * sizeof rows[0]);
    if (!spelt_open(play, it->symbols) || !spelt_rule(play, (const uint8_t *)it->due, it->count, TABLE_LENDABLE)) return false;
    return by_text.refusal == play->library_last.refusal && by_text.added == play->library_last.added &&
           by_text.place == play->library_last.place && memcmp(rows, play->theirs.table + GUARD, by_text.added * WIDTH * sizeof rows[0]) == 0;
}

/* Tries one text on an empty board, or on none where S is 0. */
static bool try_text(Play *play, const Spelling *it) {
    play_start(play, 8, true);
    return (spelt_open(play, it->symbols) && comes_to(play, to_bytes, it, play->ours.formula + GUARD) && adds(play, it)) ||
           spelt_wrong(play, "a formula text spelt by hand", (const uint8_t *)it->given, it->length);
}

/* True if the text that was written is read to the formula's bytes again. */
static bool reads_again(Play *play, const Spelling *it) {
    return to_bytes(play, (const uint8_t *)it->due, it->count, it->length) && spelt_gave(play, 0, NO_PLACE, it->length) &&
           memcmp(play->ours.formula + GUARD, it->given, it->length) == 0;
}

/* Tries to write one formula. */
static bool try_formula(Play *play, const Spelling *it) {
    play_start(play, 8, true);
    return (spelt_open(play, it->symbols) && comes_to(play, spelt_to_text, it, play->ours.text + GUARD) &&
            (it->refusal != 0 || reads_again(play, it))) ||
           spelt_wrong(play, "a formula to be written as this", (const uint8_t *)it->due, it->count);
}

/* True if every text, and every formula to be written, comes out as the documents say. */
bool hand_spelt_agree(Play *play) {
    bool good = true;
    for (size_t i = 0; i < sizeof texts / sizeof texts[0]; i++) good = good && try_text(play, &texts[i]);
    for (size_t i = 0; i < sizeof formulae / sizeof formulae[0]; i++) good = good && try_formula(play, &formulae[i]);
    return good;
}
