/* What document 02's Ticket 11 says of every answer, tested on the library's own and without the model. A symbol has label 3 exactly "where the
 * literal and its opposite are both derived"; so ask tells of +s that it stands for label 1, is ruled out for 2, in conflict for 3 and open for 0,
 * and of -s the same with 1 and 2 exchanged. "The old answer stays as a second call": that one is refused as ask is; where no label is 3 it answers
 * what ask answers, and where one is, conflict for every literal. */
#include <string.h>

#include "steps.h"

enum { MANY_ROWS = 150, FEW_LITERALS = 6, ALL_EVERY = 8 };

/* How a literal stands by the label of its symbol. */
static unsigned standing_by(unsigned label, int literal) {
    if (label == 0) return IS_OPEN;
    if (label == 3) return IN_CONFLICT;
    return (label == 1) == (literal > 0) ? STANDS : RULED_OUT;
}

/* Makes one of the two calls that ask, for a literal, with what the step names and lends. */
static Outcome ask_by(Play *play, const Step *step, Kind kind, int literal) {
    tup_board board = play->library_board;
    Step asking = *step;
    asking.kind = kind;
    asking.value = literal;
    return library_call(&asking, &board, &play->theirs);
}

/* True if the other one of the two calls is refused as this one is, and tells no more. */
static bool other_is_refused(Play *play, const Step *step) {
    Outcome other = ask_by(play, step, step->kind == ASK ? ASK_WHOLE : ASK, step->value);
    return same(play, "the other call that asks, refusal (model: the library's to this one)", NONE, other.refusal, play->library_last.refusal) &&
           same(play, "the other call that asks, standing where refused", NONE, other.standing, IS_OPEN);
}

/* True if both calls answer for the literal at a place as the labels say. */
static bool place_follows(Play *play, const Step *step, const uint8_t *labels, unsigned place) {
    int literal = literal_at(place);
    Outcome by_symbol = ask_by(play, step, ASK, literal), whole = ask_by(play, step, ASK_WHOLE, literal);
    unsigned due = standing_by(labels[place / 2], literal);
    bool conflict = memchr(labels, 3, play->library_board.symbols) != NULL;
    play->asked++;
    play->hidden += conflict && due != IN_CONFLICT;
    return same(play, "ask beside settle, refusal,", place, by_symbol.refusal, 0) &&
           same(play, "ask whole beside settle, refusal,", place, whole.refusal, 0) &&
           same(play, "ask (model: what the library's label says),", place, by_symbol.standing, due) &&
           same(play, "ask whole (model: what the library's labels say),", place, whole.standing, conflict ? IN_CONFLICT : due);
}

/* For how many literals both calls are made beside the step: for that of an ask; now and then, and always where a step has no noise, as on most
 * boards made by hand, for every literal of the board, or for a few where there are many rows. */
static unsigned places_asked(const Play *play, const Step *step) {
    unsigned places = 2u * play->library_board.symbols;
    if ((step->noise >> 16) % ALL_EVERY != 0) return asks(step->kind) ? 1 : 0;
    return play->library_board.rows > MANY_ROWS && places > FEW_LITERALS ? FEW_LITERALS : places;
}

/* True if both calls answer as the labels say: for the literal of an ask and those after it, or after a settle from some literal on. */
static bool places_follow(Play *play, const Step *step, const uint8_t *labels) {
    unsigned places = 2u * play->library_board.symbols, count = places_asked(play, step);
    unsigned from = asks(step->kind) ? place_of(step->value) : (unsigned)(step->noise >> 24) % places;
    for (unsigned i = 0; i < count; i++)
        if (!place_follows(play, step, labels, (from + i) % places)) return false;
    return true;
}

/* True if the library's answers follow from its labels, after a settle or an ask that came out as the model's did; notes where they do not. */
bool answers_follow(Play *play, const Step *step) {
    if (play->last.refusal != 0) return !asks(step->kind) || other_is_refused(play, step);
    if (step->kind == SETTLE) return places_follow(play, step, play->theirs.labels + GUARD);
    Settled settled = library_settle(&play->library_board, play->theirs.table + GUARD, step->numbers, step->furnace);
    return same(play, "settle beside ask, refusal", NONE, settled.refusal, 0) && places_follow(play, step, settled.labels);
}
