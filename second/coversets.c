/* Counts of the lists of smallest sets that were made: their sets and sizes, sets that a conflict keeps off them, the candidates and premises that
 * could make them other ones, and the room lent for them. */
#include <stdio.h>

#include "cover.h"

enum { HIGHEST_BIT = 1 << (MOST_CANDIDATES - 1), SIXTEEN_BITS = 65536 };

/* Cases, each of which has to come up. */
enum {
    NONE_OF_NONE, ZERO_OF_NONE, NO_SET, ONLY_ZERO, ONE_SET, TWO_WAYS, APART, SHARED, TEN_SETS, TWO_SIZES, THREE_SIZES, OTHER_BY_NUMBER, OF_SIZE_4,
    ALL_NEEDED, HIGHEST_LISTED, OF_12, OF_12_SEVERAL, LARGER_NOT_LISTED, KEPT_OFF, KEPT_OFF_BESIDE, ALL_KEPT_OFF, CONFLICT_INSIDE, CLASH, ROWS_CLASH,
    ROWS_CLASH_DERIVE, OPPOSITES, OPPOSITES_LISTED, ITSELF, ITSELF_AND_WAY, ITSELF_KEPT_OFF, ITS_OPPOSITE, LED_BY_1, LED_BY_2, CONFLICT_OF_1,
    CONFLICT_OF_2, BOTH_MATTER, LISTED_HELD, FULL_TABLE, SYMBOL_200, ROOM_JUST, ROOM_MORE, ROOM_NONE, ROOM_ALL, ROOM_PAST_16_BITS, ONE_SHORT,
    NONE_LENT, SHORT_OF_12, OWN_GROUND,
    CASES
};

static const char *const case_words[CASES] = {
    "no candidates, no set", "no candidates, the set 0", "candidates, and no set", "candidates, and the set 0", "one set", "two sets or more",
    "two sets with no candidate in common", "two sets with one in common", "10 sets or more", "sets of two sizes", "sets of three sizes or more",
    "by number alone in another order", "a set of 4 candidates or more", "all of 3 candidates or more needed", "the twelfth candidate listed",
    "12 candidates", "12 candidates, two sets or more", "a larger set that derives it, not listed", "a set kept off by its conflict",
    "the same beside a listed one", "the same, and no set listed", "in conflict, one in conflict inside it", "two listed sets in conflict together",
    "the rows alone in conflict", "the rows alone derive it in conflict", "a candidate and its opposite", "both of these in listed sets",
    "the literal itself a candidate", "the literal itself, and another way", "the literal itself kept off", "its opposite a candidate",
    "premises of 1 derive it, no set 0", "premises of 2 derive it, no set 0", "premises of 1 in conflict, sets listed",
    "premises of 2 in conflict, sets listed", "premises of 1 and 2 would change the list", "a listed candidate that is held", "2,048 rows",
    "a set listed for 200 or -200", "room for just the list", "room for more", "no room and no set", "room for 4,096", "room past 16 bits",
    "13 with one place missing", "13 with no place lent", "13 of 12 candidates", "premises all candidates, a listed set in the ground"};

static unsigned long cases[CASES], lists, listed, carried, grounds;
static unsigned most_listed;

/* True if a smaller set inside the set derives the literal: one with a candidate fewer then does, since more held derive no less. */
static bool smaller_derives(const Weighed *weighed, unsigned set, bool in_conflict_only) {
    for (unsigned i = 0; i < weighed->candidates; i++) {
        unsigned less = set & ~(1u << i);
        if (less != set && weighed->derives[less] && (!in_conflict_only || weighed->conflict[less])) return true;
    }
    return false;
}

/* True if the set derives the literal, and none inside it does, but it is in conflict. */
static bool is_kept_off(const Weighed *weighed, unsigned set) {
    return weighed->derives[set] && weighed->conflict[set] && !smaller_derives(weighed, set, false);
}

/* Counts what a conflict keeps off the list, and what is larger than a listed set. */
static void cover_unlisted(const Weighed *weighed) {
    bool larger = false, kept_off = false, inside = false;
    for (unsigned set = 0; set < 1u << weighed->candidates; set++) {
        if (!weighed->derives[set]) continue;
        larger |= !weighed->conflict[set] && smaller_derives(weighed, set, false);
        kept_off |= set != 0 && is_kept_off(weighed, set);
        inside |= weighed->conflict[set] && smaller_derives(weighed, set, true);
    }
    cases[LARGER_NOT_LISTED] += larger;
    cases[KEPT_OFF] += kept_off;
    cases[KEPT_OFF_BESIDE] += kept_off && weighed->listed > 0;
    cases[ALL_KEPT_OFF] += kept_off && weighed->listed == 0;
    cases[CONFLICT_INSIDE] += inside;
    cases[ROWS_CLASH] += weighed->conflict[0];
    cases[ROWS_CLASH_DERIVE] += weighed->conflict[0] && weighed->derives[0];
}

/* Counts pairs of listed sets. */
static void cover_pairs(const Weighed *weighed, const uint16_t *sets) {
    bool apart = false, shared = false, clash = false;
    for (unsigned i = 0; i < weighed->listed; i++) {
        for (unsigned j = 0; j < i; j++) {
            apart |= (sets[i] & sets[j]) == 0;
            shared |= (sets[i] & sets[j]) != 0;
            clash |= weighed->conflict[sets[i] | sets[j]];
        }
    }
    cases[APART] += apart;
    cases[SHARED] += shared;
    cases[CLASH] += clash;
}

/* Counts the sizes of the listed sets, and whether they come in another order by their numbers. */
static void cover_sizes(const Weighed *weighed, const uint16_t *sets) {
    unsigned sizes = 0;
    bool falling = false, highest = false;
    for (unsigned i = 0; i < weighed->listed; i++) {
        sizes |= 1u << set_size(sets[i]);
        falling |= i > 0 && sets[i] < sets[i - 1];
        highest |= (sets[i] & HIGHEST_BIT) != 0;
    }
    cases[TWO_SIZES] += set_size(sizes) == 2;
    cases[THREE_SIZES] += set_size(sizes) > 2;
    cases[OTHER_BY_NUMBER] += falling;
    cases[OF_SIZE_4] += sizes >= 1u << 4;
    cases[ALL_NEEDED] += weighed->candidates > 2 && sizes == 1u << weighed->candidates;
    cases[HIGHEST_LISTED] += highest;
}

/* Counts how many sets were listed, of how many candidates. */
static void cover_count(const Weighed *weighed, const uint16_t *sets) {
    unsigned count = weighed->listed;
    bool zero = count == 1 && sets[0] == 0;
    lists++;
    listed += count;
    if (count > most_listed) most_listed = count;
    if (weighed->candidates == 0) cases[zero ? ZERO_OF_NONE : NONE_OF_NONE]++;
    else cases[NO_SET] += count == 0, cases[ONLY_ZERO] += zero;
    cases[ONE_SET] += count == 1 && !zero;
    cases[TWO_WAYS] += count > 1;
    cases[TEN_SETS] += count >= 10;
    cases[OF_12] += weighed->candidates == MOST_CANDIDATES;
    cases[OF_12_SEVERAL] += weighed->candidates == MOST_CANDIDATES && count > 1;
}

/* The candidates in listed sets. */
static unsigned all_listed(const Weighed *weighed, const uint16_t *sets) {
    unsigned all = 0;
    for (unsigned i = 0; i < weighed->listed; i++) all |= sets[i];
    return all;
}

/* Counts candidates beside their opposites and beside the literal. */
static void cover_kinship(const Step *step, const Weighed *weighed, const uint16_t *sets) {
    unsigned all = all_listed(weighed, sets);
    bool opposites = false, both_listed = false;
    for (unsigned i = 0; i < weighed->candidates; i++) {
        for (unsigned j = 0; j < i; j++) {
            if (step->candidates[i] != -step->candidates[j]) continue;
            opposites = true;
            both_listed |= (all >> i & all >> j & 1) != 0;
        }
        bool itself = step->candidates[i] == step->value;
        cases[ITSELF] += itself;
        cases[ITSELF_AND_WAY] += itself && (all >> i & 1) != 0 && weighed->listed > 1;
        cases[ITSELF_KEPT_OFF] += itself && is_kept_off(weighed, 1u << i);
        cases[ITS_OPPOSITE] += step->candidates[i] == -step->value;
    }
    cases[OPPOSITES] += opposites;
    cases[OPPOSITES_LISTED] += both_listed;
}

/* Counts premises that are held on the board and would make another list if they counted: they derive the literal, so that it would be the set 0, or
 * they are in conflict, so that it would be empty. */
static void cover_premises(const Play *play, const Step *step, const Weighed *weighed, const uint16_t *sets) {
    unsigned all = all_listed(weighed, sets);
    bool matters[FURNACES], held = false;
    for (unsigned f = 1; f <= FURNACES; f++) {
        Findings found = propagate(&play->board, f, play->ours.table + GUARD);
        bool conflict = first_conflict(&play->board, &found) != 0 && weighed->listed > 0;
        bool leads = first_conflict(&play->board, &found) == 0 && derived(&found, place_of(step->value)) && !weighed->derives[0];
        cases[f == 1 ? LED_BY_1 : LED_BY_2] += leads;
        cases[f == 1 ? CONFLICT_OF_1 : CONFLICT_OF_2] += conflict;
        matters[f - 1] = leads || conflict;
        for (unsigned i = 0; i < weighed->candidates; i++)
            held |= (all >> i & 1) != 0 && premises_of(&play->board, f)[place_of(step->candidates[i])];
    }
    cases[BOTH_MATTER] += matters[0] && matters[1];
    cases[LISTED_HELD] += held;
}

/* Counts the room lent for a list that was made, and how large its board is. */
static void cover_room(const Play *play, const Step *step, const Weighed *weighed) {
    unsigned count = weighed->listed;
    size_t room = step->lent[0];
    cases[ROOM_JUST] += count > 0 && room == count;
    cases[ROOM_MORE] += count > 0 && room > count;
    cases[ROOM_NONE] += count == 0 && room == 0;
    cases[ROOM_ALL] += count > 0 && room == ALL_SETS;
    cases[ROOM_PAST_16_BITS] += count > room % SIXTEEN_BITS && room >= SIXTEEN_BITS;
    cases[FULL_TABLE] += play->board.rows == MOST_ROWS;
    cases[SYMBOL_200] += count > 0 && (step->value == MOST_SYMBOLS || step->value == -MOST_SYMBOLS);
}

/* Counts a list that was made or found longer than its room. */
void cover_sets(const Play *play, const Step *step) {
    const Weighed *weighed = last_weighed();
    const uint16_t *sets = play->ours.sets + GUARD;
    if (play->last.refusal == 13) {
        cases[ONE_SHORT] += step->lent[0] + 1 == weighed->listed;
        cases[NONE_LENT] += step->lent[0] == 0;
        cases[SHORT_OF_12] += weighed->candidates == MOST_CANDIDATES;
    }
    if (play->last.refusal != 0) return;
    cover_count(weighed, sets);
    cover_sizes(weighed, sets);
    cover_pairs(weighed, sets);
    cover_unlisted(weighed);
    cover_kinship(step, weighed, sets);
    cover_premises(play, step, weighed, sets);
    cover_room(play, step, weighed);
    cases[OWN_GROUND] += play->own_grounds > 0;
    carried += play->carried;
    grounds += play->grounds;
}

/* Prints the closing line of the lists. */
static void print_close(void) {
    printf("smallest sets: %lu lists of %lu sets, the longest of %u; %lu sets held alone by the library, and a listed one inside %lu grounds\n",
           lists, listed, most_listed, carried, grounds);
}

/* True if all that can come up in lists did, but for the cases; says what did not. */
static bool is_whole(void) {
    bool whole = came_up(carried, "sets held alone", "smallest sets:", 0);
    whole &= came_up(grounds, "grounds", "smallest sets:", 0);
    return whole;
}

const Part sets_part = {.cases = {"smallest sets listed with", case_words, cases, CASES, 50}, .print_close = print_close, .is_whole = is_whole};
