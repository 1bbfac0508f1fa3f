/* What the sequences covered, and what they should have covered. */
#ifndef COVER_H
#define COVER_H

#include "network.h"
#include "outside.h"
#include "steps.h"

enum { NUMBERS = 22 }; /* of refusals, and 0 for a call that is done */

void cover_step(const Play *play, const Step *step);
void cover_print(void);
bool cover_is_whole(void);
unsigned long cover_calls(void);
bool can_refuse(unsigned kind, unsigned number);
bool came_up(unsigned long count, const char *what, const char *of, unsigned number);
bool cases_came_up(const char *const words[], const unsigned long counts[], unsigned count, const char *of);

/* Counts in rows and columns. Those that can come up have to; for the others there is a dot. */
typedef struct Table {
    const char *title;
    const char *const *rows, *const *columns;
    unsigned row_count, column_count;
    const unsigned long *counts; /* row by row */
    bool (*can_come_up)(unsigned row, unsigned column);
} Table;

void print_table(const Table *table);
bool table_came_up(const Table *table);

/* Cases, each of which has to come up: the title over them, if there is one, their words and counts. */
typedef struct Cases {
    const char *title;
    const char *const *words;
    const unsigned long *counts;
    unsigned count;
    int width; /* of the words as they are printed */
} Cases;

/* What one file counts. Besides the cases, all of it is for those that have it: what is printed ahead of them, after them and at the end, and whether
 * all came up that is no case. */
typedef struct Part {
    Cases cases;
    void (*print_ahead)(void);
    void (*print_after)(void);
    void (*print_close)(void);
    bool (*is_whole)(void);
} Part;

extern const Part rows_part, blame_part, answers_part, furnace_part, stacks_part, spoilt_part, rules_part, outside_part, candidates_part, sets_part,
    held_part, least_part, positions_part, arcs_part, text_part, faults_part, spelt_part;

/* coverrows.c: the rounds of the boards settled. */
void cover_rows(const Play *play, unsigned furnace);

/* coverblame.c: the symbols that good blames took. */
void cover_blame(const Play *play, unsigned furnace, unsigned marks);

/* coveranswers.c: what was asked, by symbol and of the whole board. */
void cover_answers(const Play *play, const Step *step);

/* coverfurnace.c: what was told to the two furnaces. */
void cover_furnace(const Play *play, const Step *step);
bool held_before(const Play *play, unsigned furnace);
bool odd_before(const Play *play, unsigned furnace);
void cover_apart(unsigned furnace, unsigned struck);
void cover_compared(unsigned furnace, Kind kind);

/* coverrules.c: the numbers of rules, and their count. */
void cover_rules(const Play *play, const Step *step);

/* coveroutside.c: what was withdrawn outside the grounds of literals, and what else may move one. */
void cover_kept(const Play *play, const Trial *trial);
void cover_rest(const Trial *trial, const bool off[PLACES]);
void cover_moved(const Trial *trial, Kind by);

/* covercandidates.c: the candidates that were given, and how calls were refused for them. */
void cover_candidates(const Play *play, const Step *step);
bool rows_are_left(unsigned damage);

/* coversets.c: the lists of smallest sets that were made. */
void cover_sets(const Play *play, const Step *step);

/* coverleast.c: the least to withdraw, as it was told. */
void cover_least(const Play *play, const Step *step);

/* coverheld.c: how calls for the least to withdraw were refused, and for which candidates that are not held. */
void cover_held(const Play *play, const Step *step);

/* coverpositions.c: the position variables and pair tables that calls in the sequences were given. */
void cover_positions(const Play *play, const Step *step);

/* coverstacks.c: what was pushed and popped, and what a stack refuses. */
void cover_stacks(const Play *play, const Step *step);

/* coverspoilt.c: the records that were spoilt ahead of calls. */
void cover_spoilt(const Play *play, const Step *step);

/* coverarcs.c: the networks of position variables on which positions were removed. */
void cover_network(const Network *network);
void cover_seen(const Network *network, const Seen *seen);

/* covertext.c: the texts read and written. */
void cover_text(const Play *play, const Step *step);
void cover_trip(void);
void cover_by_rules(void);

/* coverspelt.c: the formula texts read and written. */
void cover_spelt(const Play *play, const Step *step);
void cover_spelt_trip(void);
void cover_both_ways(void);
void cover_definition(void);

/* coverfaults.c: how formula texts left the form. */
void cover_fault_at(const uint8_t *text, size_t bytes, size_t place);

#endif
