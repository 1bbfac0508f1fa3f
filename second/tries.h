/* What trials outside the random sequences have in common: calls, acts of the caller's and rows by hand, played on both sides; the rows and marks
 * that they leave; what is said where a board made by hand goes wrong; and drawing what is tried. */
#ifndef TRIES_H
#define TRIES_H

#include "random.h"
#include "steps.h"

Step try_step(Kind kind, unsigned furnace, int value);
bool try_counted(Play *play, const Step *step);
bool try_call(Play *play, Kind kind, unsigned furnace, int value, unsigned refusal);
bool try_open(Play *play, unsigned symbols, const char *const *rules, unsigned most);
bool try_hold(Play *play, unsigned furnace, const int *literals, unsigned most);
Step try_lent(Kind kind, unsigned furnace, int value, size_t places);
Step try_least(unsigned furnace, const int16_t *candidates, size_t count, uint64_t noise);
void try_act(Play *play, Kind kind, unsigned place, int value);
void try_row(Play *play, const int16_t row[ROW_LITERALS]);
unsigned try_any_of_12(Play *play, unsigned size, int mark, uint16_t *sets);
bool try_full_table(Play *play, const int16_t last[ROW_LITERALS]);
bool try_has_row(const Play *play, unsigned row, const int16_t literals[ROW_LITERALS], unsigned rule);
bool try_marked(const Play *play, const int *premises, unsigned most);
bool try_wrong(const Play *play, const char *words, const char *of, unsigned number);
bool try_drawn(Play *play, uint64_t seed, uint64_t stream, unsigned count, bool (*agrees)(Play *, Random *));

#endif
