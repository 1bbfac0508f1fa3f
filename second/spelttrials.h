/* Trials of formula text outside the random sequences: spelt by hand, damaged in every place, long, at every room, there and back, and the place of
 * every 15 by its definition. */
#ifndef SPELTTRIALS_H
#define SPELTTRIALS_H

#include "random.h"
#include "steps.h"

enum { ROOMY = 1000 }; /* bytes that any short formula or its text fits */

/* spelttrials.c: the calls that trials make, each compared and counted; false where the two sides differ. */
bool spelt_open(Play *play, unsigned symbols);
bool spelt_to_bytes(Play *play, const uint8_t *text, size_t bytes, size_t standing, size_t room, bool torn);
bool spelt_text_rule(Play *play, const uint8_t *text, size_t bytes, size_t standing, size_t numbers, bool torn);
bool spelt_to_text(Play *play, const uint8_t *formula, size_t bytes, size_t room);
bool spelt_rule(Play *play, const uint8_t *formula, size_t bytes, size_t numbers);
bool spelt_gave(const Play *play, unsigned refusal, size_t place, size_t written);
bool spelt_wrong(const Play *play, const char *what, const uint8_t *text, size_t bytes);

/* handspelt.c */
bool hand_spelt_agree(Play *play);

/* boardspelt.c */
bool boards_spelt_agree(Play *play);

/* tornspelt.c */
bool torn_spelt_agree(Play *play, uint64_t seed);

/* longspelt.c */
bool long_spelt_agree(Play *play);

/* spelttrips.c */
bool spelt_trips_agree(Play *play, uint64_t seed);
bool spelt_rooms_agree(Play *play, uint64_t seed);
bool spelt_places_agree(Play *play, uint64_t seed);

#endif
