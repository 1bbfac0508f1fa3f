/* Trials of texts outside the random sequences: spelt by hand, damaged in every place, long, written at every room, and read back. */
#ifndef TEXTTRIALS_H
#define TEXTTRIALS_H

#include "random.h"
#include "steps.h"

/* texttrials.c: the calls that trials make, each compared and counted; false where the two sides differ. */
bool text_open(Play *play, unsigned symbols);
bool text_read(Play *play, const uint8_t *text, size_t bytes, size_t standing, size_t numbers, bool torn);
bool text_write(Play *play, size_t numbers, size_t room);
bool text_wrong(const Play *play, const char *what, const uint8_t *text, size_t bytes);
void text_noise(Play *play, uint64_t seed);

/* spellings.c */
bool spellings_agree(Play *play);

/* torn.c */
bool torn_texts_agree(Play *play, uint64_t seed);

/* longtexts.c */
bool long_texts_agree(Play *play);

/* trips.c */
bool trip_back(Play *play);
bool rooms_agree(Play *play, uint64_t seed);
bool rules_agree(Play *play, uint64_t seed);

#endif
