/* Readings that are tried and taken back: boards and records made by hand, and random tries nested in one another. */
#ifndef STACKTRIES_H
#define STACKTRIES_H

#include "steps.h"

/* stacktries.c */
bool stack_tries_agree(Play *play);

/* recordtries.c */
bool record_tries_agree(Play *play);

/* deeptries.c */
bool deep_tries_agree(Play *play);

/* nested.c */
bool nested_tries_agree(Play *play, uint64_t seed);

#endif
