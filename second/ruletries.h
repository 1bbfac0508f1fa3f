/* Trials of the numbers of rules outside the random sequences. */
#ifndef RULETRIES_H
#define RULETRIES_H

#include "steps.h"

/* ruletries.c: the numbers that rules are given. */
bool rule_tries_agree(Play *play);

/* numbertries.c: the numbers and counts that the caller wrote, and the lengths that he lends. */
bool number_tries_agree(Play *play);

#endif
