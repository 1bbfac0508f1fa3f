/* Scripts for desk: drawn at random, and made by hand. */
#ifndef SCRIPTS_H
#define SCRIPTS_H

#include "scribe.h"

/* scripts.c */
void start_scribe(Scribe *scribe, Desk *desk, FILE *in, Random random);
void write_before_open(Scribe *scribe);
void write_random_script(Scribe *scribe);
void write_last_line(Scribe *scribe);

/* handscripts.c: those made by hand, of which there are so many. */
unsigned hand_scripts(void);
void write_hand_script(Scribe *scribe, unsigned number);

#endif
