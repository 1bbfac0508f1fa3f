/* Random journals and what the journal program has to print for them, by the model. */
#ifndef JOURNAL_H
#define JOURNAL_H

#include <stdint.h>

int write_journals(const char *directory, uint64_t seed, uint64_t count);

#endif
