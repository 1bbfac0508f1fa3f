/* Random texts for the program cnf, and what it has to write and say of them, by the model. */
#ifndef CNF_H
#define CNF_H

#include <stdint.h>

int write_texts(const char *directory, uint64_t seed, uint64_t count);

#endif
