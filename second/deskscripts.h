/* Random scripts for the program desk and what it has to print for them, by the model; and noise for it. */
#ifndef DESKSCRIPTS_H
#define DESKSCRIPTS_H

#include <stdint.h>

int write_desk_scripts(const char *directory, uint64_t seed, uint64_t count);
int write_noise(uint64_t seed, uint64_t lines);

#endif
