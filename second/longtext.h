/* One long text, put together word by word. */
#ifndef LONGTEXT_H
#define LONGTEXT_H

#include "steps.h"

extern uint8_t long_text[TEXT_LENDABLE];
extern size_t long_length;

void start_with(const char *words);
void add(const char *words, size_t times);

#endif
