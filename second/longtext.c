/* One long text, put together word by word: for DIMACS text and for formula text. */
#include <string.h>

#include "longtext.h"

uint8_t long_text[TEXT_LENDABLE];
size_t long_length;

/* Starts the text with these words. */
void start_with(const char *words) {
    long_length = strlen(words);
    memcpy(long_text, words, long_length);
}

/* Adds words so many times. */
void add(const char *words, size_t times) {
    for (size_t i = 0; i < times; i++) {
        memcpy(long_text + long_length, words, strlen(words));
        long_length += strlen(words);
    }
}
