/* Files of a folder, by number. */
#ifndef FOLDER_H
#define FOLDER_H

#include <stdint.h>
#include <stdio.h>

/* Opens DIRECTORY/NNN.END, with so many digits, to be written and read back; NULL, with a message, where it can't be. */
FILE *open_numbered(const char *directory, uint64_t n, unsigned digits, const char *end);

#endif
