/* Files of a folder, by number. */
#include "folder.h"

FILE *open_numbered(const char *directory, uint64_t n, unsigned digits, const char *end) {
    char name[4096];
    snprintf(name, sizeof name, "%s/%0*llu.%s", directory, (int)digits, (unsigned long long)n, end);
    FILE *file = fopen(name, "w+b");
    if (file == NULL) perror(name);
    return file;
}
