/* The clock of the measure. */
#define _POSIX_C_SOURCE 200809L
#include "timing.h"

#include <time.h>

double clock_ns(void) {
    struct timespec time;
    clock_gettime(CLOCK_PROCESS_CPUTIME_ID, &time);
    return 1e9 * (double)time.tv_sec + (double)time.tv_nsec;
}
