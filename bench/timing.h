/* How the measure times: the best of several runs, each of so many calls that they take long enough; times are the processor's. */
#ifndef TIMING_H
#define TIMING_H

enum { RUNS = 15, BATCH_NS = 4000000 };

/* The processor's time so far. */
double clock_ns(void);

#endif
