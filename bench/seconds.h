/* The clock of the bench. A file that includes this defines _DEFAULT_SOURCE first. */
#ifndef SECONDS_H
#define SECONDS_H

#include <time.h>

/* Of the processor, so that other work on the machine counts little. */
static inline double seconds(void) {
  struct timespec t;
  clock_gettime(CLOCK_PROCESS_CPUTIME_ID, &t);
  return (double)t.tv_sec + 1e-9 * (double)t.tv_nsec;
}

#endif
