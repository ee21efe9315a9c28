/* What a run must have met: counts that are printed, and that fail where they are 0. */
#ifndef DEMANDS_H
#define DEMANDS_H

#include <stdint.h>

/* Prints a count, and what it is a count of in two pieces; adds one to *failed where it is 0. */
void demand(uint64_t count, const char *what, const char *of, uint64_t *failed);

/* Several counts in one line, each behind its word; the least of them is demanded. */
void demand_each(const char *what, const uint64_t *counts, const char *const *words, unsigned count, uint64_t *failed);

#endif
