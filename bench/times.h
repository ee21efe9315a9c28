/* The least time of calls. */
#ifndef TIMES_H
#define TIMES_H

#include "passes.h"
#include "workloads.h"

enum { MOST_IN_TURN = 8 };

/* The least time a call of each of `count` passes, in seconds, of several rounds in which they are taken in turn. */
void time_in_turn(unsigned count, const pass *passes, const struct workload *w, double *least);

#endif
