/* The least time of calls: see times.h. */
#define _DEFAULT_SOURCE
#include "times.h"

#include "seconds.h"
#include "spaldep.h"

enum { ROUNDS = 60 };
static const double ROUND_SECONDS = 0.0015;

/* Seconds a call, over `calls` calls. */
static double round_of(pass run, const struct workload *w, unsigned calls) {
  static uint8_t result[SPALDEP_RESULT_BYTES_MAX];
  double from = seconds();
  for (unsigned i = 0; i < calls; i++) run(w, result);
  return (seconds() - from) / calls;
}

static unsigned calls_a_round(pass run, const struct workload *w) {
  double once = round_of(run, w, 1);
  once = once > 1e-7 ? once : 1e-7;
  return once < ROUND_SECONDS ? (unsigned)(ROUND_SECONDS / once) : 1;
}

void time_in_turn(unsigned count, const pass *passes, const struct workload *w, double *least) {
  unsigned calls[MOST_IN_TURN];
  for (unsigned i = 0; i < count; i++) {
    calls[i] = calls_a_round(passes[i], w);
    least[i] = 1e9;
  }
  for (unsigned i = 0; i < ROUNDS * count; i++) {
    unsigned turn = i % count;
    double taken = round_of(passes[turn], w, calls[turn]);
    if (taken < least[turn]) least[turn] = taken;
  }
}
