/* What a run must have met: see demands.h. */
#include "demands.h"

#include <inttypes.h>
#include <stdio.h>

void demand(uint64_t count, const char *what, const char *of, uint64_t *failed) {
  printf("%9" PRIu64 " %s%s\n", count, what, of);
  if (count > 0) return;
  printf("FAILED: never met: %s%s\n", what, of);
  ++*failed;
}

void demand_each(const char *what, const uint64_t *counts, const char *const *words, unsigned count, uint64_t *failed) {
  uint64_t least = UINT64_MAX;
  printf("          %s:", what);
  for (unsigned i = 0; i < count; i++) {
    printf("%s %s: %" PRIu64, i == 0 ? "" : ",", words[i], counts[i]);
    if (counts[i] < least) least = counts[i];
  }
  printf("\n");
  demand(least, what, ", the least of these", failed);
}
