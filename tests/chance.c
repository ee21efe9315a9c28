/* Chance: see chance.h. */
#include "chance.h"

uint64_t random_next(struct random *r) {
  uint64_t z = r->state += 0x9e3779b97f4a7c15u;
  z = (z ^ z >> 30) * 0xbf58476d1ce4e5b9u;
  z = (z ^ z >> 27) * 0x94d049bb133111ebu;
  return z ^ z >> 31;
}

unsigned below(struct random *r, unsigned bound) { return (unsigned)(random_next(r) % bound); }

unsigned between(struct random *r, unsigned low, unsigned high) { return low + below(r, high - low + 1); }

bool chance(struct random *r, unsigned percent) { return below(r, 100) < percent; }

unsigned pick(struct random *r, const unsigned *from, size_t count) { return from[below(r, (unsigned)count)]; }
