/* Chance for the tests: the same seed gives the same numbers on every machine. */
#ifndef CHANCE_H
#define CHANCE_H

#include <stdbool.h>
#include <stddef.h>
#include <stdint.h>

struct random {
  uint64_t state;
};

uint64_t random_next(struct random *r);
unsigned below(struct random *r, unsigned bound);                /* 0 to bound - 1 */
unsigned between(struct random *r, unsigned low, unsigned high); /* low to high */
bool chance(struct random *r, unsigned percent);
unsigned pick(struct random *r, const unsigned *from, size_t count);
#define PICK(r, ...) \
  pick(r, (const unsigned[]){__VA_ARGS__}, sizeof((const unsigned[]){__VA_ARGS__}) / sizeof(unsigned))

#endif
