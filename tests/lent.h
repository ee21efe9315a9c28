/*
 * Lent memory for the tests: a slice that ends where a page begins that nothing may touch, with guard bytes in front.
 * A read or write behind the slice stops the program, a write before it is found by lent_whole. Slices of odd lengths
 * begin at odd addresses, and a slice of length 0 begins at the forbidden page.
 */
#ifndef LENT_H
#define LENT_H

#include <stdbool.h>
#include <stddef.h>
#include <stdint.h>

struct lent {
  uint8_t *end; /* where the forbidden page begins */
  size_t room;
  uint8_t *bytes; /* the slice as lent last */
  size_t length;
};

void lent_make(struct lent *l, size_t room);

/* A slice of `length` bytes that hold a copy of `from`, or the byte `filled` where `from` is null. */
uint8_t *lent_out(struct lent *l, const uint8_t *from, uint8_t filled, size_t length);

/* Whether the guard bytes in front of the slice are untouched. */
bool lent_whole(const struct lent *l);

#endif
