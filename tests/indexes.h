/*
 * The index of a block, and what it says of a pattern, by Rules 12.1 to 12.3. The reference's two calls on indexes are
 * made of this, and so is what is counted of them.
 */
#ifndef INDEXES_H
#define INDEXES_H

#include <stdbool.h>
#include <stddef.h>
#include <stdint.h>

#include "rules.h"

/* Rule 12.1: the sizes, and the bits at which the cores and the zero bits begin. */
enum { INDEX_BYTES = 18, CLASSES = 6, COUNT_BITS = 13, CORES = 64, CORES_AT = 78, ZERO_AT = 142 };

/* How many events a class has by an index, and whether a core has any. A class or a core may be any number. */
uint64_t events_by(const uint8_t *index, int64_t class);
bool core_by(const uint8_t *index, int64_t core);

/* Rule 8.19. */
bool index_in_order(const uint8_t *index, size_t index_len);

/* Rule 12.3: whether no pattern with that condition can match, and whether a pattern has such a condition. */
bool rules_out(const struct condition *k, const uint8_t *index);
bool cannot_match(const struct pattern *p, const uint8_t *index);

#endif
