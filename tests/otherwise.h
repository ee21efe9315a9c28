/* What a case would be with other bytes, by the reference: for what is counted of it. */
#ifndef OTHERWISE_H
#define OTHERWISE_H

#include <stdbool.h>
#include <stddef.h>
#include <stdint.h>

#include "cases.h"
#include "rules.h"

/* Where the fields of 3 bits begin in a condition, by Rule 2.3. */
enum { ATTRIBUTE_AT = 4, OPERATOR_AT = 7, SECOND_ATTRIBUTE_AT = 15 };

/* Whether the condition that a pattern is refused for has this number in the field of 3 bits that begins `from` bits
   into it, and would be in order with another one there. */
bool refused_for(const struct test_case *c, uint64_t answer, size_t from, unsigned number, unsigned in_order);

/* What the forward pass does with the highest limit and the longest result slice. */
struct outcome {
  uint64_t answer;
  uint8_t result[RESULT_BYTES];
};

void forward_outcome(const uint8_t *pattern, size_t pattern_len, const uint8_t *block, size_t block_len,
                     struct outcome *out);
bool same_outcome(const struct outcome *x, const struct outcome *y);

#endif
