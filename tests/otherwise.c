/* What a case would be with other bytes: see otherwise.h. */
#include "otherwise.h"

#include <string.h>

#include "reference.h"
#include "spaldep.h"

static unsigned number_at(const struct condition *k, size_t from) {
  switch (from) {
    case ATTRIBUTE_AT: return k->attribute;
    case OPERATOR_AT: return k->operator;
    default: return k->second_attribute;
  }
}

bool refused_for(const struct test_case *c, uint64_t answer, size_t from, unsigned number, unsigned in_order) {
  uint8_t pattern[PATTERN_ROOM];
  struct pattern p;
  size_t place = spaldep_place(answer);
  memcpy(pattern, c->pattern, c->pattern_len);
  read_pattern(pattern, c->pattern_len, &p);
  if (number_at(&p.condition[place], from) != number) return false;
  set_field(pattern + 8 + p.n + 8 * place, from, 3, in_order);
  return read_pattern(pattern, c->pattern_len, &p) != answer;
}

void forward_outcome(const uint8_t *pattern, size_t pattern_len, const uint8_t *block, size_t block_len,
                     struct outcome *out) {
  static uint8_t work[LIMIT * WORK_BYTES];
  out->answer = reference_forward(pattern, pattern_len, block, block_len, LIMIT, work, sizeof work, out->result,
                                  sizeof out->result);
}

bool same_outcome(const struct outcome *x, const struct outcome *y) {
  return x->answer == y->answer && memcmp(x->result, y->result, sizeof x->result) == 0;
}
