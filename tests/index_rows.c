/* The examples on indexes: see index_rows.h. */
#include "index_rows.h"

#include <inttypes.h>
#include <stdbool.h>
#include <stdio.h>
#include <string.h>

#include "cases.h"
#include "reference.h"
#include "rows.h"
#include "spaldep.h"

struct implementation {
  const char *name;
  uint64_t (*make_index)(const uint8_t *, size_t, uint8_t *, size_t);
  uint64_t (*search)(const uint8_t *, size_t, const uint8_t *, size_t, const uint8_t *, size_t, uint32_t, uint8_t *,
                     size_t, uint8_t *, size_t);
  uint64_t (*forward)(const uint8_t *, size_t, const uint8_t *, size_t, uint32_t, uint8_t *, size_t, uint8_t *, size_t);
};

static const struct implementation implementations[] = {
    {"library", spaldep_make_index, spaldep_search, spaldep_forward},
    {"reference", reference_make_index, reference_search, reference_forward},
};

#define COUNT(table) (sizeof(table) / sizeof *(table))

/* ---- the maker ---- */

/* The index of the block of Rule 10.1, as Rule 12.2 has it. */
static const uint8_t bench_index[SPALDEP_INDEX_BYTES] = {0x00, 0x18, 0x01, 0x40, 0x06, 0x00, 0x00, 0x00, 0x00,
                                                         0x01, 0x80, 0x00, 0x00, 0x00, 0x00, 0x00, 0x00, 0x00};
static const uint8_t no_index[2 * SPALDEP_INDEX_BYTES];

/* The whole bench, and its first records alone, down to none: what the maker writes. */
static bool makes(const struct implementation *i, size_t records, const uint8_t *index) {
  uint8_t block[16 * 16], left[SPALDEP_INDEX_BYTES];
  bench_block(block);
  memset(left, 0xff, sizeof left);
  return i->make_index(block, 16 * records, left, sizeof left) == (uint64_t)SPALDEP_INDEX_BYTES << 32 &&
         memcmp(left, index, sizeof left) == 0;
}

/* A slice of another length: refusal 15, and nothing in it. */
static bool refuses_length(const struct implementation *i, size_t length) {
  uint8_t block[16 * 16], left[2 * SPALDEP_INDEX_BYTES];
  size_t block_len = bench_block(block);
  memset(left, 0xff, sizeof left);
  return i->make_index(block, block_len, left, length) == (uint64_t)SPALDEP_REFUSED_INDEX << 56 &&
         memcmp(left, no_index, length) == 0;
}

/* ---- the search ---- */

/* A condition of Rule 12.3, on one variable and, with form 1, another one. */
struct asked {
  const char *name;
  unsigned attribute, operator, form, second_attribute;
  uint32_t constant;
  bool cannot;     /* match by the index of the bench */
  uint64_t answer; /* of the forward pass where the second of two variables is asked, see below */
};

#define IS(name, attribute, constant, cannot, answer) \
  { name, SPALDEP_ATTRIBUTE_##attribute, SPALDEP_OPERATOR_EQUAL, SPALDEP_FORM_CONSTANT, 0, constant, cannot, answer }
#define CLASS_HOLDS(name, operator, constant, answer) \
  { name, SPALDEP_ATTRIBUTE_CLASS, SPALDEP_OPERATOR_##operator, SPALDEP_FORM_CONSTANT, 0, constant, false, answer }
#define REPORT(used, readings, peak) ((uint64_t)(used) << 32 | (uint64_t)(readings) << 16 | (peak))

/* Sets {0} and {1} within 100 cycles: each of the six events before the gap is live after the last of them, and each of
   the five behind it. Where no event meets the condition on 1, nothing is reported. Where all do, each event but the
   last before the gap and the last begins a reading with the next one. 1.core = 0.class binds the records 1 to 2, 2 to
   3, 3 to 4, 4 to 5 and 7 to 8. */
static const struct asked conditions[] = {
    IS("class = 4", CLASS, 4, true, 6),
    IS("class = 6", CLASS, 6, true, 6),
    IS("class = 4294967295", CLASS, 0xffffffff, true, 6),
    IS("core = 3", CORE, 3, true, 6),
    IS("core = 64", CORE, 64, true, 6),
    IS("core = 65, which is 1 in 6 bits", CORE, 65, true, 6),
    IS("core = 4294967295", CORE, 0xffffffff, true, 6),
    IS("core = 0, which only a gap has", CORE, 0, true, 6),
    IS("type = 100", TYPE, 100, false, 6),
    IS("type = 256", TYPE, 256, false, 6),
    IS("slot = 4294967295", SLOT, 0xffffffff, false, 6),
    IS("amount = -1", AMOUNT, 0xffffffff, false, 6),
    IS("wave = 4", WAVE, 4, false, 6),
    IS("wave = 256", WAVE, 256, false, 6),
    CLASS_HOLDS("class > 2", GREATER, 2, 6),
    CLASS_HOLDS("class >= 4", GREATER_EQUAL, 4, 6),
    CLASS_HOLDS("class < 0", LESS, 0, 6),
    CLASS_HOLDS("class != 4", NOT_EQUAL, 4, REPORT(27, 9, 6)),
    {"core = another's class", SPALDEP_ATTRIBUTE_CORE, SPALDEP_OPERATOR_EQUAL, SPALDEP_FORM_ATTRIBUTE,
     SPALDEP_ATTRIBUTE_CLASS, 0, false, REPORT(15, 5, 6)},
};

/* Sets {0} and {1} within 100 cycles. */
static size_t two_sets(uint8_t *pattern) {
  static const uint8_t bytes[] = {0x12, 0, 0, 0, 0, 0, 0, 100, 0x10, 0x20};
  memcpy(pattern, bytes, sizeof bytes);
  return sizeof bytes;
}

/* The pattern with one condition more, and its length. */
static size_t with_condition(uint8_t *pattern, size_t length, unsigned variable, const struct asked *a) {
  unsigned second = a->form == SPALDEP_FORM_ATTRIBUTE ? (variable + 1) % (pattern[0] & 15) : 0;
  put_condition(pattern + length, variable, a->attribute, a->operator, a->form, second, a->second_attribute,
                a->constant);
  pattern[1]++;
  return length + 8;
}

/* What the search of the bench by its index gives, beside what the forward pass gives: nothing, or the same. */
static bool search_is(const struct implementation *i, const uint8_t *pattern, size_t pattern_len, bool cannot,
                      uint64_t *forward) {
  static uint8_t work[SPALDEP_WORK_BYTES(SPALDEP_LIMIT_MAX)], result[2][256], nothing[256];
  uint8_t block[16 * 16];
  size_t block_len = bench_block(block);
  memset(result, 0xff, sizeof result);
  *forward = i->forward(pattern, pattern_len, block, block_len, SPALDEP_LIMIT_MAX, work, sizeof work, result[0],
                        sizeof result[0]);
  uint64_t search = i->search(pattern, pattern_len, bench_index, sizeof bench_index, block, block_len,
                              SPALDEP_LIMIT_MAX, work, sizeof work, result[1], sizeof result[1]);
  if (cannot) return search == 0 && memcmp(result[1], nothing, sizeof nothing) == 0;
  return search == *forward && memcmp(result[1], result[0], sizeof result[0]) == 0;
}

/* The condition on each variable of the two sets, and on each of the example's pattern behind its own conditions. */
static bool asked_holds(const struct implementation *i, const struct asked *a) {
  uint8_t pattern[512];
  uint64_t forward;
  for (unsigned v = 0; v < 2; v++) {
    size_t length = with_condition(pattern, two_sets(pattern), v, a);
    if (!search_is(i, pattern, length, a->cannot, &forward)) return false;
    if (v == 1 && forward != a->answer) return false;
  }
  for (unsigned v = 0; v < 3; v++) {
    size_t length = with_condition(pattern, bench_pattern(pattern), v, a);
    if (!search_is(i, pattern, length, a->cannot, &forward)) return false;
  }
  return true;
}

/* The example's own pattern can match: its search gives row P1. */
static bool example_holds(const struct implementation *i) {
  uint8_t pattern[512];
  uint64_t forward;
  size_t length = bench_pattern(pattern);
  return search_is(i, pattern, length, false, &forward) && forward == REPORT(14, 3, 5);
}

/* ---- the run ---- */

static void count(const struct implementation *i, const char *name, bool holds, uint64_t *passed, uint64_t *failed) {
  if (holds) {
    ++*passed;
    return;
  }
  printf("FAILED: %s, of the rules on indexes, by the %s\n", name, i->name);
  ++*failed;
}

void index_rows_run(uint64_t *passed, uint64_t *failed) {
  uint64_t held = 0, not_held = 0;
  for (size_t k = 0; k < COUNT(implementations); k++) {
    const struct implementation *i = &implementations[k];
    count(i, "the index of the example", makes(i, 12, bench_index), &held, &not_held);
    count(i, "the index of no records", makes(i, 0, no_index), &held, &not_held);
    count(i, "a slice of no bytes", refuses_length(i, 0), &held, &not_held);
    count(i, "a slice of 17 bytes", refuses_length(i, SPALDEP_INDEX_BYTES - 1), &held, &not_held);
    count(i, "a slice of 19 bytes", refuses_length(i, SPALDEP_INDEX_BYTES + 1), &held, &not_held);
    count(i, "the search of the example", example_holds(i), &held, &not_held);
    for (size_t row = 0; row < COUNT(conditions); row++)
      count(i, conditions[row].name, asked_holds(i, &conditions[row]), &held, &not_held);
  }
  *passed += held;
  *failed += not_held;
  printf("rows on indexes, by the library and by the reference: %" PRIu64 " hold, %" PRIu64 " do not\n", held,
         not_held);
}
