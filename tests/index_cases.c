/* Indexes to search with: see index_cases.h. */
#include "index_cases.h"

#include <string.h>

#include "indexes.h"
#include "reference.h"

const char *const search_names[INDEX_KINDS] = {
    [INDEX_OWN] = "search with the block's own index",
    [INDEX_BIT] = "search with its index, a bit changed,",
    [INDEX_NO_CLASS] = "search with its index without a class",
    [INDEX_NO_CORE] = "search with its index without a core",
    [INDEX_ZERO_BITS] = "search with its index, zero bits set,",
    [INDEX_LENGTH] = "search with its index, of another length,",
    [INDEX_PART] = "search with the index of a part of the block",
    [INDEX_OTHER] = "search with another block's index",
    [INDEX_EMPTY] = "search with an index of no events",
    [INDEX_FULL] = "search with an index of all classes and cores",
};

size_t any_other_length(struct random *r) {
  return PICK(r, 0, INDEX_BYTES - 1, INDEX_BYTES + 1, 2 * INDEX_BYTES, below(r, INDEX_BYTES),
              between(r, INDEX_BYTES + 1, INDEX_ROOM));
}

static void leave_out_class(struct random *r, uint8_t *index) {
  size_t from = below(r, CLASSES);
  for (size_t i = 0; i < CLASSES; i++) {
    size_t class = (from + i) % CLASSES;
    if (events_by(index, (int64_t)class) == 0) continue;
    set_field(index, COUNT_BITS * class, COUNT_BITS, 0);
    return;
  }
}

static void leave_out_core(struct random *r, uint8_t *index) {
  size_t from = below(r, CORES);
  for (size_t i = 0; i < CORES; i++) {
    size_t core = (from + i) % CORES;
    if (!core_by(index, (int64_t)core)) continue;
    set_field(index, CORES_AT + core, 1, 0);
    return;
  }
}

/* The first records of the block or the last ones. */
static void put_index_of_part(struct random *r, const struct test_case *c, uint8_t *index) {
  size_t records = c->block_len / RECORD_BYTES, some = below(r, (unsigned)records + 1);
  size_t from = chance(r, 50) ? 0 : records - some;
  reference_make_index(c->block + RECORD_BYTES * from, RECORD_BYTES * some, index, INDEX_BYTES);
}

static void put_index_of_other(struct random *r, uint8_t *index) {
  uint8_t block[8 * RECORD_BYTES] = {0};
  size_t records = below(r, 9);
  unsigned cores = PICK(r, 1, 2, 64);
  for (size_t i = 0; i < records; i++) {
    set_field(block + RECORD_BYTES * i, 2, 6, below(r, cores));
    set_field(block + RECORD_BYTES * i, 8, 8, below(r, 256));
  }
  reference_make_index(block, RECORD_BYTES * records, index, INDEX_BYTES);
}

void put_index(struct random *r, int kind, const struct test_case *c, const struct index *own, struct index *out) {
  *out = *own;
  switch (kind) {
    case INDEX_BIT: {
      size_t bit = below(r, 8 * INDEX_BYTES);
      set_field(out->bytes, bit, 1, field(out->bytes, bit, 1) ^ 1);
      break;
    }
    case INDEX_NO_CLASS: leave_out_class(r, out->bytes); break;
    case INDEX_NO_CORE: leave_out_core(r, out->bytes); break;
    case INDEX_ZERO_BITS: set_field(out->bytes, ZERO_AT, 2, between(r, 1, 3)); break;
    case INDEX_LENGTH: out->length = any_other_length(r); break;
    case INDEX_PART: put_index_of_part(r, c, out->bytes); break;
    case INDEX_OTHER: put_index_of_other(r, out->bytes); break;
    case INDEX_EMPTY: memset(out->bytes, 0, INDEX_BYTES); break;
    case INDEX_FULL:
      memset(out->bytes, 0xff, INDEX_BYTES);
      set_field(out->bytes, ZERO_AT, 2, 0);
      break;
    default: break;
  }
}
