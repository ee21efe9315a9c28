/* The index of a block, and the reference's calls on it: see indexes.h and reference.h. */
#include "indexes.h"

#include "reference.h"

/* ---- what an index says ---- */

uint64_t events_by(const uint8_t *index, int64_t class) {
  if (class < 0 || class >= CLASSES) return 0;
  return field(index, COUNT_BITS * (size_t)class, COUNT_BITS);
}

bool core_by(const uint8_t *index, int64_t core) {
  if (core < 0 || core >= CORES) return false;
  return field(index, CORES_AT + (size_t)core, 1) == 1;
}

bool index_in_order(const uint8_t *index, size_t index_len) {
  return index_len == INDEX_BYTES && field(index, ZERO_AT, 2) == 0;
}

bool rules_out(const struct condition *k, const uint8_t *index) {
  if (k->form != WITH_CONSTANT || k->operator!= EQUAL) return false;
  if (k->attribute == CLASS) return events_by(index, k->constant) == 0;
  return k->attribute == CORE && !core_by(index, k->constant);
}

bool cannot_match(const struct pattern *p, const uint8_t *index) {
  for (unsigned i = 0; i < p->c; i++)
    if (rules_out(&p->condition[i], index)) return true;
  return false;
}

/* ---- the maker: Rules 7.10, 8.20 and 12.2 ---- */

/* How many events of the block have this value. */
static size_t events_with(const struct block *b, unsigned attribute, int64_t asked) {
  size_t events = 0;
  for (size_t i = 0; i < b->count; i++)
    events += b->record[i].kind == EVENT && value(&b->record[i], attribute) == asked;
  return events;
}

static void set_bit(uint8_t *index, size_t at) { index[at / 8] = (uint8_t)(index[at / 8] | 1u << (7 - at % 8)); }

uint64_t reference_make_index(const uint8_t *block, size_t block_len, uint8_t *index, size_t index_len) {
  struct block b;
  clear(index, index_len);
  if (index_len != INDEX_BYTES) return refusal(15, 0);
  uint64_t refused = read_block(block, block_len, &b);
  if (refused != 0) return refused;
  for (size_t class = 0; class < CLASSES; class++) {
    size_t events = events_with(&b, CLASS, (int64_t)class);
    for (size_t bit = 0; bit < COUNT_BITS; bit++)
      if (events >> bit & 1) set_bit(index, COUNT_BITS * (class + 1) - 1 - bit);
  }
  for (size_t core = 0; core < CORES; core++)
    if (events_with(&b, CORE, (int64_t)core) > 0) set_bit(index, CORES_AT + core);
  return answer(0, INDEX_BYTES, 0, 0);
}

/* ---- the search: Rules 7.11 and 8.20 ---- */

uint64_t reference_search(const uint8_t *pattern, size_t pattern_len, const uint8_t *index, size_t index_len,
                          const uint8_t *block, size_t block_len, uint32_t limit, uint8_t *work, size_t work_len,
                          uint8_t *result, size_t result_len) {
  struct pattern p;
  struct block b;
  clear(work, work_len);
  clear(result, result_len);
  uint64_t refused = read_pattern(pattern, pattern_len, &p);
  if (refused == 0 && !index_in_order(index, index_len)) refused = refusal(15, 0);
  if (refused == 0) refused = read_block(block, block_len, &b);
  if (refused == 0 && !(limit_in_order(limit, work_len) && result_in_order(result_len))) refused = refusal(8, 0);
  if (refused != 0) return refused;
  if (cannot_match(&p, index)) return answer(0, 0, 0, 0);
  return reference_forward(pattern, pattern_len, block, block_len, limit, work, work_len, result, result_len);
}
