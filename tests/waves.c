/* What a case has to do with waves: see waves.h. */
#include "waves.h"

#include <string.h>

#include "otherwise.h"
#include "reference.h"
#include "rules.h"
#include "spaldep.h"
#include "tally.h"

/* ---- patterns ---- */

static bool on_wave(const struct condition *k) {
  return k->attribute == WAVE || (k->form == WITH_ATTRIBUTE && k->second_attribute == WAVE);
}

static bool some_on_wave(const struct pattern *p) {
  for (unsigned i = 0; i < p->c; i++)
    if (on_wave(&p->condition[i])) return true;
  return false;
}

bool asks_wave(const struct test_case *c) {
  struct pattern p;
  return read_pattern(c->pattern, c->pattern_len, &p) == 0 && some_on_wave(&p);
}

bool asks_no_wave(const struct test_case *c) {
  struct pattern p;
  return read_pattern(c->pattern, c->pattern_len, &p) == 0 && !some_on_wave(&p);
}

static void count_accepted_pattern(const struct pattern *p) {
  bool first = false, second = false, above = false, core = false, slot = false, amount = false, own = false;
  for (unsigned i = 0; i < p->c; i++) {
    const struct condition *k = &p->condition[i];
    if (!on_wave(k)) continue;
    bool constant = k->form == WITH_CONSTANT;
    unsigned other = k->attribute == WAVE ? k->second_attribute : k->attribute;
    first = first || k->attribute == WAVE;
    second = second || (!constant && k->second_attribute == WAVE);
    above = above || (constant && k->constant > 255);
    core = core || (!constant && other == CORE);
    slot = slot || (!constant && other == SLOT);
    amount = amount || (!constant && other == AMOUNT);
    own = own || (!constant && k->variable == k->second_variable && other != WAVE);
  }
  tally.met[MET_WAVE_FIRST] += first;
  tally.met[MET_WAVE_SECOND] += second;
  tally.met[MET_WAVE_ABOVE] += above;
  tally.met[MET_WAVE_AND_CORE] += core;
  tally.met[MET_WAVE_AND_SLOT] += slot;
  tally.met[MET_WAVE_AND_AMOUNT] += amount;
  tally.met[MET_WAVE_OWN] += own;
}

/* Whether the condition that a pattern is refused for has an attribute above wave in the field that begins `from` bits
   into it, and would be in order with wave there. */
static bool refused_for_attribute(const struct test_case *c, uint64_t answer, size_t from) {
  return refused_for(c, answer, from, 6, WAVE) || refused_for(c, answer, from, 7, WAVE);
}

static void count_pattern(const struct test_case *c, uint64_t answer) {
  struct pattern p;
  if (spaldep_code(answer) == 0) {
    read_pattern(c->pattern, c->pattern_len, &p);
    count_accepted_pattern(&p);
  }
  if (spaldep_code(answer) != SPALDEP_REFUSED_CONDITION) return;
  tally.met[MET_ATTRIBUTE_FIRST] += refused_for_attribute(c, answer, ATTRIBUTE_AT);
  tally.met[MET_ATTRIBUTE_SECOND] += refused_for_attribute(c, answer, SECOND_ATTRIBUTE_AT);
}

/* ---- blocks ---- */

/* The kind of a record, and its last byte: an event's wave. */
static unsigned kind_at(const uint8_t *record) { return record[0] >> 6; }
static unsigned last_at(const uint8_t *record) { return record[RECORD_BYTES - 1]; }

/* The greatest wave of an event. */
static unsigned greatest_wave(const struct test_case *c) {
  unsigned greatest = 0;
  for (size_t at = 0; at + RECORD_BYTES <= c->block_len; at += RECORD_BYTES)
    if (kind_at(c->block + at) == EVENT && last_at(c->block + at) > greatest) greatest = last_at(c->block + at);
  return greatest;
}

bool has_wave(const struct test_case *c) { return greatest_wave(c) > 0; }

void clear_waves(uint8_t *block, size_t block_len) {
  for (size_t at = 0; at + RECORD_BYTES <= block_len; at += RECORD_BYTES)
    if (kind_at(block + at) == EVENT) block[at + RECORD_BYTES - 1] = 0;
}

/* Whether the gap that a block is refused for would be in order with a last byte of 0. */
static bool refused_for_gap_wave(const struct test_case *c, uint64_t answer) {
  uint8_t record[RECORD_BYTES];
  memcpy(record, c->block + RECORD_BYTES * (size_t)spaldep_place(answer), RECORD_BYTES);
  if (kind_at(record) != GAP || last_at(record) == 0) return false;
  record[RECORD_BYTES - 1] = 0;
  return spaldep_code(reference_check_block(record, RECORD_BYTES)) == 0;
}

static void count_block(const struct test_case *c, uint64_t answer) {
  if (spaldep_code(answer) == 0) {
    unsigned greatest = greatest_wave(c);
    tally.met[MET_WAVE_EVENT] += greatest > 0;
    tally.met[MET_WAVE_GREATEST] += greatest == 255;
  }
  if (spaldep_code(answer) != SPALDEP_REFUSED_RECORD) return;
  const uint8_t *record = c->block + RECORD_BYTES * (size_t)spaldep_place(answer);
  tally.met[MET_WAVE_GAP] += refused_for_gap_wave(c, answer);
  tally.met[MET_KIND_LAST_0] += kind_at(record) > GAP && last_at(record) == 0;
  tally.met[MET_KIND_LAST_BYTE] += kind_at(record) > GAP && last_at(record) != 0;
}

/* ---- both ---- */

/* Whether the forward pass answers or reports something else where waves are 0. */
static bool waves_decide(const struct test_case *c) {
  static struct outcome outcome, otherwise;
  static uint8_t block[BLOCK_ROOM];
  memcpy(block, c->block, c->block_len);
  clear_waves(block, c->block_len);
  forward_outcome(c->pattern, c->pattern_len, c->block, c->block_len, &outcome);
  forward_outcome(c->pattern, c->pattern_len, block, c->block_len, &otherwise);
  return !same_outcome(&outcome, &otherwise);
}

void count_waves(const struct test_case *c, uint64_t pattern_answer, uint64_t block_answer) {
  count_pattern(c, pattern_answer);
  count_block(c, block_answer);
  tally.met[MET_WAVE_DECIDES] += spaldep_code(block_answer) == 0 && asks_wave(c) && has_wave(c) && waves_decide(c);
}
