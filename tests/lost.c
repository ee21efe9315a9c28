/* Readings that a gap closed: see lost.h. */
#include "lost.h"

#include <string.h>

#include "rules.h"
#include "spaldep.h"
#include "tally.h"

struct line line_at(const uint8_t *result, uint32_t at) {
  uint16_t head = spaldep_number(result, at);
  unsigned bindings = spaldep_bindings(head);
  return (struct line){.at = result + 2 * (size_t)at,
                       .mark = spaldep_mark(head),
                       .bindings = bindings,
                       .first = spaldep_record(spaldep_number(result, at + 1)),
                       .last = spaldep_record(spaldep_number(result, at + bindings))};
}

static bool by_gap(const struct line *l) {
  return l->mark == SPALDEP_MARK_GAP || l->mark == SPALDEP_MARK_GAP_COMPLETE;
}

bool closing_gap(const struct test_case *c, const struct line *l, size_t *gap) {
  if (!by_gap(l)) return false;
  for (*gap = l->last; c->block[RECORD_BYTES * *gap] >> 6 != GAP;) ++*gap;
  return true;
}

bool any_gap_line(const uint8_t *result, uint32_t used, uint64_t random, struct line *l) {
  uint64_t lines = 0;
  for (uint32_t at = 0; at < used;) {
    struct line other = line_at(result, at);
    if (by_gap(&other)) {
      if (lines == 0 || random % (lines + 1) == 0) *l = other;
      lines++;
    }
    at += 1 + other.bindings;
  }
  return lines > 0;
}

/* The time is in bytes 2 to 6. */
void fill_gap(uint8_t *block, size_t gap, size_t like) {
  uint8_t time[5], *record = block + RECORD_BYTES * gap;
  memcpy(time, record + 2, sizeof time);
  memcpy(record, block + RECORD_BYTES * like, RECORD_BYTES);
  memcpy(record + 2, time, sizeof time);
}

static bool begins_with(const struct line *l, const struct line *front) {
  return memcmp(l->at + 2, front->at + 2, 2 * (size_t)front->bindings) == 0;
}

bool has_bindings(const uint8_t *result, uint32_t used, const struct line *l) {
  for (uint32_t at = 0; at < used;) {
    struct line other = line_at(result, at);
    if (other.bindings == l->bindings && begins_with(&other, l)) return true;
    at += 1 + other.bindings;
  }
  return false;
}

bool has_more(const uint8_t *result, uint32_t used, const struct line *l) {
  for (uint32_t at = 0; at < used;) {
    struct line other = line_at(result, at);
    if (other.bindings > l->bindings && begins_with(&other, l)) return true;
    at += 1 + other.bindings;
  }
  return false;
}

void count_gap_lines(const struct test_case *c, const uint8_t *result, uint64_t answer) {
  bool open = false, complete = false, far = false, far_complete = false, beside = false, behind = false;
  struct pattern p;
  if (spaldep_code(answer) != 0 || read_pattern(c->pattern, c->pattern_len, &p) != 0) return;
  for (uint32_t at = 0; at < spaldep_used(answer);) {
    struct line l = line_at(result, at);
    size_t gap;
    at += 1 + l.bindings;
    if (!closing_gap(c, &l, &gap)) continue;
    bool late = time_of(c, gap) - time_of(c, l.first) > p.duration;
    open = open || l.mark == SPALDEP_MARK_GAP;
    far = far || (l.mark == SPALDEP_MARK_GAP && late);
    complete = complete || l.mark == SPALDEP_MARK_GAP_COMPLETE;
    far_complete = far_complete || (l.mark == SPALDEP_MARK_GAP_COMPLETE && late);
  }
  for (unsigned v = 0; v < p.n; v++) {
    bool last = p.set[v] == p.set[p.n - 1];
    beside = beside || (last && !p.group[v]);
    behind = behind || (!last && p.group[v]);
  }
  tally.met[MET_MARK_GAP] += open;
  tally.met[MET_MARK_GAP_COMPLETE] += complete;
  tally.met[MET_MARK_BESIDE_PLAIN] += open && beside;
  tally.met[MET_MARK_BEHIND_GROUP] += complete && behind;
  tally.met[MET_GAP_FAR] += far;
  tally.met[MET_GAP_FAR_COMPLETE] += far_complete;
}
