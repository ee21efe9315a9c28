/* What a case has to do with events of one cycle: see cycles.h. */
#include "cycles.h"

#include "lost.h"
#include "rules.h"
#include "spaldep.h"
#include "tally.h"

enum { MANY_EVENTS = 100 };

/* ---- blocks ---- */

/* The most events of one cycle. */
static size_t most_in_cycle(const struct test_case *c) {
  size_t most = 0, run = 0;
  for (size_t i = 0; i < c->block_len / RECORD_BYTES; i++) {
    run = i > 0 && time_of(c, i) == time_of(c, i - 1) ? run + 1 : 1;
    if (run > most) most = run;
  }
  return most;
}

bool shares_cycle(const struct test_case *c) { return most_in_cycle(c) > 1; }

static unsigned kind_of(const struct test_case *c, size_t record) { return c->block[RECORD_BYTES * record] >> 6; }

void count_cycles(const struct test_case *c, uint64_t block_answer) {
  size_t at = spaldep_place(block_answer);
  if (spaldep_code(block_answer) == 0) {
    tally.met[MET_CYCLE_SHARED] += shares_cycle(c);
    tally.met[MET_CYCLE_MANY] += most_in_cycle(c) >= MANY_EVENTS;
  }
  if (spaldep_code(block_answer) != SPALDEP_REFUSED_TIME) return;
  bool same = time_of(c, at) == time_of(c, at - 1), gap = kind_of(c, at) == GAP, gap_before = kind_of(c, at - 1) == GAP;
  tally.met[MET_TIME_BELOW] += !same;
  tally.met[MET_TIME_OF_GAP] += same && gap && !gap_before;
  tally.met[MET_TIME_BEHIND_GAP] += same && !gap && gap_before;
  tally.met[MET_TIME_OF_GAPS] += same && gap && gap_before;
}

/* ---- cuts ---- */

bool any_cut(const struct test_case *c, uint64_t random, size_t *from, size_t *to) {
  struct pattern p;
  size_t records = c->block_len / RECORD_BYTES;
  if (records < 2 || read_pattern(c->pattern, c->pattern_len, &p) != 0) return false;
  *from = 1 + (size_t)(random >> 1) % (records - 1);
  if (random & 1)
    for (size_t i = *from; i < records && time_of(c, *from) != time_of(c, *from - 1); i++)
      if (time_of(c, i) == time_of(c, i - 1)) *from = i;
  for (*to = *from; *to < records && time_of(c, *to) - time_of(c, *from) <= p.duration;) ++*to;
  if (*to < records) ++*to;
  return true;
}

bool same_lines(const uint8_t *result, const uint8_t *part, uint32_t used, size_t from) {
  for (uint32_t at = 0; at < used;) {
    uint16_t head = spaldep_number(result, at);
    if (spaldep_number(part, at++) != head) return false;
    for (unsigned i = 0; i < spaldep_bindings(head); i++, at++)
      if (spaldep_number(part, at) + from != spaldep_number(result, at)) return false;
  }
  return true;
}

/* ---- reports ---- */

static struct reading reading_of(const struct line *l) {
  struct reading r = {.count = l->bindings};
  for (unsigned i = 0; i < l->bindings; i++) {
    uint16_t binding = spaldep_number(l->at, 1 + i);
    r.binding[i].variable = spaldep_variable(binding);
    r.binding[i].record = spaldep_record(binding);
  }
  return r;
}

/* Whether an event behind the first `bindings` of a reading is kept out by the order mark and by nothing else: it would
   fire the step on v if it were a cycle later. */
static bool kept_out(const struct pattern *p, struct block *b, const struct reading *r, size_t bindings, unsigned v,
                     size_t event) {
  bool fired = fires(p, b, r, bindings, v, event);
  b->record[event].time++;
  bool later = fires(p, b, r, bindings, v, event);
  b->record[event].time--;
  return later && !fired;
}

/* Whether the reading begins a set behind an event that the order mark kept out of it. */
static bool waited(const struct pattern *p, struct block *b, const struct reading *r) {
  for (size_t i = 1; i < r->count; i++)
    for (size_t event = r->binding[i - 1].record + 1; event < r->binding[i].record; event++)
      if (kept_out(p, b, r, i, r->binding[i].variable, event)) return true;
  return false;
}

/* How many events of a reading are of a cycle. */
static size_t bound_at(const struct block *b, const struct reading *r, uint64_t time) {
  size_t count = 0;
  for (size_t i = 0; i < r->count; i++) count += b->record[r->binding[i].record].time == time;
  return count;
}

void count_cycle_lines(const struct test_case *c, const uint8_t *result, uint64_t answer) {
  static struct pattern p;
  static struct block b;
  bool together = false, ends = false, at_once = false, after = false, starts = false;
  if (spaldep_code(answer) != 0 || !shares_cycle(c)) return;
  if (read_all(c->pattern, c->pattern_len, c->block, c->block_len, &p, &b) != 0) return;
  uint64_t first_before = UINT64_MAX;
  size_t start_before = 0;
  for (uint32_t at = 0; at < spaldep_used(answer);) {
    struct line l = line_at(result, at);
    struct reading r = reading_of(&l);
    uint64_t first = b.record[l.first].time;
    bool begins = bound_at(&b, &r, first) > 1;
    together = together || begins;
    ends = ends || (begins && p.duration > 0 && bound_at(&b, &r, first + p.duration) > 1);
    at_once = at_once || (begins && p.duration == 0);
    after = after || waited(&p, &b, &r);
    starts = starts || (first == first_before && l.first != start_before);
    first_before = first;
    start_before = l.first;
    at += 1 + l.bindings;
  }
  tally.met[MET_CYCLE_BOUND] += together;
  tally.met[MET_CYCLE_ENDS] += ends;
  tally.met[MET_CYCLE_AT_ONCE] += at_once;
  tally.met[MET_CYCLE_WAITED] += after;
  tally.met[MET_CYCLE_STARTS] += starts;
}
