/* The calls of reference.h but for the one by the rule and those on indexes: see there. */
#include "reference.h"

#include "rules.h"

/* ---- checks and the listing ---- */

uint64_t reference_check_pattern(const uint8_t *pattern, size_t pattern_len) {
  struct pattern p;
  return read_pattern(pattern, pattern_len, &p);
}

uint64_t reference_check_block(const uint8_t *block, size_t block_len) {
  struct block b;
  uint64_t refused = read_block(block, block_len, &b);
  return refused != 0 ? refused : answer(0, b.count, 0, 0);
}

/* Rule 4.5. */
static void put_step(uint8_t *listing, size_t at, const struct pattern *p, unsigned state, unsigned v) {
  uint64_t step = (uint64_t)state << 52 | (uint64_t)v << 48;
  if (order_mark(p, state, v)) step |= (uint64_t)1 << 47;
  for (unsigned i = 0; i < p->c; i++)
    if (carries(&p->condition[i], state, v)) step |= (uint64_t)1 << i;
  for (size_t i = 0; i < STEP_BYTES; i++) listing[STEP_BYTES * at + i] = (uint8_t)(step >> (56 - 8 * i) & 255);
}

/* Rules 4.6 and 7.4. */
uint64_t reference_list_automaton(const uint8_t *pattern, size_t pattern_len, uint8_t *listing, size_t listing_len) {
  struct pattern p;
  size_t steps = 0;
  clear(listing, listing_len);
  uint64_t refused = read_pattern(pattern, pattern_len, &p);
  if (refused != 0) return refused;
  for (unsigned state = 0; state < 1u << p.n; state++)
    for (unsigned v = 0; v < p.n; v++) {
      if (!step_leaves(&p, state, v)) continue;
      if (steps < listing_len / STEP_BYTES) put_step(listing, steps, &p, state, v);
      steps++;
    }
  if (steps <= listing_len / STEP_BYTES) return answer(0, steps, 0, 0);
  clear(listing, listing_len);
  return refusal(12, 0);
}

/* ---- the forward pass: Rules 7.5 and 8.15 ---- */

/* Moves the readings of `live` that close at `at` out of it; the full ones go to the report with their marks. */
static void close_at(const struct pattern *p, const struct block *b, struct list *live, size_t at,
                     struct list *report) {
  size_t stay = 0;
  for (size_t i = 0; i < live->count; i++) {
    struct reading r = live->reading[i];
    r.mark = closing(p, b, &r, at);
    if (r.mark == 0)
      live->reading[stay++] = r;
    else if (full(p, &r))
      add(report, &r);
  }
  live->count = stay;
}

/* The readings live after the event `at`, from those that were live before it and did not close. False where one of
   them would take a 33rd binding. */
static bool live_after_event(const struct pattern *p, const struct block *b, const struct list *live, size_t at,
                             struct list *after) {
  static const struct reading none;
  for (size_t i = 0; i < live->count; i++) {
    const struct reading *r = &live->reading[i];
    if (!fires_any(p, b, r, r->count, at)) {
      add(after, r);
      continue;
    }
    if (r->count == BINDINGS) return false;
    for (unsigned v = 0; v < p->n; v++) {
      if (!fires(p, b, r, r->count, v, at)) continue;
      struct reading longer = bound(r, v, at);
      add(after, &longer);
    }
  }
  for (unsigned v = 0; v < p->n; v++) {
    if (!fires(p, b, &none, 0, v, at)) continue;
    struct reading begun = bound(&none, v, at);
    add(after, &begun);
  }
  return true;
}

/* 0, or the refusal; the report and the peak otherwise. Refusal 13 (Rule 8.13) has no test: a binding takes a record
   above all that are bound. */
static uint64_t go_forward(const struct pattern *p, const struct block *b, size_t limit, size_t room,
                           struct list *report, size_t *peak) {
  struct list live = {0, 0, NULL};
  uint64_t refused = 0;
  *peak = 0;
  for (size_t at = 0; at <= b->count && refused == 0; at++) {
    close_at(p, b, &live, at, report);
    if (numbers(report) > room) refused = refusal(11, 0);
    if (refused != 0 || at == b->count || b->record[at].kind == GAP) continue;
    struct list after = {0, 0, NULL};
    if (!live_after_event(p, b, &live, at, &after)) refused = refusal(9, at);
    if (refused == 0 && after.count > limit) refused = refusal(10, at);
    drop(&live);
    live = after;
    if (live.count > *peak) *peak = live.count;
  }
  drop(&live);
  return refused;
}

uint64_t reference_forward(const uint8_t *pattern, size_t pattern_len, const uint8_t *block, size_t block_len,
                           uint32_t limit, uint8_t *work, size_t work_len, uint8_t *result, size_t result_len) {
  struct pattern p;
  struct block b;
  struct list report = {0, 0, NULL};
  size_t peak = 0;
  clear(work, work_len);
  clear(result, result_len);
  uint64_t given = read_all(pattern, pattern_len, block, block_len, &p, &b);
  if (given == 0 && !(limit_in_order(limit, work_len) && result_in_order(result_len))) given = refusal(8, 0);
  if (given == 0) given = go_forward(&p, &b, limit, result_len / 2, &report, &peak);
  if (given == 0) given = write_report(&report, peak, result);
  drop(&report);
  return given;
}

/* ---- the start-by-start pass and measure: Rules 7.6, 7.7 and 8.16 ---- */

struct search {
  const struct pattern *p;
  const struct block *b;
  struct list *report;        /* where the reported readings go, or null where they are only counted */
  uint64_t readings, numbers; /* counted, without an end */
  bool too_long;              /* a 33rd binding was met, */
  size_t too_long_at;         /* and the least record that gave one */
  uint64_t effort, most;      /* tests made, and where to give up */
};

static void report_closed(struct search *s, const struct reading *r, unsigned mark) {
  if (!full(s->p, r)) return;
  s->readings++;
  s->numbers += 1 + r->count;
  if (s->report == NULL) return;
  struct reading closed = *r;
  closed.mark = mark;
  add(s->report, &closed);
}

/* All that becomes of reading r, live before record `at`: the first event that fires is bound in every way there is. */
static void follow(struct search *s, const struct reading *r, size_t at) {
  for (; s->effort < s->most; at++) {
    unsigned mark = closing(s->p, s->b, r, at);
    s->effort++;
    if (mark != 0) {
      report_closed(s, r, mark);
      return;
    }
    if (!fires_any(s->p, s->b, r, r->count, at)) continue;
    if (r->count == BINDINGS) {
      if (!s->too_long || at < s->too_long_at) s->too_long_at = at;
      s->too_long = true;
      return;
    }
    for (unsigned v = 0; v < s->p->n; v++) {
      if (!fires(s->p, s->b, r, r->count, v, at)) continue;
      struct reading longer = bound(r, v, at);
      follow(s, &longer, at + 1);
    }
    return;
  }
}

static void search_all(struct search *s) {
  static const struct reading none;
  for (size_t first = 0; first < s->b->count && s->effort < s->most; first++) {
    if (s->b->record[first].kind == GAP) continue;
    for (unsigned v = 0; v < s->p->n; v++) {
      if (!fires(s->p, s->b, &none, 0, v, first)) continue;
      struct reading begun = bound(&none, v, first);
      follow(s, &begun, first + 1);
    }
  }
}

uint64_t reference_start_by_start(const uint8_t *pattern, size_t pattern_len, const uint8_t *block, size_t block_len,
                                  uint8_t *result, size_t result_len) {
  struct pattern p;
  struct block b;
  struct list report = {0, 0, NULL};
  struct search s = {.p = &p, .b = &b, .report = &report, .most = UINT64_MAX};
  clear(result, result_len);
  uint64_t given = read_all(pattern, pattern_len, block, block_len, &p, &b);
  if (given == 0 && !result_in_order(result_len)) given = refusal(8, 0);
  if (given != 0) return given;
  search_all(&s);
  if (s.too_long)
    given = refusal(9, s.too_long_at);
  else if (s.numbers > result_len / 2)
    given = refusal(11, 0);
  else
    given = write_report(&report, 0, result);
  drop(&report);
  return given;
}

static uint64_t stopped(uint64_t count, uint64_t largest) { return count < largest ? count : largest; }

/* Rule 7.7. The largest numbers are those of the fields of a C answer, which are below the ones that measure has. */
uint64_t reference_measure(const uint8_t *pattern, size_t pattern_len, const uint8_t *block, size_t block_len) {
  struct pattern p;
  struct block b;
  struct search s = {.p = &p, .b = &b, .report = NULL, .most = UINT64_MAX};
  uint64_t refused = read_all(pattern, pattern_len, block, block_len, &p, &b);
  if (refused != 0) return refused;
  search_all(&s);
  if (s.too_long) return refusal(9, s.too_long_at);
  return answer(0, stopped(s.numbers, 0xffffff), stopped(s.readings, 0xffff), 0);
}

uint64_t reference_effort(const uint8_t *pattern, size_t pattern_len, const uint8_t *block, size_t block_len,
                          uint64_t most) {
  struct pattern p;
  struct block b;
  struct search s = {.p = &p, .b = &b, .report = NULL, .most = most};
  if (read_all(pattern, pattern_len, block, block_len, &p, &b) != 0) return 0;
  search_all(&s);
  return s.effort;
}
