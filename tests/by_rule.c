/* The forward pass by the reading rule itself: see reference.h. */
#include <string.h>

#include "reference.h"
#include "rules.h"

static bool binds(const struct reading *r, size_t record) {
  for (size_t i = 0; i < r->count; i++)
    if (r->binding[i].record == record) return true;
  return false;
}

static bool gap_between(const struct block *b, size_t above, size_t to) {
  for (size_t i = above + 1; i <= to; i++)
    if (b->record[i].kind == GAP) return true;
  return false;
}

/* Rule 5.4: each binding is to a later event than the one before, by a step that fires there. By Rule 5.6 all of them
   are in the window and no gap is between them, and by Rule 5.5 nothing that fires was passed over. */
static bool partial_reading(const struct pattern *p, const struct block *b, const struct reading *r) {
  if (r->count == 0) return false;
  size_t first = r->binding[0].record, last = r->binding[r->count - 1].record;
  for (size_t i = 0; i < r->count; i++) {
    size_t at = r->binding[i].record;
    if (b->record[at].kind != EVENT || late(p, b, r, at)) return false;
    if (i > 0 && at <= r->binding[i - 1].record) return false;
    if (!fires(p, b, r, i, r->binding[i].variable, at)) return false;
  }
  if (gap_between(b, first, last)) return false;
  for (size_t at = first; at < last; at++) {
    size_t held = 0;
    while (r->binding[held].record <= at) held++;
    if (!binds(r, at) && fires_any(p, b, r, held, at)) return false;
  }
  return true;
}

/* Rule 5.7. */
static bool live_after(const struct pattern *p, const struct block *b, const struct reading *r, size_t j) {
  size_t last = r->binding[r->count - 1].record;
  if (last > j || gap_between(b, r->binding[0].record, j) || late(p, b, r, j)) return false;
  for (size_t at = last + 1; at <= j; at++)
    if (fires_any(p, b, r, r->count, at)) return false;
  return true;
}

struct by_rule {
  const struct pattern *p;
  const struct block *b;
  size_t live[RECORDS];               /* readings live after each record */
  size_t closed_numbers[RECORDS + 1]; /* numbers of the readings reported at each record, and at the end */
  struct list report;
};

/* Rules 5.8 and 5.9. */
static void judge(struct by_rule *all, const struct reading *r) {
  if (!partial_reading(all->p, all->b, r)) return;
  for (size_t j = 0; j < all->b->count; j++) {
    if (!live_after(all->p, all->b, r, j)) continue;
    all->live[j]++;
    struct reading closed = *r;
    closed.mark = closing(all->p, all->b, r, j + 1);
    if (closed.mark == 0 || !full(all->p, r)) continue;
    all->closed_numbers[j + 1] += 1 + r->count;
    add(&all->report, &closed);
  }
}

/* Judges every list that goes on from r with records from `at` on. */
static void every_list(struct by_rule *all, const struct reading *r, size_t at) {
  if (at == all->b->count) {
    judge(all, r);
    return;
  }
  every_list(all, r, at + 1);
  for (unsigned v = 0; v < all->p->n; v++) {
    struct reading longer = bound(r, v, at);
    every_list(all, &longer, at + 1);
  }
}

uint64_t reference_by_rule_lists(const uint8_t *pattern, size_t pattern_len, const uint8_t *block, size_t block_len) {
  struct pattern p;
  struct block b;
  uint64_t lists = 1;
  if (read_all(pattern, pattern_len, block, block_len, &p, &b) != 0) return 0;
  for (size_t i = 0; i < b.count && lists < 1000000; i++) lists *= p.n + 1;
  return lists < 1000000 ? lists : 1000000;
}

uint64_t reference_by_rule(const uint8_t *pattern, size_t pattern_len, const uint8_t *block, size_t block_len,
                           uint32_t limit, uint8_t *work, size_t work_len, uint8_t *result, size_t result_len) {
  static const struct reading none;
  static struct by_rule all;
  struct pattern p;
  struct block b;
  size_t peak = 0, closed = 0;
  clear(work, work_len);
  clear(result, result_len);
  uint64_t given = read_all(pattern, pattern_len, block, block_len, &p, &b);
  if (given == 0 && !(limit_in_order(limit, work_len) && result_in_order(result_len))) given = refusal(8, 0);
  if (given != 0) return given;
  memset(&all, 0, sizeof all);
  all.p = &p;
  all.b = &b;
  every_list(&all, &none, 0);
  for (size_t j = 0; j <= b.count && given == 0; j++) {
    closed += all.closed_numbers[j];
    if (closed > result_len / 2)
      given = refusal(11, 0);
    else if (j < b.count && all.live[j] > limit)
      given = refusal(10, j);
    if (j < b.count && all.live[j] > peak) peak = all.live[j];
  }
  if (given == 0) given = write_report(&all.report, peak, result);
  drop(&all.report);
  return given;
}
