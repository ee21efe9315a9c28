/* Whether a wide case can be expected to end: see wide_trial_ends in merged.h. */
#include "groups.h"
#include "merged.h"

/* Events held against a reading, up to where the trial gives up. */
enum { MOST_TRIED = 200000 };

static struct trial {
  struct view view;
  size_t until;            /* where the readings of the start close */
  size_t least;            /* the least record of a 33rd binding met, or the count of records */
  uint64_t numbers, tried; /* numbers of the report so far, and events tried */
} trial;

/* Whether an event from `at` on agrees with what is bound, so that v could be bound to it. */
static bool has_event(struct trial *t, const struct group *g, unsigned v, size_t at) {
  for (; at < t->until; at++) {
    t->tried++;
    if (agreeing(&t->view, g, 1u << v, at) != 0) return true;
  }
  return false;
}

/* Whether a reading that is to take its next binding at `at` can still be reported, and the report still be given. */
static bool can_report(struct trial *t, const struct group *g, size_t at) {
  if (t->least < t->view.b->count || t->numbers > RESULT_BYTES / 2) return false;
  for (unsigned v = 0; v < t->view.p->n; v++)
    if ((g->state >> v & 1) == 0 && !has_event(t, g, v, at)) return false;
  return true;
}

/* Whether a 33rd binding can come before the least one known: by the events that agree with what is bound. */
static bool can_be_too_long(struct trial *t, const struct group *g, size_t bindings, size_t at) {
  size_t end = t->least < t->until ? t->least : t->until, events = 0;
  if (at + BINDINGS - bindings >= end) return false;
  for (; at < end && bindings + events <= BINDINGS; at++) {
    t->tried++;
    if (agreeing(&t->view, g, still_to_come(&t->view, g->state), at) != 0) events++;
  }
  return bindings + events > BINDINGS;
}

static void go_on(struct trial *t, const struct group *g, size_t bindings, size_t at) {
  unsigned fire = 0;
  if (leaves(&t->view, g->state) == 0) at = t->until;
  for (; at < t->until && fire == 0; at++, t->tried++) fire = firing(&t->view, g, at);
  if (fire == 0) {
    if (full_group(&t->view, g)) t->numbers += 1 + bindings;
    return;
  }
  at--;
  if (bindings == BINDINGS) {
    if (at < t->least) t->least = at;
    return;
  }
  if (!can_report(t, g, at) && !can_be_too_long(t, g, bindings, at)) return;
  for (unsigned v = 0; v < t->view.p->n && t->tried < MOST_TRIED; v++) {
    struct group longer;
    if ((fire >> v & 1) == 0) continue;
    bind_group(&t->view, g, v, at, &longer);
    go_on(t, &longer, bindings + 1, at + 1);
  }
}

static void go_on_from(struct trial *t, size_t first) {
  static const struct group none;
  unsigned mark;
  t->until = closes_at(&t->view, first, &mark);
  t->tried++;
  if (firing(&t->view, &none, first) != 0) go_on(t, &none, 0, first);
}

bool wide_trial_ends(const uint8_t *pattern, size_t pattern_len, const uint8_t *block, size_t block_len,
                     const struct merged *m) {
  static struct pattern p;
  static struct block b;
  if (read_all(pattern, pattern_len, block, block_len, &p, &b) != 0) return true;
  if (!m->joins) return true;
  if (!view_of(&trial.view, &p, &b)) return false;
  trial.least = b.count;
  trial.numbers = trial.tried = 0;
  for (size_t first = 0; first < b.count && trial.tried < MOST_TRIED; first++)
    if (b.record[first].kind == EVENT) go_on_from(&trial, first);
  return trial.tried < MOST_TRIED;
}
