/* The start-by-start pass by merged readings: see merged.h. */
#include "merged.h"

#include <string.h>

#include "groups.h"

enum {
  MOST_NODES = 12000,  /* groups of one start */
  MOST_EDGES = 60000,  /* steps of one start */
  MOST_TESTS = 300000, /* events held against a group, of one case */
  CHAINS = 512
};

_Static_assert((int)MERGED_REPORT_BYTES == (int)RESULT_BYTES, "the longest result slice");

#define LAST_COUNT ((uint64_t)1 << BINDINGS)

/* A group from the event at which its first reading came to it, up to the event that fires one of its steps: this
   takes all of its readings away. So its steps in come before its steps out, and a step in that comes late joins the
   readings that have waited. */
struct node {
  struct group group;
  uint64_t readings, bindings; /* sums over its readings */
  uint64_t counts;             /* bit k: a reading of it has k bindings */
  unsigned fire;               /* the steps that the event at hand fires */
  bool ends_full;              /* a reading goes on from here to a report */
  size_t in;                   /* the last edge into it, or none */
  size_t out;                  /* the first edge out of it, or none; the others follow it, by variable */
  size_t chained;
};

struct edge {
  size_t from, to, other_in; /* other_in: one more edge into the same node, or none */
  unsigned variable;
  size_t record;
};

static const size_t NONE = SIZE_MAX;

/* The walk of one start: nodes, the edges between them in the order of their records, and the nodes that are live. */
static struct walk {
  struct view view;
  size_t nodes, edges, live_count, tests;
  bool spent; /* a bound was met */
  struct node node[MOST_NODES];
  struct edge edge[MOST_EDGES];
  size_t live[MOST_NODES], chain[CHAINS];
} walk;

static uint64_t sum(uint64_t x, uint64_t y) { return x + y < MERGED_MOST ? x + y : MERGED_MOST; }

/* ---- one start ---- */

static size_t chain_of(const struct walk *w, const struct group *g) {
  uint64_t hash = g->state * (uint64_t)0x9e3779b97f4a7c15;
  for (size_t i = 0; i < w->view.sides; i++) {
    hash = (hash ^ (uint64_t)g->least[i]) * 0xbf58476d1ce4e5b9u;
    hash = (hash ^ (uint64_t)g->greatest[i] ^ g->bound[i] << 24 ^ hash >> 29) * 0x94d049bb133111ebu;
  }
  return (size_t)(hash >> 32) % CHAINS;
}

static void chain_in(struct walk *w, size_t node) {
  size_t at = chain_of(w, &w->node[node].group);
  w->node[node].chained = w->chain[at];
  w->chain[at] = node;
}

/* The live node whose group is the one made up in the next free node, or else this one. */
static size_t node_of_next(struct walk *w) {
  struct node *made = &w->node[w->nodes];
  for (size_t i = w->chain[chain_of(w, &made->group)]; i != NONE; i = w->node[i].chained)
    if (same_group(&w->view, &w->node[i].group, &made->group)) return i;
  made->readings = made->bindings = made->counts = 0;
  made->ends_full = false;
  made->in = made->out = NONE;
  chain_in(w, w->nodes);
  w->live[w->live_count++] = w->nodes;
  return w->nodes++;
}

static void take_step(struct walk *w, size_t from, unsigned v, size_t at) {
  if (w->nodes == MOST_NODES || w->edges == MOST_EDGES) {
    w->spent = true;
    return;
  }
  bind_group(&w->view, &w->node[from].group, v, at, &w->node[w->nodes].group);
  size_t to = node_of_next(w);
  struct node *source = &w->node[from], *target = &w->node[to];
  w->edge[w->edges] = (struct edge){from, to, target->in, v, at};
  if (source->out == NONE) source->out = w->edges;
  target->in = w->edges++;
  target->readings = sum(target->readings, source->readings);
  target->bindings = sum(target->bindings, sum(source->bindings, source->readings));
  target->counts |= (source->counts & ~LAST_COUNT) << 1;
}

/* Takes the live readings past a record; false where one of them has a 33rd binding there, and then only if the walk is
   to go past it. */
static bool pass_record(struct walk *w, size_t at, bool past) {
  static size_t going[MOST_NODES];
  size_t stay = 0, go = 0;
  bool too_long = false;
  w->tests += w->live_count;
  for (size_t i = 0; i < w->live_count; i++) {
    struct node *n = &w->node[w->live[i]];
    n->fire = firing(&w->view, &n->group, at);
    if (n->fire == 0)
      w->live[stay++] = w->live[i];
    else
      going[go++] = w->live[i];
    too_long = too_long || (n->fire != 0 && (n->counts & LAST_COUNT) != 0);
  }
  if (go == 0) return true;
  if (too_long && !past) return false;
  w->live_count = stay;
  for (size_t i = 0; i < CHAINS; i++) w->chain[i] = NONE;
  for (size_t i = 0; i < stay; i++) chain_in(w, w->live[i]);
  for (size_t i = 0; i < go; i++)
    for (unsigned v = 0; v < w->view.p->n && !w->spent; v++)
      if (w->node[going[i]].fire >> v & 1) take_step(w, going[i], v, at);
  return !too_long;
}

static bool some_step_leaves(struct walk *w) {
  for (size_t i = 0; i < w->live_count; i++)
    if (leaves(&w->view, w->node[w->live[i]].group.state) != 0) return true;
  return false;
}

/* Walks the records from `first` up to `end`. The first node stands for the reading without bindings. Gives the least
   record of a 33rd binding, or `end`; it stops there unless it is to go past it, which the readings of 32 do not. */
static size_t walk_start(struct walk *w, size_t first, size_t end, bool past) {
  size_t too_long_at = end;
  w->nodes = w->live_count = 1;
  w->edges = 0;
  w->spent = false;
  w->live[0] = 0;
  w->node[0] = (struct node){.readings = 1, .counts = 1, .in = NONE, .out = NONE};
  for (size_t at = first; at < end && !w->spent && some_step_leaves(w); at++) {
    bool in_order = pass_record(w, at, past);
    w->spent = w->spent || w->tests > MOST_TESTS;
    if (!in_order && too_long_at == end) too_long_at = at;
    if (!in_order && !past) break;
    if (w->node[0].out == NONE) break;
  }
  return too_long_at;
}

/* ---- what a start reports ---- */

/* Goes back from a node along every way to the first one; `bindings` are in the reading behind it. */
static void list_back(struct walk *w, size_t node, struct reading *r, size_t bindings, struct list *report) {
  if (node == 0) {
    struct reading whole = *r;
    whole.count = bindings;
    for (size_t i = 0; i < bindings; i++) whole.binding[i] = r->binding[bindings - 1 - i];
    add(report, &whole);
    return;
  }
  for (size_t i = w->node[node].in; i != NONE; i = w->edge[i].other_in) {
    r->binding[bindings].variable = w->edge[i].variable;
    r->binding[bindings].record = w->edge[i].record;
    list_back(w, w->edge[i].from, r, bindings + 1, report);
  }
}

static void count_start(struct walk *w, size_t end, struct merged *out) {
  for (size_t i = 0; i < w->live_count; i++) {
    struct node *n = &w->node[w->live[i]];
    if (!full_group(&w->view, &n->group)) continue;
    n->ends_full = true;
    out->readings = sum(out->readings, n->readings);
    out->numbers = sum(out->numbers, sum(n->readings, n->bindings));
    size_t last = w->edge[n->in].record;
    if (leaves(&w->view, n->group.state) == 0 && end - 1 - last > out->behind) out->behind = end - 1 - last;
  }
  for (size_t i = w->edges; i-- > 0;)
    if (w->node[w->edge[i].to].ends_full) w->node[w->edge[i].from].ends_full = true;
  for (size_t i = 1; i < w->nodes; i++) {
    out->branches = sum(out->branches, w->node[i].readings);
    if (!w->node[i].ends_full) out->never_full = sum(out->never_full, w->node[i].readings);
  }
}

static void list_start(struct walk *w, unsigned mark, struct list *report) {
  struct reading r = {.mark = mark};
  for (size_t i = 0; i < w->live_count; i++)
    if (full_group(&w->view, &w->node[w->live[i]].group)) list_back(w, w->live[i], &r, 0, report);
}

/* ---- branches before the first 33rd binding ---- */

/* The branches of a start before the first 33rd binding, where it has one and variables are tried in their order.
   under[i][k] are those under a reading of k bindings in node i, itself included; bit k of too_long[i] says that one
   of them has a 33rd binding. Where the walk was cut short, that is taken of every node that may have steps which it
   did not take: this can only make the branches fewer. */
static uint64_t branches_before(struct walk *w) {
  static uint64_t under[MOST_NODES][BINDINGS + 1], too_long[MOST_NODES];
  for (size_t i = 0; i < w->nodes; i++) {
    bool steps_missing = w->spent && (w->node[i].out == NONE || i == w->edge[w->edges - 1].from);
    too_long[i] = steps_missing ? w->node[i].counts : w->node[i].out != NONE ? w->node[i].counts & LAST_COUNT : 0;
    for (size_t k = 0; k <= BINDINGS; k++) under[i][k] = 1;
  }
  for (size_t i = w->edges; i-- > 0;) {
    size_t from = w->edge[i].from, to = w->edge[i].to;
    too_long[from] |= too_long[to] >> 1 & w->node[from].counts & ~LAST_COUNT;
    for (size_t k = 0; k < BINDINGS; k++) under[from][k] = sum(under[from][k], under[to][k + 1]);
  }
  uint64_t before = 0;
  size_t node = 0, k = 0, i = w->node[0].out;
  while (k < BINDINGS && i != NONE && i < w->edges && w->edge[i].from == node) {
    size_t to = w->edge[i].to;
    if (too_long[to] >> (k + 1) & 1) {
      before = sum(before, 1);
      node = to;
      k++;
      i = w->node[to].out;
    } else {
      before = sum(before, under[to][k + 1]);
      i++;
    }
  }
  return before;
}

/* ---- all starts ---- */

/* Whether what begins at `first` can still change an answer. With a 33rd binding known, or more numbers than the
   longest slice holds, only a 33rd binding does: it comes 32 records behind its start or later, and where every
   variable takes one event, it does not. */
static bool counts_still(const struct walk *w, const struct merged *m, size_t first, size_t end) {
  bool group = false;
  for (unsigned v = 0; v < w->view.p->n; v++) group = group || w->view.p->group[v];
  if (!m->too_long && m->numbers <= RESULT_BYTES / 2) return true;
  return group && first + BINDINGS < (m->too_long && m->too_long_at < end ? m->too_long_at : end);
}

static uint64_t branches_of(const struct walk *w) {
  uint64_t branches = 0;
  for (size_t i = 1; i < w->nodes; i++) branches = sum(branches, w->node[i].readings);
  return branches;
}

/* A start with a 33rd binding at a record below all that were known. What comes before the first one is counted only
   without joins, where it can be known from the records alone that one comes. */
static void found_too_long(struct walk *w, size_t first, size_t closes, size_t at, struct merged *m) {
  uint64_t earlier = m->branches;
  bool first_found = !m->too_long;
  m->too_long = true;
  m->too_long_at = at;
  m->branches = sum(m->branches, branches_of(w));
  if (!first_found || m->joins) return;
  size_t tests = w->tests;
  w->tests = 0;
  walk_start(w, first, closes, true);
  w->tests = tests;
  m->before = sum(earlier, branches_before(w));
}

/* Merges the readings that begin at one record; false where a bound was met. */
static bool merge_start(struct walk *w, size_t first, struct merged *m, struct list *report) {
  unsigned mark;
  size_t closes = closes_at(&w->view, first, &mark), end = closes;
  if (!counts_still(w, m, first, closes)) return true;
  if (m->too_long && m->too_long_at < end) end = m->too_long_at;
  size_t at = walk_start(w, first, end, false);
  if (w->spent) return false;
  if (at < end) {
    found_too_long(w, first, closes, at, m);
  } else if (m->too_long) {
    m->branches = sum(m->branches, branches_of(w));
  } else {
    count_start(w, end, m);
    if (m->numbers <= RESULT_BYTES / 2) list_start(w, mark, report);
  }
  return true;
}

void merge_readings(const uint8_t *pattern, size_t pattern_len, const uint8_t *block, size_t block_len,
                    struct merged *out) {
  static struct pattern p;
  static struct block b;
  struct list report = {0, 0, NULL};
  memset(out, 0, sizeof *out);
  out->answered = true;
  out->refused = read_all(pattern, pattern_len, block, block_len, &p, &b);
  if (out->refused != 0) return;
  out->answered = view_of(&walk.view, &p, &b);
  walk.tests = 0;
  out->joins = walk.view.joins > 0;
  for (size_t first = 0; first < b.count && out->answered; first++)
    if (b.record[first].kind == EVENT) out->answered = merge_start(&walk, first, out, &report);
  if (out->answered && !out->too_long && out->numbers <= RESULT_BYTES / 2) write_report(&report, 0, out->report);
  drop(&report);
}

/* Rules 7.6, 7.8 and 8.16. */
uint64_t merged_start_by_start(const struct merged *m, uint8_t *result, size_t result_len) {
  clear(result, result_len);
  if (m->refused != 0) return m->refused;
  if (!result_in_order(result_len)) return refusal(8, 0);
  if (m->too_long) return refusal(9, m->too_long_at);
  if (m->numbers > result_len / 2) return refusal(11, 0);
  memcpy(result, m->report, 2 * (size_t)m->numbers);
  return answer(0, m->numbers, m->readings, 0);
}
