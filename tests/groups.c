/* Groups of readings that go on alike: see groups.h. */
#include "groups.h"

#include <string.h>

static const unsigned NOT_ASKED = 1u << VARIABLES;

static size_t side_of(struct view *w, unsigned variable, unsigned attribute) {
  size_t i = 0;
  while (i < w->sides && (w->side[i].variable != variable || w->side[i].attribute != attribute)) i++;
  if (i == w->sides) w->side[w->sides++] = (struct side){variable, attribute, 0, 0, 0};
  return i;
}

/* Equal to all is equal to the least and to the greatest; below all is below the least, and above all above the
   greatest. Other than all is neither of these, and asks every value. */
static void add_join(struct view *w, const struct condition *k) {
  size_t first = side_of(w, k->variable, k->attribute), second = side_of(w, k->second_variable, k->second_attribute);
  bool equal = k->operator== EQUAL, other = k->operator== NOT_EQUAL;
  bool below = k->operator== LESS || k->operator== LESS_EQUAL;
  bool above = k->operator== GREATER || k->operator== GREATER_EQUAL;
  w->join[w->joins++] = (struct join){k, first, second};
  if (equal || below) {
    w->side[first].greatest_for |= 1u << k->second_variable;
    w->side[second].least_for |= 1u << k->variable;
  }
  if (equal || above) {
    w->side[first].least_for |= 1u << k->second_variable;
    w->side[second].greatest_for |= 1u << k->variable;
  }
  if (other) {
    w->side[first].others_for |= 1u << k->second_variable;
    w->side[second].others_for |= 1u << k->variable;
  }
}

/* The number of a value, or the count of values where it is not among them. */
static size_t number_of(const struct values *all, int64_t value) {
  size_t i = 0;
  while (i < all->count && all->value[i] != value) i++;
  return i;
}

/* Lists the values of an attribute; false where they are too many. */
static bool list_values(struct view *w, unsigned attribute) {
  struct values *all = &w->values[attribute];
  all->count = 0;
  for (size_t record = 0; record < w->b->count; record++) {
    int64_t new = value(&w->b->record[record], attribute);
    if (w->b->record[record].kind == GAP || number_of(all, new) < all->count) continue;
    if (all->count == MOST_VALUES) return false;
    all->value[all->count++] = new;
  }
  return true;
}

static unsigned able_at(const struct pattern *p, const struct block *b, size_t record) {
  unsigned able = (1u << p->n) - 1;
  if (b->record[record].kind == GAP) return 0;
  for (unsigned i = 0; i < p->c; i++)
    if (!is_join(&p->condition[i]) && !holds(b, &p->condition[i], record, record))
      able &= ~(1u << p->condition[i].variable);
  return able;
}

bool view_of(struct view *w, const struct pattern *p, const struct block *b) {
  w->p = p;
  w->b = b;
  w->sides = w->joins = 0;
  for (unsigned state = 0; state < 1u << p->n; state++) w->leaving[state] = NOT_ASKED;
  for (size_t record = 0; record < b->count; record++) w->able[record] = able_at(p, b, record);
  for (unsigned i = 0; i < p->c; i++)
    if (is_join(&p->condition[i])) add_join(w, &p->condition[i]);
  for (size_t i = 0; i < w->sides; i++)
    if (w->side[i].others_for != 0 && !list_values(w, w->side[i].attribute)) return false;
  return true;
}

unsigned leaves(struct view *w, unsigned state) {
  if (w->leaving[state] != NOT_ASKED) return w->leaving[state];
  unsigned all = 0;
  for (unsigned v = 0; v < w->p->n; v++)
    if (step_leaves(w->p, state, v)) all |= 1u << v;
  return w->leaving[state] = all;
}

/* Whether a condition holds between a value of the new event, which is on its first side or else on its second, and one
   that is bound. */
static bool stands(const struct condition *k, bool new_first, int64_t new, int64_t bound) {
  return new_first ? compares(new, k->operator, bound) : compares(bound, k->operator, new);
}

/* Whether a join holds between the new event and all that its other side is bound to. */
static bool join_holds(const struct view *w, const struct group *g, const struct join *j, bool new_first,
                       size_t event) {
  const struct condition *k = j->condition;
  size_t side = new_first ? j->second : j->first;
  int64_t new = value(&w->b->record[event], new_first ? k->attribute : k->second_attribute);
  if (k->operator!= NOT_EQUAL)
    return stands(k, new_first, new, g->least[side]) && stands(k, new_first, new, g->greatest[side]);
  const struct values *all = &w->values[w->side[side].attribute];
  for (size_t i = 0; i < all->count; i++)
    if ((g->bound[side] >> i & 1) == 1 && !stands(k, new_first, new, all->value[i])) return false;
  return true;
}

unsigned agreeing(const struct view *w, const struct group *g, unsigned variables, size_t event) {
  unsigned agree = variables & w->able[event];
  for (size_t i = 0; i < w->joins && agree != 0; i++) {
    const struct join *j = &w->join[i];
    unsigned first = 1u << j->condition->variable, second = 1u << j->condition->second_variable;
    if ((agree & first) != 0 && (g->state & second) != 0 && !join_holds(w, g, j, true, event)) agree &= ~first;
    if ((agree & second) != 0 && (g->state & first) != 0 && !join_holds(w, g, j, false, event)) agree &= ~second;
  }
  return agree;
}

/* The variables that leave a state by steps with the order mark. */
static unsigned opening(struct view *w, unsigned state) {
  unsigned marked = 0;
  for (unsigned v = 0; v < w->p->n; v++)
    if (order_mark(w->p, state, v)) marked |= 1u << v;
  return leaves(w, state) & marked;
}

unsigned firing(struct view *w, const struct group *g, size_t event) {
  unsigned kept_out = g->cycle == w->b->record[event].time + 1 ? opening(w, g->state) : 0;
  return agreeing(w, g, leaves(w, g->state) & ~kept_out, event);
}

/* The values of a side once its variable is bound to an event. */
static void widen(const struct view *w, struct group *g, size_t side, bool first_value, size_t event) {
  const struct side *s = &w->side[side];
  int64_t new = value(&w->b->record[event], s->attribute);
  if (first_value || new < g->least[side]) g->least[side] = new;
  if (first_value || new > g->greatest[side]) g->greatest[side] = new;
  if (s->others_for != 0) g->bound[side] |= (uint64_t)1 << number_of(&w->values[s->attribute], new);
}

/* Forgets of a side what no event to come is held against: of a value that is not asked for, the other one is put in
   its place, so that to hold of both is to hold of the one that is. */
static void forget(const struct side *s, struct group *g, size_t side, unsigned to_come) {
  bool least_asked = (s->least_for & to_come) != 0, greatest_asked = (s->greatest_for & to_come) != 0;
  if (!least_asked && !greatest_asked) g->least[side] = g->greatest[side] = 0;
  if (least_asked && !greatest_asked) g->greatest[side] = g->least[side];
  if (!least_asked && greatest_asked) g->least[side] = g->greatest[side];
  if ((s->others_for & to_come) == 0) g->bound[side] = 0;
}

unsigned still_to_come(struct view *w, unsigned state) { return (((1u << w->p->n) - 1) & ~state) | leaves(w, state); }

void bind_group(struct view *w, const struct group *from, unsigned v, size_t event, struct group *to) {
  to->state = from->state | 1u << v;
  to->cycle = opening(w, to->state) != 0 ? w->b->record[event].time + 1 : 0;
  unsigned to_come = still_to_come(w, to->state);
  for (size_t i = 0; i < w->sides; i++) {
    const struct side *s = &w->side[i];
    to->least[i] = from->least[i];
    to->greatest[i] = from->greatest[i];
    to->bound[i] = from->bound[i];
    if (s->variable == v) widen(w, to, i, (from->state >> v & 1) == 0, event);
    forget(s, to, i, to_come);
  }
}

bool same_group(const struct view *w, const struct group *x, const struct group *y) {
  if (x->state != y->state || x->cycle != y->cycle) return false;
  for (size_t i = 0; i < w->sides; i++)
    if (x->least[i] != y->least[i] || x->greatest[i] != y->greatest[i] || x->bound[i] != y->bound[i]) return false;
  return true;
}

bool full_group(const struct view *w, const struct group *g) { return g->state == (1u << w->p->n) - 1; }

size_t closes_at(const struct view *w, size_t first, unsigned *mark) {
  struct reading begun = {.count = 1};
  size_t at = first + 1;
  begun.binding[0].record = first;
  while ((*mark = closing(w->p, w->b, &begun, at)) == 0) at++;
  return at;
}
