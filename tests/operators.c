/* What a case has to do with the operator !=: see operators.h. */
#include "operators.h"

#include <string.h>

#include "otherwise.h"
#include "rules.h"
#include "spaldep.h"
#include "tally.h"

/* ---- patterns ---- */

/* What an accepted pattern asks with !=: anything, a condition between two variables, one on two attributes of the same
   event, one that a group variable has a side of, one between slot and amount; and each attribute by its place. */
struct asked {
  bool any, join, own, group, slot_and_amount;
  bool at[PLACES][ATTRIBUTES];
};

static void ask_with_attribute(const struct pattern *p, const struct condition *k, struct asked *a) {
  unsigned first = k->attribute, second = k->second_attribute;
  if ((first == SLOT && second == AMOUNT) || (first == AMOUNT && second == SLOT)) a->slot_and_amount = true;
  if (!is_join(k)) {
    a->own = a->own || first != second;
    return;
  }
  a->join = true;
  a->group = a->group || p->group[k->variable] || p->group[k->second_variable];
  a->at[JOIN_FIRST][first] = true;
  a->at[JOIN_SECOND][second] = true;
}

static struct asked asked_with_not_equal(const struct pattern *p) {
  struct asked a = {.any = false};
  for (unsigned i = 0; i < p->c; i++) {
    const struct condition *k = &p->condition[i];
    if (k->operator!= NOT_EQUAL) continue;
    a.any = true;
    if (k->form == WITH_CONSTANT)
      a.at[BESIDE_CONSTANT][k->attribute] = true;
    else
      ask_with_attribute(p, k, &a);
  }
  return a;
}

static struct asked asked_of(const struct test_case *c) {
  struct pattern p;
  if (read_pattern(c->pattern, c->pattern_len, &p) != 0) return (struct asked){.any = false};
  return asked_with_not_equal(&p);
}

bool asks_not_equal(const struct test_case *c) { return asked_of(c).any; }

bool joins_not_equal(const struct test_case *c) { return asked_of(c).join; }

static void count_asked(const struct asked *a) {
  tally.met[MET_NOT_EQUAL_OWN] += a->own;
  tally.met[MET_NOT_EQUAL_GROUP] += a->group;
  for (unsigned place = 0; place < PLACES; place++)
    for (unsigned attribute = 0; attribute < ATTRIBUTES; attribute++)
      tally.not_equal[place][attribute] += a->at[place][attribute];
}

/* ---- patterns and blocks ---- */

/* Whether an event has a slot from `least` to `greatest`, and an event an amount that is less by `less`. */
static bool has_slot_and_amount(const struct block *b, int64_t least, int64_t greatest, int64_t less) {
  for (size_t i = 0; i < b->count; i++) {
    int64_t slot = b->record[i].slot;
    if (b->record[i].kind != EVENT || slot < least || slot > greatest) continue;
    for (size_t j = 0; j < b->count; j++)
      if (b->record[j].kind == EVENT && b->record[j].amount == slot - less) return true;
  }
  return false;
}

/* From 2^31 on the same 32 bits are a slot and an amount that differ; below they are the same number. */
static void count_slot_and_amount(const struct block *b) {
  const int64_t half = (int64_t)1 << 31, whole = (int64_t)1 << 32;
  tally.met[MET_NOT_EQUAL_BITS] += has_slot_and_amount(b, half, whole - 1, whole);
  tally.met[MET_NOT_EQUAL_EDGE] += has_slot_and_amount(b, half - 1, half - 1, 0);
}

/* ---- passes ---- */

/* Whether the reading whose head is number `at` of a result binds a variable to events that differ in an attribute. */
static bool bound_apart(const struct block *b, const uint8_t *result, size_t at, unsigned variable,
                        unsigned attribute) {
  const struct record *first = NULL;
  size_t last = at + spaldep_bindings(spaldep_number(result, at));
  for (at++; at <= last; at++) {
    uint16_t binding = spaldep_number(result, at);
    const struct record *event = &b->record[spaldep_record(binding)];
    if (spaldep_variable(binding) != variable) continue;
    if (first == NULL) first = event;
    if (value(event, attribute) != value(first, attribute)) return true;
  }
  return false;
}

/* Whether a reading of a report binds a side of a join by != to different values: each of them is asked then. */
static bool reports_apart(const struct pattern *p, const struct block *b, const struct outcome *o) {
  for (size_t at = 0; at < spaldep_used(o->answer); at += 1 + spaldep_bindings(spaldep_number(o->result, at)))
    for (unsigned i = 0; i < p->c; i++) {
      const struct condition *k = &p->condition[i];
      if (k->operator!= NOT_EQUAL || !is_join(k)) continue;
      if (bound_apart(b, o->result, at, k->variable, k->attribute)) return true;
      if (bound_apart(b, o->result, at, k->second_variable, k->second_attribute)) return true;
    }
  return false;
}

/* Counts whether the forward pass answers or reports something else with another operator in the place of !=. The
   others take turns, one a case. */
static void count_otherwise(const struct test_case *c, const struct pattern *p, const struct outcome *o) {
  static struct outcome otherwise;
  static unsigned turn;
  uint8_t pattern[PATTERN_ROOM];
  unsigned other = turn++ % NOT_EQUAL;
  memcpy(pattern, c->pattern, c->pattern_len);
  for (unsigned i = 0; i < p->c; i++)
    if (p->condition[i].operator== NOT_EQUAL) set_field(pattern + 8 + p->n + 8 * (size_t)i, OPERATOR_AT, 3, other);
  forward_outcome(pattern, c->pattern_len, c->block, c->block_len, &otherwise);
  tally.otherwise[other] += !same_outcome(o, &otherwise);
}

static void count_passes(const struct test_case *c, const struct pattern *p, const struct block *b) {
  static struct outcome outcome;
  forward_outcome(c->pattern, c->pattern_len, c->block, c->block_len, &outcome);
  tally.met[MET_NOT_EQUAL_APART] += reports_apart(p, b, &outcome);
  count_otherwise(c, p, &outcome);
}

void count_operators(const struct test_case *c, uint64_t pattern_answer, uint64_t block_answer) {
  static struct block b;
  struct pattern p;
  struct asked a = asked_of(c);
  count_asked(&a);
  if (spaldep_code(pattern_answer) == SPALDEP_REFUSED_CONDITION) {
    tally.met[MET_OPERATOR_6] += refused_for(c, pattern_answer, OPERATOR_AT, 6, NOT_EQUAL);
    tally.met[MET_OPERATOR_7] += refused_for(c, pattern_answer, OPERATOR_AT, 7, NOT_EQUAL);
  }
  if (!a.any || spaldep_code(block_answer) != 0) return;
  read_all(c->pattern, c->pattern_len, c->block, c->block_len, &p, &b);
  if (a.slot_and_amount) count_slot_and_amount(&b);
  count_passes(c, &p, &b);
}
