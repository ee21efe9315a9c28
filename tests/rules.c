/* What the rules say of bytes, automaton and readings: see rules.h. */
#include "rules.h"

#include <stdlib.h>
#include <string.h>

/* ---- lists of readings ---- */

void add(struct list *list, const struct reading *reading) {
  if (list->count == list->room) {
    list->room = list->room == 0 ? 16 : 2 * list->room;
    list->reading = realloc(list->reading, list->room * sizeof *list->reading);
    if (list->reading == NULL) abort();
  }
  list->reading[list->count++] = *reading;
}

void drop(struct list *list) {
  free(list->reading);
  *list = (struct list){0, 0, NULL};
}

/* ---- answers ---- */

/* Rule 7.8. */
uint64_t answer(uint64_t code, uint64_t place_or_used, uint64_t readings, uint64_t peak) {
  return code << 56 | place_or_used << 32 | readings << 16 | peak;
}

uint64_t refusal(unsigned code, size_t place) { return answer(code, place, 0, 0); }

void clear(uint8_t *bytes, size_t length) {
  for (size_t i = 0; i < length; i++) bytes[i] = 0;
}

/* ---- bytes ---- */

uint64_t field(const uint8_t *bytes, size_t from, size_t width) {
  uint64_t value = 0;
  for (size_t i = from; i < from + width; i++) value = value << 1 | (bytes[i / 8] >> (7 - i % 8) & 1u);
  return value;
}

static unsigned small_field(const uint8_t *bytes, size_t from, size_t width) {
  return (unsigned)field(bytes, from, width);
}

/* Rule 3.1. */
static int64_t two_complement(uint64_t bits32) {
  return bits32 < 0x80000000u ? (int64_t)bits32 : (int64_t)bits32 - 0x100000000;
}

/* ---- patterns ---- */

/* Rules 2.2 and 8.3. Later variables have no say, so of seven in a set the last one is bad. */
static bool variable_in_order(const struct pattern *p, unsigned v, const uint8_t *byte) {
  unsigned before = v == 0 ? 1 : p->set[v - 1];
  unsigned members = 0;
  for (unsigned u = 0; u <= v; u++) members += p->set[u] == p->set[v];
  if (field(byte, 5, 3) != 0) return false;
  if (v == 0 && p->set[v] != 1) return false;
  if (p->set[v] < before || p->set[v] > before + 1) return false;
  return p->set[v] <= SETS && members <= SET_VARIABLES;
}

/* Rules 2.3 and 8.4. */
static bool condition_in_order(const struct pattern *p, const struct condition *k, const uint8_t *bytes) {
  if (k->variable >= p->n || k->attribute >= ATTRIBUTES || k->operator>= OPERATORS) return false;
  if (field(bytes, 18, 14) != 0) return false;
  if (k->form == WITH_CONSTANT) return k->second_variable == 0 && k->second_attribute == 0;
  return k->second_variable < p->n && k->second_attribute < ATTRIBUTES && field(bytes, 32, 32) == 0;
}

/* Rules 2.1 to 2.4, asked in the order of Rule 8.14: 0, or the refusal as an answer. */
uint64_t read_pattern(const uint8_t *bytes, size_t length, struct pattern *p) {
  memset(p, 0, sizeof *p);
  if (length < 8) return refusal(1, 0);
  p->n = small_field(bytes, 4, 4);
  p->c = small_field(bytes, 8, 8);
  p->duration = field(bytes, 24, 40);
  if (field(bytes, 0, 4) != 1 || p->n < 1 || p->n > VARIABLES || p->c > CONDITIONS || field(bytes, 16, 8) != 0)
    return refusal(2, 0);
  if (length != 8 + (size_t)p->n + 8 * (size_t)p->c) return refusal(1, 0);
  for (unsigned v = 0; v < p->n; v++) {
    const uint8_t *byte = bytes + 8 + v;
    p->set[v] = small_field(byte, 0, 4);
    p->group[v] = field(byte, 4, 1) == 1;
    if (!variable_in_order(p, v, byte)) return refusal(3, v);
  }
  for (unsigned i = 0; i < p->c; i++) {
    const uint8_t *at = bytes + 8 + p->n + 8 * (size_t)i;
    struct condition *k = &p->condition[i];
    k->variable = small_field(at, 0, 4);
    k->attribute = small_field(at, 4, 3);
    k->operator= small_field(at, 7, 3);
    k->form = small_field(at, 10, 1);
    k->second_variable = small_field(at, 11, 4);
    k->second_attribute = small_field(at, 15, 3);
    k->constant = k->attribute == AMOUNT ? two_complement(field(at, 32, 32)) : (int64_t)field(at, 32, 32);
    if (!condition_in_order(p, k, at)) return refusal(4, i);
  }
  return 0;
}

/* ---- blocks ---- */

/* Rules 1.3 and 8.6: nothing is asked of an event's fields. */
static bool record_in_order(const struct record *r) {
  if (r->kind == GAP) return r->core == 0 && r->type == 0 && r->amount == 0 && r->wave == 0 && r->slot >= 1;
  return r->kind == EVENT;
}

/* Rule 1.5: two records of one time are events. */
static bool follows(const struct record *before, const struct record *r) {
  if (r->time == before->time) return before->kind == EVENT && r->kind == EVENT;
  return r->time > before->time;
}

/* Rules 1.1, 1.2 and 1.5, asked in the order of Rule 8.14: 0, or the refusal as an answer. */
uint64_t read_block(const uint8_t *bytes, size_t length, struct block *b) {
  b->count = 0;
  if (length % RECORD_BYTES != 0 || length / RECORD_BYTES > RECORDS) return refusal(5, 0);
  for (size_t i = 0; i < length / RECORD_BYTES; i++) {
    const uint8_t *at = bytes + RECORD_BYTES * i;
    struct record *r = &b->record[i];
    r->kind = small_field(at, 0, 2);
    r->core = small_field(at, 2, 6);
    r->type = small_field(at, 8, 8);
    r->time = field(at, 16, 40);
    r->slot = (int64_t)field(at, 56, 32);
    r->amount = two_complement(field(at, 88, 32));
    r->wave = small_field(at, 120, 8);
    if (!record_in_order(r)) return refusal(6, i);
    if (i > 0 && !follows(&b->record[i - 1], r)) return refusal(7, i);
  }
  b->count = length / RECORD_BYTES;
  return 0;
}

/* Rule 1.4. */
static unsigned class_of(unsigned type) {
  if (type <= 15) return 0;
  if (type <= 31) return 1;
  if (type <= 63) return 2;
  if (type <= 95) return 3;
  if (type <= 127) return 4;
  return 5;
}

/* Rule 3.1. */
int64_t value(const struct record *r, unsigned attribute) {
  switch (attribute) {
    case CORE: return r->core;
    case TYPE: return r->type;
    case CLASS: return class_of(r->type);
    case SLOT: return r->slot;
    case AMOUNT: return r->amount;
    default: return r->wave;
  }
}

/* Rule 3.2. */
bool compares(int64_t left, unsigned operator, int64_t right) {
  switch (operator) {
    case EQUAL: return left == right;
    case LESS: return left < right;
    case LESS_EQUAL: return left <= right;
    case GREATER: return left > right;
    case GREATER_EQUAL: return left >= right;
    case NOT_EQUAL: return left != right;
    default: abort(); /* no pattern that is read has another */
  }
}

/* ---- the automaton ---- */

static bool has(unsigned state, unsigned v) { return (state >> v & 1) == 1; }

/* Rule 4.1: whether the state is one of a set, with nothing missing before that set and nothing bound behind it. */
static bool state_of_set(const struct pattern *p, unsigned state, unsigned set) {
  for (unsigned v = 0; v < p->n; v++) {
    if (p->set[v] < set && !has(state, v)) return false;
    if (p->set[v] > set && has(state, v)) return false;
  }
  return true;
}

/* Rule 4.2. The state in which a set is full is one of that set, where its group variables loop, and one of the next,
   where nothing is bound yet. */
bool step_leaves(const struct pattern *p, unsigned state, unsigned v) {
  return state_of_set(p, state, p->set[v]) && (!has(state, v) || p->group[v]);
}

/* Rule 4.3: the step is the first into a set behind another. */
bool order_mark(const struct pattern *p, unsigned state, unsigned v) {
  if (p->set[v] == 1) return false;
  for (unsigned u = 0; u < p->n; u++)
    if (p->set[u] == p->set[v] && has(state, u)) return false;
  return true;
}

/* Rule 4.4: the condition is about v, and all else that it is about is bound. */
bool carries(const struct condition *k, unsigned state, unsigned v) {
  if (k->form == WITH_CONSTANT) return k->variable == v;
  if (k->variable != v && k->second_variable != v) return false;
  return (k->variable == v || has(state, k->variable)) && (k->second_variable == v || has(state, k->second_variable));
}

/* ---- the reading rule ---- */

static unsigned state_after(const struct reading *r, size_t bindings) {
  unsigned state = 0;
  for (size_t i = 0; i < bindings; i++) state |= 1u << r->binding[i].variable;
  return state;
}

/* Rule 3.3: whether a condition holds with `first` for its variable and `second` for its second variable. */
bool holds(const struct block *b, const struct condition *k, size_t first, size_t second) {
  int64_t left = value(&b->record[first], k->attribute);
  int64_t right = k->form == WITH_CONSTANT ? k->constant : value(&b->record[second], k->second_attribute);
  return compares(left, k->operator, right);
}

bool is_join(const struct condition *k) {
  return k->form == WITH_ATTRIBUTE && k->variable != k->second_variable;
}

/* Rule 5.3: whether a condition holds of the new event beside each event that its other variable is bound to. One that
   is about v alone, on one side or on both, asks the new event and no earlier one. */
static bool condition_holds(const struct block *b, const struct condition *k, const struct reading *r, size_t bindings,
                            unsigned v, size_t event) {
  if (k->form == WITH_CONSTANT || k->variable == k->second_variable) return holds(b, k, event, event);
  unsigned other = k->variable == v ? k->second_variable : k->variable;
  for (size_t i = 0; i < bindings; i++) {
    if (r->binding[i].variable != other) continue;
    size_t bound = r->binding[i].record;
    if (!(k->variable == v ? holds(b, k, event, bound) : holds(b, k, bound, event))) return false;
  }
  return true;
}

/* Rule 5.2: whether the event fires the step on v from the state that the first `bindings` bindings of r hold. */
bool fires(const struct pattern *p, const struct block *b, const struct reading *r, size_t bindings, unsigned v,
           size_t event) {
  unsigned state = state_after(r, bindings);
  if (!step_leaves(p, state, v)) return false;
  if (order_mark(p, state, v))
    for (size_t i = 0; i < bindings; i++)
      if (b->record[event].time <= b->record[r->binding[i].record].time) return false;
  for (unsigned i = 0; i < p->c; i++)
    if (carries(&p->condition[i], state, v) && !condition_holds(b, &p->condition[i], r, bindings, v, event))
      return false;
  return true;
}

bool fires_any(const struct pattern *p, const struct block *b, const struct reading *r, size_t bindings, size_t event) {
  for (unsigned v = 0; v < p->n; v++)
    if (fires(p, b, r, bindings, v, event)) return true;
  return false;
}

struct reading bound(const struct reading *r, unsigned v, size_t event) {
  struct reading longer = *r;
  longer.binding[longer.count].variable = v;
  longer.binding[longer.count].record = event;
  longer.count++;
  return longer;
}

bool full(const struct pattern *p, const struct reading *r) { return state_after(r, r->count) == (1u << p->n) - 1; }

bool late(const struct pattern *p, const struct block *b, const struct reading *r, size_t at) {
  return b->record[at].time - b->record[r->binding[0].record].time > p->duration;
}

/* Rule 5.8: whether a variable of the last set is a group variable. */
static unsigned gap_mark(const struct pattern *p) {
  for (unsigned v = 0; v < p->n; v++)
    if (p->set[v] == p->set[p->n - 1] && p->group[v]) return MARK_GAP;
  return MARK_GAP_COMPLETE;
}

/* Rule 5.8: the mark with which a live reading closes at `at`, the count of records standing for the end; 0: it does
   not. */
unsigned closing(const struct pattern *p, const struct block *b, const struct reading *r, size_t at) {
  if (at == b->count) return MARK_END;
  if (b->record[at].kind == GAP) return gap_mark(p);
  return late(p, b, r, at) ? MARK_WINDOW : 0;
}

/* ---- what a pass is given ---- */

/* Rule 8.14, up to refusal 7. */
uint64_t read_all(const uint8_t *pattern, size_t pattern_len, const uint8_t *block, size_t block_len, struct pattern *p,
                  struct block *b) {
  uint64_t refused = read_pattern(pattern, pattern_len, p);
  return refused != 0 ? refused : read_block(block, block_len, b);
}

bool result_in_order(size_t result_len) { return result_len % 2 == 0 && result_len <= RESULT_BYTES; }

bool limit_in_order(uint32_t limit, size_t work_len) {
  return limit >= 1 && limit <= LIMIT && work_len >= (size_t)WORK_BYTES * limit;
}

/* ---- the report ---- */

/* Rule 6.1. */
static int report_order(const void *left, const void *right) {
  const struct reading *x = left, *y = right;
  if (x->binding[0].record != y->binding[0].record) return x->binding[0].record < y->binding[0].record ? -1 : 1;
  for (size_t i = 0; i < x->count && i < y->count; i++)
    if (x->binding[i].variable != y->binding[i].variable)
      return x->binding[i].variable < y->binding[i].variable ? -1 : 1;
  return 0;
}

size_t numbers(const struct list *report) {
  size_t sum = 0;
  for (size_t i = 0; i < report->count; i++) sum += 1 + report->reading[i].count;
  return sum;
}

static void put(uint8_t *result, size_t at, unsigned number) {
  result[2 * at] = (uint8_t)(number >> 8);
  result[2 * at + 1] = (uint8_t)(number & 255);
}

/* Rules 6.1 to 6.3. */
uint64_t write_report(struct list *report, size_t peak, uint8_t *result) {
  size_t at = 0;
  if (report->count > 0) qsort(report->reading, report->count, sizeof *report->reading, report_order);
  for (size_t i = 0; i < report->count; i++) {
    const struct reading *r = &report->reading[i];
    put(result, at++, r->mark << 12 | (unsigned)r->count);
    for (size_t k = 0; k < r->count; k++)
      put(result, at++, r->binding[k].variable << 12 | (unsigned)r->binding[k].record);
  }
  return answer(0, at, report->count, peak);
}
