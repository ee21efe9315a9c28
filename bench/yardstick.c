/* The two passes, the maker of indexes and the search in plain, careful C: see yardstick.h. */
#include "yardstick.h"

#include <stdbool.h>
#include <string.h>

enum { VARIABLES = 12, CONDITIONS = 32, SETS = 8, SET_VARIABLES = 6, RECORDS = 4096, BINDINGS = 32 };
enum { LIMIT = 256, WORK_BYTES = 160, RESULT_BYTES = 65536 };
enum { ATTRIBUTES = 6, CORE = 0, CLASS = 2, AMOUNT = 4, OPERATORS = 6, EQUAL = 0 };
enum { CLASSES = 6, CORES = 64, INDEX_BYTES = 18, GAP_BYTE = 0x40 };
enum { MARK_WINDOW = 1, MARK_END = 2, MARK_GAP = 3, MARK_GAP_COMPLETE = 4 };

struct record {
  int64_t value[ATTRIBUTES]; /* core, type, class, slot, amount, wave */
};

/* A condition as the step on a variable sees it: the new event's value on the left. `orders` has bit 0 where less
   meets it, bit 1 where equal does, bit 2 where greater does. */
struct own {
  uint8_t attribute, orders, second_attribute;
  bool with_constant;
  int64_t constant;
};
struct join {
  uint8_t attribute, orders, other, other_attribute;
};

struct variable {
  uint16_t before, after; /* the variables of the earlier sets; of the later ones */
  bool group;
  uint8_t owns, joins;
  struct own own[CONDITIONS];
  struct join join[CONDITIONS];
};

struct pattern {
  unsigned n, c;
  uint16_t full;
  uint64_t duration;
  struct variable variable[VARIABLES];
};

/* A live reading, as it stands in lent working memory. */
struct __attribute__((packed, may_alias)) slot {
  uint64_t last_time; /* the last cycle of its window */
  uint16_t state, count;
  uint16_t binding[BINDINGS]; /* variable 4 bits, record 12 */
};

/* The block, decoded. Times stand apart: passes go through them where they need no value. */
static struct record records[RECORDS];
static uint64_t times[RECORDS];
static bool is_gap[RECORDS];

static uint64_t refusal(uint64_t code, uint64_t place) { return code << 56 | place << 32; }

static uint32_t read32(const uint8_t *at) {
  return (uint32_t)at[0] << 24 | (uint32_t)at[1] << 16 | (uint32_t)at[2] << 8 | at[3];
}

static uint64_t read40(const uint8_t *at) { return (uint64_t)at[0] << 32 | read32(at + 1); }

static uint64_t read64(const uint8_t *at) { return (uint64_t)read32(at) << 32 | read32(at + 4); }

/* ---- patterns ---- */

/* Of =, <, <=, >, >= and !=: see struct own. */
static const uint8_t orders_of[OPERATORS] = {2, 1, 3, 4, 6, 5};

static uint8_t turned(uint8_t orders) { return (uint8_t)((orders & 1) << 2 | (orders & 2) | orders >> 2); }

static void add_condition(struct pattern *p, const uint8_t *at) {
  uint8_t variable = at[0] >> 4, attribute = at[0] >> 1 & 7, orders = orders_of[(at[0] & 1) << 2 | at[1] >> 6];
  uint8_t second = at[1] >> 1 & 15, second_attribute = (uint8_t)((at[1] & 1) << 2 | at[2] >> 6);
  bool form = at[1] >> 5 & 1;
  uint32_t bits = read32(at + 4);
  struct variable *x = &p->variable[variable], *y = &p->variable[second];
  if (!form || variable == second) {
    int64_t constant = attribute == AMOUNT ? (int64_t)(int32_t)bits : (int64_t)bits;
    x->own[x->owns++] = (struct own){attribute, orders, second_attribute, !form, constant};
    return;
  }
  x->join[x->joins++] = (struct join){attribute, orders, second, second_attribute};
  y->join[y->joins++] = (struct join){second_attribute, turned(orders), variable, attribute};
}

static bool condition_in_order(unsigned n, const uint8_t *at) {
  unsigned form = at[1] >> 5 & 1, second = at[1] >> 1 & 15, second_attribute = (at[1] & 1u) << 2 | at[2] >> 6;
  if (at[0] >> 4 >= n || (at[0] >> 1 & 7) >= ATTRIBUTES || ((at[0] & 1u) << 2 | at[1] >> 6) >= OPERATORS) return false;
  if ((at[2] & 0x3f) != 0 || at[3] != 0) return false;
  if (form == 0) return second == 0 && second_attribute == 0;
  return second < n && second_attribute < ATTRIBUTES && read32(at + 4) == 0;
}

static uint64_t read_variables(struct pattern *p, const uint8_t *bytes) {
  unsigned set = 1, members = 0;
  uint16_t earlier = 0, current = 0;
  for (unsigned v = 0; v < p->n; v++) {
    unsigned own = bytes[v] >> 4;
    if (v > 0 && own == set + 1) {
      set++;
      members = 0;
      earlier = (uint16_t)(earlier | current);
      current = 0;
    }
    if (own != set || set > SETS || ++members > SET_VARIABLES || (bytes[v] & 7) != 0) return refusal(3, v);
    current = (uint16_t)(current | 1u << v);
    p->variable[v].before = earlier;
    p->variable[v].group = bytes[v] >> 3 & 1;
  }
  for (unsigned v = 0; v < p->n; v++) {
    p->variable[v].after = 0;
    for (unsigned u = v + 1; u < p->n; u++)
      if (bytes[u] >> 4 > bytes[v] >> 4) p->variable[v].after = (uint16_t)(p->variable[v].after | 1u << u);
  }
  return 0;
}

static uint64_t read_pattern(struct pattern *p, const uint8_t *bytes, size_t length) {
  if (length < 8) return refusal(1, 0);
  p->n = bytes[0] & 15;
  p->c = bytes[1];
  p->duration = read40(bytes + 3);
  p->full = (uint16_t)((1u << p->n) - 1);
  if (bytes[0] >> 4 != 1 || p->n < 1 || p->n > VARIABLES || p->c > CONDITIONS || bytes[2] != 0) return refusal(2, 0);
  if (length != 8 + (size_t)p->n + 8 * (size_t)p->c) return refusal(1, 0);
  uint64_t refused = read_variables(p, bytes + 8);
  if (refused != 0) return refused;
  for (unsigned v = 0; v < p->n; v++) p->variable[v].owns = p->variable[v].joins = 0;
  for (unsigned i = 0; i < p->c; i++) {
    const uint8_t *at = bytes + 8 + p->n + 8 * (size_t)i;
    if (!condition_in_order(p->n, at)) return refusal(4, i);
    add_condition(p, at);
  }
  return 0;
}

/* ---- records ---- */

static uint8_t classes[256];

static void fill_classes(void) {
  static const unsigned ends[CLASSES] = {16, 32, 64, 96, 128, 256};
  uint8_t now = 0;
  for (unsigned type = 0; type < 256; type++) {
    if (type == ends[now]) now++;
    classes[type] = now;
  }
}

/* Whether a gap has something of an event, or tells of no loss. */
static bool gap_broken(const struct record *r) {
  return r->value[0] != 0 || r->value[1] != 0 || r->value[3] == 0 || r->value[4] != 0 || r->value[5] != 0;
}

static uint64_t read_block(const uint8_t *bytes, size_t length) {
  if (length % 16 != 0 || length / 16 > RECORDS) return refusal(5, 0);
  if (classes[255] == 0) fill_classes();
  for (size_t i = 0; i < length / 16; i++) {
    const uint8_t *at = bytes + 16 * i;
    struct record *r = &records[i];
    unsigned kind = at[0] >> 6;
    times[i] = read40(at + 2);
    r->value[0] = at[0] & 63;
    r->value[1] = at[1];
    r->value[2] = classes[at[1]];
    r->value[3] = read32(at + 7);
    r->value[4] = (int32_t)read32(at + 11);
    r->value[5] = at[15];
    is_gap[i] = kind == 1;
    if (kind > 1 || (kind == 1 && gap_broken(r))) return refusal(6, i);
    if (i > 0 && times[i] <= times[i - 1] && (times[i] < times[i - 1] || is_gap[i] || is_gap[i - 1]))
      return refusal(7, i);
  }
  return 0;
}

/* ---- conditions ---- */

static inline bool meets(int64_t left, unsigned orders, int64_t right) {
  return orders >> ((left >= right) + (left > right)) & 1;
}

/* The variables whose own conditions the event meets. */
static unsigned settle(const struct pattern *p, const struct record *event) {
  unsigned can = 0;
  for (unsigned v = 0; v < p->n; v++) {
    const struct variable *x = &p->variable[v];
    bool all = true;
    for (unsigned i = 0; i < x->owns && all; i++) {
      const struct own *k = &x->own[i];
      all = meets(event->value[k->attribute], k->orders,
                  k->with_constant ? k->constant : event->value[k->second_attribute]);
    }
    can |= (unsigned)all << v;
  }
  return can;
}

/* The variables that leave a state. */
static unsigned leaving(const struct pattern *p, unsigned state) {
  unsigned open = 0;
  for (unsigned v = 0; v < p->n; v++) {
    const struct variable *x = &p->variable[v];
    bool leaves = state >> v & 1 ? x->group && (state & x->after) == 0 : (state & x->before) == x->before;
    open |= (unsigned)leaves << v;
  }
  return open;
}

/* Of variables that leave a state, those that an event of the cycle of the latest binding can be bound to. The others
   open a set: all earlier ones are bound and nothing else is. */
static unsigned in_cycle(const struct pattern *p, unsigned state, unsigned open) {
  unsigned kept = open;
  for (unsigned left = open; left != 0; left &= left - 1) {
    unsigned v = (unsigned)__builtin_ctz(left);
    if (p->variable[v].before == state) kept &= ~(1u << v);
  }
  return kept;
}

static uint64_t time_bound(uint16_t binding) { return times[binding & 0xfff]; }

/* Of a gap: whether a reading of all variables may take more. */
static unsigned gap_mark(const struct pattern *p) { return leaving(p, p->full) == 0 ? MARK_GAP_COMPLETE : MARK_GAP; }

static bool joins_hold(const struct variable *x, const struct record *event, unsigned state, const uint16_t *binding,
                       unsigned count) {
  for (unsigned i = 0; i < x->joins; i++) {
    const struct join *k = &x->join[i];
    if (!(state >> k->other & 1)) continue;
    int64_t left = event->value[k->attribute];
    for (unsigned b = 0; b < count; b++)
      if (binding[b] >> 12 == k->other &&
          !meets(left, k->orders, records[binding[b] & 0xfff].value[k->other_attribute]))
        return false;
  }
  return true;
}

/* ---- the report ---- */

struct report {
  uint8_t *result;
  size_t room, used, readings; /* in 16-bit numbers; used counts on where there is no room */
};

static void write16(uint8_t *at, unsigned number) {
  at[0] = (uint8_t)(number >> 8);
  at[1] = (uint8_t)number;
}

static void write64(uint8_t *at, uint64_t number) {
  for (unsigned i = 0; i < 8; i++) at[i] = (uint8_t)(number >> (56 - 8 * i));
}

static void tell(struct report *to, unsigned mark, const uint16_t *binding, unsigned count) {
  if (to->used + 1 + count <= to->room) {
    uint8_t *at = to->result + 2 * to->used;
    write16(at, mark << 12 | count);
    for (unsigned i = 0; i < count; i++) write16(at + 2 + 2 * i, binding[i]);
  }
  to->used += 1 + count;
  to->readings++;
}

/* The answer of a pass, with the result slice as Rules 7.1 and 7.2 want it. */
static uint64_t finish(const struct report *report, uint64_t refused, size_t peak, size_t result_len) {
  size_t keep = refused == 0 ? 2 * report->used : 0;
  memset(report->result + keep, 0, result_len - keep);
  return refused != 0 ? refused : (uint64_t)report->used << 32 | (uint64_t)report->readings << 16 | peak;
}

/* ---- the forward pass ---- */

struct half {
  struct slot *slot;
  size_t count;
};

static inline void put(struct half *to, size_t limit, const struct slot *from) {
  if (to->count < limit) to->slot[to->count] = *from;
  to->count++;
}

static inline void put_bound(struct half *to, size_t limit, const struct slot *from, unsigned v, size_t at) {
  if (to->count < limit) {
    struct slot *grown = &to->slot[to->count];
    *grown = *from;
    grown->state = (uint16_t)(grown->state | 1u << v);
    grown->binding[grown->count++] = (uint16_t)(v << 12 | at);
  }
  to->count++;
}

/* All that becomes of one live reading at an event; false where it would take a 33rd binding. */
static bool extend(const struct pattern *p, const struct slot *from, unsigned can, size_t at, size_t limit,
                   struct half *to) {
  unsigned state = from->state, left = can & leaving(p, state);
  uint16_t binding[BINDINGS];
  unsigned count = from->count;
  bool fired = false;
  if (left != 0) {
    memcpy(binding, (const uint8_t *)from + offsetof(struct slot, binding), sizeof binding);
    if (time_bound(binding[count - 1]) == times[at]) left = in_cycle(p, state, left);
  }
  for (; left != 0; left &= left - 1) {
    unsigned v = (unsigned)__builtin_ctz(left);
    if (!joins_hold(&p->variable[v], &records[at], state, binding, count)) continue;
    if (count == BINDINGS) return false;
    put_bound(to, limit, from, v, at);
    fired = true;
  }
  if (!fired) put(to, limit, from);
  return true;
}

/* Closes the first `count` of the live readings. */
static void close_front(const struct pattern *p, struct half *live, size_t count, unsigned mark, struct report *to) {
  for (size_t i = 0; i < count; i++) {
    uint16_t binding[BINDINGS];
    if (live->slot[i].state != p->full) continue;
    memcpy(binding, (const uint8_t *)&live->slot[i] + offsetof(struct slot, binding), sizeof binding);
    tell(to, mark, binding, live->slot[i].count);
  }
  live->slot += count;
  live->count -= count;
}

/* 0, or a refusal. */
static uint64_t go_forward(const struct pattern *p, size_t count, size_t limit, struct slot *halves[2],
                           struct report *report, size_t *peak) {
  struct half live = {halves[0], 0};
  unsigned other = 1, first = leaving(p, 0), by_gap = gap_mark(p);
  for (size_t at = 0; at < count; at++) {
    size_t closing = live.count;
    if (!is_gap[at])
      for (closing = 0; closing < live.count && live.slot[closing].last_time < times[at];) closing++;
    close_front(p, &live, closing, is_gap[at] ? by_gap : MARK_WINDOW, report);
    if (report->used > report->room) return refusal(11, 0);
    unsigned can = is_gap[at] ? 0 : settle(p, &records[at]);
    if (can == 0) continue;
    struct half next = {halves[other], 0};
    for (size_t i = 0; i < live.count; i++)
      if (!extend(p, &live.slot[i], can, at, limit, &next)) return refusal(9, at);
    struct slot begun = {.last_time = times[at] + p->duration};
    for (unsigned left = can & first; left != 0; left &= left - 1)
      put_bound(&next, limit, &begun, (unsigned)__builtin_ctz(left), at);
    if (next.count > limit) return refusal(10, at);
    if (next.count > *peak) *peak = next.count;
    live = next;
    other ^= 1;
  }
  close_front(p, &live, live.count, MARK_END, report);
  return report->used > report->room ? refusal(11, 0) : 0;
}

static bool result_in_order(size_t result_len) { return result_len % 2 == 0 && result_len <= RESULT_BYTES; }

uint64_t yardstick_forward(const uint8_t *pattern, size_t pattern_len, const uint8_t *block, size_t block_len,
                           uint32_t limit, uint8_t *work, size_t work_len, uint8_t *result, size_t result_len) {
  struct pattern p;
  struct report report = {result, result_len / 2, 0, 0};
  size_t peak = 0;
  uint64_t refused = read_pattern(&p, pattern, pattern_len);
  if (refused == 0) refused = read_block(block, block_len);
  if (refused == 0 &&
      (limit < 1 || limit > LIMIT || work_len < WORK_BYTES * (size_t)limit || !result_in_order(result_len)))
    refused = refusal(8, 0);
  if (refused == 0) {
    struct slot *halves[2] = {(struct slot *)work, (struct slot *)work + limit};
    refused = go_forward(&p, block_len / 16, limit, halves, &report, &peak);
  }
  memset(work, 0, work_len);
  return finish(&report, refused, peak, result_len);
}

/* ---- the start-by-start pass ---- */

struct start {
  const struct pattern *p;
  struct report report;
  size_t until; /* the record that closes the readings of this start */
  unsigned mark;
  bool too_long;
  size_t too_long_at; /* the least record that gave a 33rd binding */
  unsigned count;
  uint16_t binding[BINDINGS];
};

static uint16_t can_bind[RECORDS];

static void follow(struct start *s, unsigned state, size_t at) {
  unsigned open = leaving(s->p, state), fired = 0;
  uint64_t cycle = time_bound(s->binding[s->count - 1]);
  for (; at < s->until; at++) {
    unsigned left = can_bind[at] & open;
    if (left != 0 && times[at] == cycle) left = in_cycle(s->p, state, left);
    for (; left != 0; left &= left - 1) {
      unsigned v = (unsigned)__builtin_ctz(left);
      if (joins_hold(&s->p->variable[v], &records[at], state, s->binding, s->count)) fired |= 1u << v;
    }
    if (fired != 0) break;
  }
  if (fired == 0) {
    if (state == s->p->full) tell(&s->report, s->mark, s->binding, s->count);
    return;
  }
  if (s->count == BINDINGS) {
    if (!s->too_long || at < s->too_long_at) s->too_long_at = at;
    s->too_long = true;
    return;
  }
  s->count++;
  for (; fired != 0; fired &= fired - 1) {
    unsigned v = (unsigned)__builtin_ctz(fired);
    s->binding[s->count - 1] = (uint16_t)(v << 12 | at);
    follow(s, state | 1u << v, at + 1);
  }
  s->count--;
}

static void go_by_starts(struct start *s, size_t count) {
  size_t gap = 0, late = 0;
  unsigned first_open = leaving(s->p, 0), by_gap = gap_mark(s->p);
  for (size_t at = 0; at < count; at++) can_bind[at] = (uint16_t)(is_gap[at] ? 0 : settle(s->p, &records[at]));
  for (size_t at = 0; at < count; at++) {
    unsigned left = can_bind[at] & first_open;
    if (left == 0) continue;
    if (gap <= at) gap = at + 1;
    while (gap < count && !is_gap[gap]) gap++;
    if (late <= at) late = at + 1;
    while (late < count && times[late] - times[at] <= s->p->duration) late++;
    s->until = gap < late ? gap : late;
    s->mark = s->until == count ? MARK_END : is_gap[s->until] ? by_gap : MARK_WINDOW;
    for (; left != 0; left &= left - 1) {
      unsigned v = (unsigned)__builtin_ctz(left);
      s->count = 1;
      s->binding[0] = (uint16_t)(v << 12 | at);
      follow(s, 1u << v, at + 1);
    }
  }
}

uint64_t yardstick_start_by_start(const uint8_t *pattern, size_t pattern_len, const uint8_t *block, size_t block_len,
                                  uint8_t *result, size_t result_len) {
  struct pattern p;
  struct start s = {.p = &p, .report = {result, result_len / 2, 0, 0}};
  uint64_t refused = read_pattern(&p, pattern, pattern_len);
  if (refused == 0) refused = read_block(block, block_len);
  if (refused == 0 && !result_in_order(result_len)) refused = refusal(8, 0);
  if (refused == 0) {
    go_by_starts(&s, block_len / 16);
    if (s.too_long)
      refused = refusal(9, s.too_long_at);
    else if (s.report.used > s.report.room)
      refused = refusal(11, 0);
  }
  return finish(&s.report, refused, 0, result_len);
}

/* ---- indexes ---- */

/* The events of each class, and a bit for each core that has events, core 0 at the high end. */
struct index {
  uint64_t events[CLASSES], cores;
};

/* Whether a record that is no event is no gap either, has something of an event, or tells of no loss. */
static bool no_gap(const uint8_t *at) {
  return at[0] != GAP_BYTE || at[1] != 0 || read32(at + 7) == 0 || read32(at + 11) != 0 || at[15] != 0;
}

/* Checks a block, in one way through its bytes, and counts its events where `to` is not null. */
static inline uint64_t go_through(const uint8_t *bytes, size_t length, struct index *to) {
  uint64_t least_of_event = 0, least_of_gap = 0, cores = 0;
  if (length % 16 != 0 || length / 16 > RECORDS) return refusal(5, 0);
  if (to != NULL && classes[255] == 0) fill_classes();
  for (size_t i = 0; i < length / 16; i++) {
    const uint8_t *at = bytes + 16 * i;
    uint64_t time = read40(at + 2);
    if (at[0] < GAP_BYTE) {
      if (time < least_of_event) return refusal(7, i);
      least_of_event = time;
      if (to != NULL) {
        to->events[classes[at[1]]]++;
        cores |= (uint64_t)1 << 63 >> at[0];
      }
    } else {
      if (no_gap(at)) return refusal(6, i);
      if (time < least_of_gap) return refusal(7, i);
      least_of_event = time + 1;
    }
    least_of_gap = time + 1;
  }
  if (to != NULL) to->cores = cores;
  return 0;
}

/* 13 bits a class, 64 for the cores and two that are 0: two words of 64 bits and one of 16. */
static void write_index(uint8_t *bytes, const struct index *from) {
  const uint64_t *events = from->events;
  write64(bytes, events[0] << 51 | events[1] << 38 | events[2] << 25 | events[3] << 12 | events[4] >> 1);
  write64(bytes + 8, events[4] << 63 | events[5] << 50 | from->cores >> 14);
  write16(bytes + 16, (unsigned)(from->cores & 0x3fff) << 2);
}

static void read_index(struct index *to, const uint8_t *bytes) {
  uint64_t high = read64(bytes), low = read64(bytes + 8);
  for (unsigned i = 0; i < 4; i++) to->events[i] = high >> (51 - 13 * i) & 0x1fff;
  to->events[4] = (high << 1 | low >> 63) & 0x1fff;
  to->events[5] = low >> 50 & 0x1fff;
  to->cores = low << 14 | (uint64_t)bytes[16] << 6 | bytes[17] >> 2;
}

uint64_t yardstick_make_index(const uint8_t *block, size_t block_len, uint8_t *index, size_t index_len) {
  struct index made = {{0}, 0};
  uint64_t refused = index_len != INDEX_BYTES ? refusal(15, 0) : go_through(block, block_len, &made);
  if (refused != 0) {
    memset(index, 0, index_len);
    return refused;
  }
  write_index(index, &made);
  return (uint64_t)INDEX_BYTES << 32;
}

/* ---- the search ---- */

/* Whether a condition asks for a class or a core that has no events. */
static bool asks_in_vain(const struct own *k, const struct index *index) {
  if (!k->with_constant || k->orders != orders_of[EQUAL]) return false;
  if (k->attribute == CLASS) return k->constant >= CLASSES || index->events[k->constant] == 0;
  if (k->attribute == CORE) return k->constant >= CORES || (index->cores << k->constant >> 63) == 0;
  return false;
}

static bool cannot_match(const struct pattern *p, const uint8_t *bytes) {
  struct index index;
  read_index(&index, bytes);
  for (unsigned v = 0; v < p->n; v++)
    for (unsigned i = 0; i < p->variable[v].owns; i++)
      if (asks_in_vain(&p->variable[v].own[i], &index)) return true;
  return false;
}

/* The forward pass asks this in a line of its own: if the two shared it, the compiler would arrange the pass in another
   way, and its times would be others by some percent. */
static bool lent_in_order(uint32_t limit, size_t work_len, size_t result_len) {
  return limit >= 1 && limit <= LIMIT && work_len >= WORK_BYTES * (size_t)limit && result_in_order(result_len);
}

uint64_t yardstick_search(const uint8_t *pattern, size_t pattern_len, const uint8_t *index, size_t index_len,
                          const uint8_t *block, size_t block_len, uint32_t limit, uint8_t *work, size_t work_len,
                          uint8_t *result, size_t result_len) {
  struct pattern p;
  uint64_t refused = read_pattern(&p, pattern, pattern_len);
  if (refused == 0 && (index_len != INDEX_BYTES || (index[INDEX_BYTES - 1] & 3) != 0)) refused = refusal(15, 0);
  if (refused == 0 && !cannot_match(&p, index))
    return yardstick_forward(pattern, pattern_len, block, block_len, limit, work, work_len, result, result_len);
  if (refused == 0) refused = go_through(block, block_len, NULL);
  if (refused == 0 && !lent_in_order(limit, work_len, result_len)) refused = refusal(8, 0);
  memset(work, 0, work_len);
  memset(result, 0, result_len);
  return refused;
}
