/* Random cases: see cases.h. */
#include "cases.h"

#include <string.h>

#include "reference.h"
#include "shapes.h"
#include "spaldep.h"

/* ---- fields ---- */

void set_field(uint8_t *bytes, size_t from, size_t width, uint64_t value) {
  for (size_t i = 0; i < width; i++) {
    size_t bit = from + i;
    uint8_t mask = (uint8_t)(0x80u >> bit % 8);
    if (value >> (width - 1 - i) & 1)
      bytes[bit / 8] = (uint8_t)(bytes[bit / 8] | mask);
    else
      bytes[bit / 8] = (uint8_t)(bytes[bit / 8] & ~mask);
  }
}

/* ---- blocks ---- */

static const unsigned class_types[6][2] = {{0, 15}, {16, 31}, {32, 63}, {64, 95}, {96, 127}, {128, 255}};

static uint32_t number32(struct random *r, unsigned edge_percent) {
  static const uint32_t edges[] = {0, 1, 0x7ffffffe, 0x7fffffff, 0x80000000, 0x80000001, 0xfffffffe, 0xffffffff};
  if (chance(r, edge_percent)) return edges[below(r, 8)];
  return chance(r, 90) ? below(r, 4) : (uint32_t)random_next(r);
}

static unsigned any_wave(struct random *r, unsigned waves, unsigned edge_percent) {
  if (waves <= 1) return 0;
  return chance(r, edge_percent) ? PICK(r, 0, 1, 127, 128, 254, 255) : below(r, waves);
}

static unsigned type_of_class(struct random *r, unsigned class) {
  const unsigned *range = class_types[class];
  return chance(r, 40) ? range[below(r, 2)] : between(r, range[0], range[1]);
}

static void put_gap(struct random *r, uint8_t *at) {
  set_field(at, 0, 2, 1);
  set_field(at, 56, 32, chance(r, 50) ? 1 : chance(r, 50) ? 0xffffffff : 1 + (uint64_t)below(r, 1000));
}

static void put_event(struct random *r, const struct knobs *k, const unsigned *classes, unsigned *turn, uint8_t *at) {
  unsigned class = below(r, 6);
  if (chance(r, k->fire_percent)) {
    unsigned v = below(r, k->variables);
    if (chance(r, k->last_percent)) {
      v = k->variables - 1;
    } else if (chance(r, k->in_turn_percent)) {
      v = *turn;
      if (!chance(r, 20)) *turn = (*turn + 1) % k->variables;
    }
    class = classes[v];
  }
  set_field(at, 2, 6, k->cores == 64 ? below(r, 64) : below(r, k->cores));
  set_field(at, 8, 8, type_of_class(r, class));
  uint32_t slot = number32(r, k->edge_percent);
  bool same_bits = k->edge_percent > 0 && chance(r, 20); /* which can be different numbers */
  set_field(at, 56, 32, slot);
  set_field(at, 88, 32, same_bits ? slot : number32(r, k->edge_percent));
  set_field(at, 120, 8, any_wave(r, k->waves, k->edge_percent));
}

/* The first time: small, so that the last is the largest there is, or so that a power of two lies inside the block. */
static uint64_t first_time(struct random *r, const struct knobs *k) {
  uint64_t span = k->records * k->time_step, room = ((uint64_t)1 << 40) - 1 - span;
  uint64_t power = (uint64_t)1 << PICK(r, 8, 16, 24, 31, 32, 39);
  if (chance(r, 50)) return below(r, 100);
  if (chance(r, 30)) return room;
  return power >= span / 2 && power - span / 2 < room ? power - span / 2 : random_next(r) % room;
}

uint64_t next_time(struct random *r, const struct knobs *k, bool beside_gap, unsigned *left, uint64_t time) {
  if (*left > 0 && !beside_gap) {
    --*left;
    return time;
  }
  *left = chance(r, k->same_percent) ? between(r, 1, k->same_most) : 0;
  return time + 1 + random_next(r) % k->time_step;
}

static void make_block(struct random *r, const struct knobs *k, const unsigned *classes, struct test_case *out) {
  uint64_t time = first_time(r, k);
  unsigned turn = 0, left = 0;
  bool gap_before = false;
  out->block_len = 16 * (size_t)k->records;
  memset(out->block, 0, out->block_len + 16);
  for (size_t i = 0; i < k->records; i++) {
    uint8_t *at = out->block + 16 * i;
    bool gap = chance(r, k->gap_percent);
    if (i > 0) time = next_time(r, k, gap || gap_before, &left, time);
    if (gap)
      put_gap(r, at);
    else
      put_event(r, k, classes, &turn, at);
    set_field(at, 16, 40, time);
    gap_before = gap;
  }
}

uint64_t time_of(const struct test_case *c, size_t record) {
  uint64_t time = 0;
  for (size_t i = 2; i < 7; i++) time = time << 8 | c->block[16 * record + i];
  return time;
}

/* ---- patterns ---- */

/* A duration, often the exact distance of two records or one less. */
static uint64_t duration(struct random *r, const struct knobs *k, const struct test_case *c) {
  size_t records = c->block_len / 16;
  unsigned window = k->window;
  if (window == 0 && chance(r, 30)) return ((uint64_t)1 << 40) - 1;
  if (chance(r, k->same_percent > 0 ? 12 : 3)) return 0;
  if (records < 2) return random_next(r) % 1000;
  if (window == 0) window = between(r, 1, 40);
  if (window >= records) window = (unsigned)records - 1;
  size_t from = below(r, (unsigned)(records - window));
  uint64_t distance = time_of(c, from + window) - time_of(c, from);
  return distance == 0 || chance(r, 50) ? distance : distance - 1;
}

/* A constant beside wave, one in five above every wave or near the edges of 32 bits. */
static unsigned wave_constant(struct random *r, const struct knobs *k) {
  if (chance(r, 20)) return PICK(r, 255, 256, 0x7fffffff, 0x80000000, 0xffffff00, 0xffffffff);
  return any_wave(r, k->waves < 2 ? 2 : k->waves, k->edge_percent);
}

/* A number from `count` on: one of the first, one that is below it where bits are lost, or one near the edges of 32
   bits. */
static unsigned above_all(struct random *r, unsigned count) {
  return PICK(r, count, count + 1, count + below(r, count), (count < 64 ? 64 : count) + below(r, count),
              256 + below(r, count), 0x10000 + below(r, count), 0x80000000 + below(r, count),
              0xffffffff - below(r, count));
}

static unsigned constant_of(struct random *r, const struct knobs *k, unsigned attribute) {
  switch (attribute) {
    case SPALDEP_ATTRIBUTE_CORE: return chance(r, 10) ? above_all(r, 64) : below(r, k->cores < 4 ? 3 : 64);
    case SPALDEP_ATTRIBUTE_TYPE: return chance(r, 50) ? class_types[below(r, 6)][below(r, 2)] : below(r, 256);
    case SPALDEP_ATTRIBUTE_CLASS: return chance(r, 10) ? above_all(r, 6) : below(r, 7);
    case SPALDEP_ATTRIBUTE_WAVE: return wave_constant(r, k);
    default: return number32(r, k->edge_percent);
  }
}

void put_condition(uint8_t *at, unsigned variable, unsigned attribute, unsigned operator, unsigned form,
                   unsigned second_variable, unsigned second_attribute, uint32_t constant) {
  memset(at, 0, 8);
  set_field(at, 0, 4, variable);
  set_field(at, 4, 3, attribute);
  set_field(at, 7, 3, operator);
  set_field(at, 10, 1, form);
  set_field(at, 11, 4, second_variable);
  set_field(at, 15, 3, second_attribute);
  set_field(at, 32, 32, constant);
}

/* The value of an attribute of a record, as the block's bytes have it. */
static int64_t value_of(const struct test_case *c, size_t record, unsigned attribute) {
  const uint8_t *at = c->block + 16 * record;
  uint32_t slot = 0, amount = 0;
  unsigned event_class = 0;
  for (size_t i = 0; i < 4; i++) {
    slot = slot << 8 | at[7 + i];
    amount = amount << 8 | at[11 + i];
  }
  while (at[1] > class_types[event_class][1]) event_class++;
  switch (attribute) {
    case SPALDEP_ATTRIBUTE_CORE: return at[0] & 63;
    case SPALDEP_ATTRIBUTE_TYPE: return at[1];
    case SPALDEP_ATTRIBUTE_CLASS: return event_class;
    case SPALDEP_ATTRIBUTE_SLOT: return slot;
    case SPALDEP_ATTRIBUTE_AMOUNT: return (int32_t)amount;
    default: return at[15];
  }
}

/* Some event of a class, or of any where there is none. */
static size_t some_event(struct random *r, const struct test_case *c, unsigned class) {
  size_t records = c->block_len / 16, from = below(r, (unsigned)records);
  for (size_t i = 0; i < records && i < 20; i++)
    if (value_of(c, (from + i) % records, SPALDEP_ATTRIBUTE_CLASS) == class) return (from + i) % records;
  return from;
}

/* Whether a condition holds of at least the asked share of events, tried by chance. */
static bool holds_often(struct random *r, const struct knobs *k, const struct test_case *c, const unsigned *classes,
                        const uint8_t *at) {
  unsigned attribute = at[0] >> 1 & 7, second_attribute = (at[1] & 1u) << 2 | at[2] >> 6, met = 0;
  uint32_t bits = (uint32_t)at[4] << 24 | (uint32_t)at[5] << 16 | (uint32_t)at[6] << 8 | at[7];
  if (k->met_percent == 0 || c->block_len == 0) return true;
  for (unsigned i = 0; i < 20; i++) {
    int64_t left = value_of(c, some_event(r, c, classes[at[0] >> 4]), attribute);
    int64_t right = attribute == SPALDEP_ATTRIBUTE_AMOUNT ? (int64_t)(int32_t)bits : (int64_t)bits;
    if ((at[1] >> 5 & 1) == SPALDEP_FORM_ATTRIBUTE)
      right = value_of(c, some_event(r, c, classes[at[1] >> 1 & 15]), second_attribute);
    switch ((at[0] & 1) << 2 | at[1] >> 6) {
      case SPALDEP_OPERATOR_EQUAL: met += left == right; break;
      case SPALDEP_OPERATOR_LESS: met += left < right; break;
      case SPALDEP_OPERATOR_LESS_EQUAL: met += left <= right; break;
      case SPALDEP_OPERATOR_GREATER: met += left > right; break;
      case SPALDEP_OPERATOR_GREATER_EQUAL: met += left >= right; break;
      case SPALDEP_OPERATOR_NOT_EQUAL: met += left != right; break;
    }
  }
  return 5 * met >= k->met_percent;
}

/* An attribute to hold another one against: often the same, or one with numbers of its size. */
static unsigned any_against(struct random *r, unsigned attribute) {
  if (chance(r, attribute == SPALDEP_ATTRIBUTE_WAVE ? 30 : 60)) return attribute;
  if (attribute == SPALDEP_ATTRIBUTE_WAVE)
    return PICK(r, SPALDEP_ATTRIBUTE_CORE, SPALDEP_ATTRIBUTE_SLOT, SPALDEP_ATTRIBUTE_AMOUNT);
  return between(r, attribute >= SPALDEP_ATTRIBUTE_SLOT ? SPALDEP_ATTRIBUTE_SLOT : SPALDEP_ATTRIBUTE_CORE,
                 SPALDEP_ATTRIBUTE_WAVE);
}

/* Of slot and amount, which can be the same 32 bits and different numbers. */
static bool slot_and_amount(unsigned attribute, unsigned against) {
  return (attribute == SPALDEP_ATTRIBUTE_SLOT && against == SPALDEP_ATTRIBUTE_AMOUNT) ||
         (attribute == SPALDEP_ATTRIBUTE_AMOUNT && against == SPALDEP_ATTRIBUTE_SLOT);
}

static void put_any_condition(struct random *r, const struct knobs *k, uint8_t *at) {
  unsigned variable = below(r, k->variables), operator= below(r, SPALDEP_OPERATOR_NOT_EQUAL + 1);
  unsigned attribute = chance(r, k->wave_percent) ? SPALDEP_ATTRIBUTE_WAVE : below(r, SPALDEP_ATTRIBUTE_WAVE + 1);
  if (attribute >= SPALDEP_ATTRIBUTE_SLOT && chance(r, 50))
    operator= PICK(r, SPALDEP_OPERATOR_LESS_EQUAL, SPALDEP_OPERATOR_GREATER_EQUAL);
  if (chance(r, 40)) {
    put_condition(at, variable, attribute, operator, SPALDEP_FORM_CONSTANT, 0, 0, constant_of(r, k, attribute));
    return;
  }
  unsigned second = chance(r, 15) ? variable : below(r, k->variables), against = any_against(r, attribute);
  if (slot_and_amount(attribute, against) && chance(r, 40)) operator= SPALDEP_OPERATOR_NOT_EQUAL;
  if (chance(r, 50))
    put_condition(at, variable, attribute, operator, SPALDEP_FORM_ATTRIBUTE, second, against, 0);
  else
    put_condition(at, variable, against, operator, SPALDEP_FORM_ATTRIBUTE, second, attribute, 0);
}

void put_variables(struct random *r, const struct knobs *k, uint8_t *bytes) {
  unsigned set = 1, members = 0;
  for (unsigned v = 0; v < k->variables; v++) {
    unsigned after = k->variables - v, sets_after = k->sets - set;
    bool must = members == 6 || (members > 0 && sets_after >= after);
    bool may = members > 0 && sets_after > 0;
    if (must || (may && chance(r, 100 * sets_after / after))) {
      set++;
      members = 0;
    }
    members++;
    bool group = chance(r, k->group_percent) && !(v == 0 && k->first_single);
    bytes[v] = (uint8_t)(set << 4 | (group ? 8u : 0u));
  }
}

void put_is(uint8_t *at, unsigned variable, unsigned attribute, uint32_t constant) {
  put_condition(at, variable, attribute, SPALDEP_OPERATOR_EQUAL, SPALDEP_FORM_CONSTANT, 0, 0, constant);
}

/* The condition that an attribute of v is that of variable 0, either way round. */
static void put_same(struct random *r, uint8_t *at, unsigned v, unsigned attribute) {
  bool swap = chance(r, 50);
  put_condition(at, swap ? v : 0, attribute, SPALDEP_OPERATOR_EQUAL, SPALDEP_FORM_ATTRIBUTE, swap ? 0 : v, attribute,
                0);
}

static unsigned put_conditions(struct random *r, const struct knobs *k, const unsigned *classes,
                               const struct test_case *with, uint8_t *bytes) {
  unsigned c = 0;
  for (unsigned v = 0; v < k->variables && c < 32; v++) {
    if (chance(r, k->own_class_percent)) put_is(bytes + 8 * c++, v, SPALDEP_ATTRIBUTE_CLASS, classes[v]);
    if (v > 0 && c < 32 && chance(r, k->core_joins_percent)) put_same(r, bytes + 8 * c++, v, SPALDEP_ATTRIBUTE_CORE);
    if (v > 0 && c < 32 && chance(r, k->wave_joins_percent)) put_same(r, bytes + 8 * c++, v, SPALDEP_ATTRIBUTE_WAVE);
  }
  for (unsigned i = 0; i < k->conditions && c < 32; i++) {
    unsigned tries = 0;
    do put_any_condition(r, k, bytes + 8 * c);
    while (tries++ < 8 && !holds_often(r, k, with, classes, bytes + 8 * c));
    c++;
  }
  return c;
}

void put_header(struct random *r, const struct knobs *k, unsigned conditions, struct test_case *out) {
  set_field(out->pattern, 0, 4, 1);
  set_field(out->pattern, 4, 4, k->variables);
  set_field(out->pattern, 8, 8, conditions);
  set_field(out->pattern, 24, 40, duration(r, k, out));
  out->pattern_len = 8 + k->variables + 8 * (size_t)conditions;
}

static void make_pattern(struct random *r, const struct knobs *k, const unsigned *classes, struct test_case *out) {
  uint8_t *bytes = out->pattern;
  memset(bytes, 0, PATTERN_ROOM);
  put_variables(r, k, bytes + 8);
  put_header(r, k, put_conditions(r, k, classes, out, bytes + 8 + k->variables), out);
}

/* ---- what no event meets ---- */

/* How many values an attribute can have, where they are few. */
static unsigned values_of(unsigned attribute) {
  switch (attribute) {
    case SPALDEP_ATTRIBUTE_CORE: return 64;
    case SPALDEP_ATTRIBUTE_CLASS: return 6;
    default: return 256;
  }
}

static bool is_event(const struct test_case *c, size_t record) { return c->block[16 * record] >> 6 == 0; }

static bool some_event_has(const struct test_case *c, unsigned attribute, unsigned number) {
  for (size_t i = 0; i < c->block_len / 16; i++)
    if (is_event(c, i) && value_of(c, i, attribute) == number) return true;
  return false;
}

/* Whether no two events have these attributes equal, or no event its own. Many records are not gone through. */
static bool never_equal(const struct test_case *c, unsigned attribute, unsigned second, bool own) {
  size_t records = c->block_len / 16;
  if (records > 60) return false;
  for (size_t i = 0; i < records; i++)
    for (size_t j = 0; j < records; j++)
      if ((i == j || !own) && is_event(c, i) && is_event(c, j) && value_of(c, i, attribute) == value_of(c, j, second))
        return false;
  return true;
}

/* The condition that class or core is an attribute that it never is. False where none was found. */
static bool put_never_equal(struct random *r, const struct test_case *c, unsigned variable, uint8_t *at) {
  for (unsigned tries = 0; tries < 6; tries++) {
    unsigned attribute = PICK(r, SPALDEP_ATTRIBUTE_CLASS, SPALDEP_ATTRIBUTE_CORE), other = below(r, variable + 1);
    unsigned second = below(r, SPALDEP_ATTRIBUTE_WAVE + 1);
    if (!never_equal(c, attribute, second, other == variable)) continue;
    put_condition(at, variable, attribute, SPALDEP_OPERATOR_EQUAL, SPALDEP_FORM_ATTRIBUTE, other, second, 0);
    return true;
  }
  return false;
}

/* A value that no event of the block has; of slots and amounts one that hardly any has. */
static unsigned any_absent(struct random *r, const struct test_case *c, unsigned attribute) {
  unsigned count = values_of(attribute), from = below(r, count);
  bool above = chance(r, 40);
  if (attribute == SPALDEP_ATTRIBUTE_SLOT || attribute == SPALDEP_ATTRIBUTE_AMOUNT) return (unsigned)random_next(r);
  for (unsigned i = 0; i < count && !above; i++)
    if (!some_event_has(c, attribute, (from + i) % count)) return (from + i) % count;
  return above_all(r, count);
}

/* Puts a variable behind the others, in a set of its own: until it is bound, all goes on as without it. False where
   there is no room for it. */
static bool add_variable(struct test_case *c) {
  unsigned n = c->pattern[0] & 15, conditions = c->pattern[1], set = c->pattern[8 + n - 1] >> 4;
  uint8_t *behind = c->pattern + 8 + n;
  if (n == 12 || set == 8) return false;
  memmove(behind + 1, behind, 8 * (size_t)conditions);
  *behind = (uint8_t)((set + 1) << 4);
  set_field(c->pattern, 4, 4, n + 1);
  c->pattern_len++;
  return true;
}

/* A condition that no event meets: most of them are such that the index tells it. */
static void put_absent(struct random *r, const struct test_case *c, unsigned variable, uint8_t *at) {
  unsigned attribute = PICK(r, SPALDEP_ATTRIBUTE_CLASS, SPALDEP_ATTRIBUTE_CORE), greatest = values_of(attribute) - 1;
  if (chance(r, 15) && put_never_equal(r, c, variable, at)) return;
  if (chance(r, 8)) {
    put_condition(at, variable, attribute, SPALDEP_OPERATOR_GREATER, SPALDEP_FORM_CONSTANT, 0, 0, greatest);
    return;
  }
  if (chance(r, 8)) {
    put_condition(at, variable, attribute, SPALDEP_OPERATOR_LESS, SPALDEP_FORM_CONSTANT, 0, 0, 0);
    return;
  }
  if (chance(r, 35))
    attribute =
        PICK(r, SPALDEP_ATTRIBUTE_TYPE, SPALDEP_ATTRIBUTE_SLOT, SPALDEP_ATTRIBUTE_AMOUNT, SPALDEP_ATTRIBUTE_WAVE);
  put_is(at, variable, attribute, any_absent(r, c, attribute));
}

/* Has a variable ask for what no event meets: mostly one more variable, in a set behind all others. */
static void ask_absent(struct random *r, struct test_case *c) {
  unsigned n = c->pattern[0] & 15, conditions = c->pattern[1], variable = below(r, n);
  if (conditions == 32) return;
  if (chance(r, 75) && add_variable(c)) variable = n;
  put_absent(r, c, variable, c->pattern + c->pattern_len);
  set_field(c->pattern, 8, 8, conditions + 1);
  c->pattern_len += 8;
}

/* ---- doubling ---- */

/* One start and then events that two group variables share: each doubles the readings, up to 256 and over. Gaps part
   the starts, and the report fills the longest result slice. What tells the events apart is the class or the wave. */
static void make_doubling(struct random *r, struct test_case *out) {
  unsigned starts = PICK(r, 1, 1, 2, 12, 13, 13), events = starts > 2 ? 8 : between(r, 6, 9);
  bool by_wave = chance(r, 30);
  size_t records = 0;
  memset(out->pattern, 0, PATTERN_ROOM);
  memset(out->block, 0, 16 * (size_t)(starts * (events + 2)));
  memcpy(out->pattern, (const uint8_t[]){0x13, 3, 0, 0, 0, 0, 1, 0, 0x10, 0x28, 0x28}, 11);
  for (unsigned v = 0; v < 3; v++)
    put_is(out->pattern + 11 + 8 * v, v, by_wave ? SPALDEP_ATTRIBUTE_WAVE : SPALDEP_ATTRIBUTE_CLASS, v > 0);
  for (unsigned start = 0; start < starts; start++)
    for (unsigned i = 0; i < events + 2; i++, records++) {
      uint8_t *at = out->block + 16 * records;
      if (i == events + 1) put_gap(r, at);
      if (i > 0 && i <= events) set_field(at, by_wave ? 120 : 8, 8, by_wave ? 1 : 16);
      set_field(at, 16, 40, records);
    }
  out->pattern_len = 35;
  out->block_len = 16 * records;
}

/* ---- cases ---- */

/* Cases made to be wide. About half as many more become so by chance, and not all of these do. */
enum { WIDE_PERCENT = 7 };

/* Whether a case of too many readings to try them all is a wide one, which can be answered by merged readings. */
static bool is_wide(struct test_case *c) {
  merge_readings(c->pattern, c->pattern_len, c->block, c->block_len, &c->merged);
  c->too_many_groups = c->too_many_groups || !c->merged.answered;
  if (!c->merged.answered) return false;
  bool ends = wide_trial_ends(c->pattern, c->pattern_len, c->block, c->block_len, &c->merged);
  c->trial_too_long = c->trial_too_long || !ends;
  return ends;
}

static void cut_to_effort(struct test_case *c, uint64_t effort, bool wide) {
  c->wide = c->too_many_groups = c->trial_too_long = false;
  while (reference_effort(c->pattern, c->pattern_len, c->block, c->block_len, effort) >= effort) {
    c->wide = wide && is_wide(c);
    if (c->wide) return;
    c->block_len = c->block_len / 16 * 3 / 4 * 16;
  }
}

static void make_by_knobs(struct random *r, const struct knobs *k, struct test_case *out) {
  unsigned classes[12] = {0};
  for (unsigned v = 0; v < k->variables; v++)
    classes[v] = v > 0 && chance(r, k->shared_percent) ? classes[below(r, v)] : v < 6 ? v : below(r, 6);
  make_block(r, k, classes, out);
  make_pattern(r, k, classes, out);
}

void make_case(uint64_t seed, bool wide, struct test_case *out) {
  struct random r = {seed};
  struct knobs k;
  choose_knobs(&r, &k);
  out->shape = k.shape;
  bool to_be_wide = chance(&r, WIDE_PERCENT);
  if (to_be_wide) {
    out->shape = "wide";
    k.effort = 6000;
    make_wide(&r, out);
  } else if (chance(&r, 2)) {
    out->shape = "doubling";
    k.effort = 20000;
    make_doubling(&r, out);
  } else {
    make_by_knobs(&r, &k, out);
  }
  if (!to_be_wide && chance(&r, k.absent_percent)) ask_absent(&r, out);
  if (!to_be_wide && chance(&r, 12)) damage_pattern(&r, out);
  if (!to_be_wide && chance(&r, 8)) damage_block(&r, out);
  cut_to_effort(out, k.effort, wide);
  out->large = out->block_len > 16 * 120;
}
