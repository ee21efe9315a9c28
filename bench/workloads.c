/* The bench's workloads: see workloads.h. */
#include "workloads.h"

#include <string.h>

enum { RECORDS = SPALDEP_BLOCK_RECORDS };
enum { BOUND_ON_SLOT = 90, NO_CORE_OR_TYPE = 200, NO_CLASS = 1000 };

const uint8_t class_types[CLASSES] = {3, 17, 33, 65, 97, 129};

const char *const way_names[WAYS_TO_ASK] = {"class", "type", "amount", "wave", "type and slot", "itself"};

static enum asked way;

static uint32_t chance_state;

void seed_chance(uint32_t seed) { chance_state = seed; }

uint32_t chance(uint32_t below) {
  chance_state ^= chance_state << 13;
  chance_state ^= chance_state >> 17;
  chance_state ^= chance_state << 5;
  return chance_state % below;
}

/* ---- patterns ---- */

void begin_pattern(struct workload *w, unsigned n, const char *variables, uint64_t duration) {
  memset(w->pattern, 0, sizeof w->pattern);
  w->pattern[0] = (uint8_t)(0x10 | n);
  for (unsigned i = 0; i < 5; i++) w->pattern[3 + i] = (uint8_t)(duration >> (32 - 8 * i));
  memcpy(w->pattern + 8, variables, n);
  w->pattern_len = 8 + n;
}

static uint8_t *next_condition(struct workload *w, unsigned variable, unsigned attribute, unsigned operator) {
  uint8_t *at = w->pattern + w->pattern_len;
  w->pattern[1]++;
  w->pattern_len += 8;
  at[0] = (uint8_t)(variable << 4 | attribute << 1 | operator>> 2);
  at[1] = (uint8_t)((operator& 3) << 6);
  return at;
}

void with_constant(struct workload *w, unsigned variable, unsigned attribute, unsigned operator, uint8_t constant) {
  next_condition(w, variable, attribute, operator)[7] = constant;
}

void with_variable(struct workload *w, unsigned variable, unsigned attribute, unsigned operator, unsigned second,
                   unsigned second_attribute) {
  uint8_t *at = next_condition(w, variable, attribute, operator);
  at[1] = (uint8_t)(at[1] | 0x20u | second << 1 | second_attribute >> 2);
  at[2] = (uint8_t)((second_attribute & 3) << 6);
}

/* What a variable asks of an event alone, so that events of a class meet it. */
static void own_conditions(struct workload *w, unsigned variable, unsigned class) {
  static const unsigned first[3] = {CORE, TYPE, CLASS}, second[3] = {SLOT, SLOT, AMOUNT};
  if (way == BY_CLASS) with_constant(w, variable, CLASS, EQUAL, (uint8_t)class);
  if (way == BY_TYPE || way == BY_TYPE_AND_SLOT) with_constant(w, variable, TYPE, EQUAL, class_types[class]);
  if (way == BY_TYPE_AND_SLOT) with_constant(w, variable, SLOT, AT_MOST, BOUND_ON_SLOT);
  if (way == BY_AMOUNT) with_constant(w, variable, AMOUNT, EQUAL, (uint8_t)class);
  if (way == BY_WAVE) with_constant(w, variable, WAVE, EQUAL, (uint8_t)class);
  if (way == BY_ITSELF) with_variable(w, variable, first[class], EQUAL, variable, second[class]);
}

/* The pattern of Rule 10.1, with a duration of its own. */
static void bench_pattern(struct workload *w, uint64_t duration) {
  begin_pattern(w, 3, "\x10\x18\x20", duration);
  for (unsigned v = 0; v < 3; v++) own_conditions(w, v, v);
  with_variable(w, 0, CORE, EQUAL, 1, CORE);
  with_variable(w, 0, CORE, EQUAL, 2, CORE);
}

/* ---- blocks ---- */

void put_event(struct workload *w, size_t record, unsigned core, unsigned type, uint32_t slot, uint32_t amount) {
  uint8_t *at = w->block + 16 * record;
  uint64_t time = CYCLES_A_RECORD * (1 + (uint64_t)record);
  memset(at, 0, 16);
  at[0] = (uint8_t)core;
  at[1] = (uint8_t)type;
  for (unsigned i = 0; i < 5; i++) at[2 + i] = (uint8_t)(time >> (32 - 8 * i));
  for (unsigned i = 0; i < 4; i++) {
    at[7 + i] = (uint8_t)(slot >> (24 - 8 * i));
    at[11 + i] = (uint8_t)(amount >> (24 - 8 * i));
  }
}

void put_gap(struct workload *w, size_t record) {
  uint8_t *at = w->block + 16 * record;
  at[0] = 0x40;
  at[1] = 0;
  memset(at + 7, 0, 9);
  at[10] = 1;
}

/* An event's slot and amount, by which BY_AMOUNT and BY_ITSELF know its class: of class 0 the slot is the core, of
   class 1 the type, of class 2 the amount is the class. */
static void tell_class(unsigned core, unsigned class, uint32_t *slot, uint32_t *amount) {
  if (way == BY_AMOUNT) *amount = class;
  if (way != BY_ITSELF) return;
  *slot = class == 0 ? core : class == 1 ? class_types[class] : NO_CORE_OR_TYPE;
  *amount = class == 2 ? class : NO_CLASS;
}

/* An event. With BY_WAVE its wave is its class. */
static void put_record(struct workload *w, size_t record, unsigned core, unsigned class, uint32_t slot,
                       uint32_t amount) {
  tell_class(core, class, &slot, &amount);
  put_event(w, record, core, class_types[class], slot, amount);
  if (way == BY_WAVE) w->block[16 * record + 15] = (uint8_t)class;
}

/* ---- the workloads ---- */

static void bench_workload(struct workload *w) {
  w->name = "bench pattern";
  bench_pattern(w, 100);
  for (size_t i = 0; i < RECORDS; i++) {
    put_record(w, i, 1 + chance(2), chance(10) < 8 ? chance(3) : 3 + chance(3), chance(100), chance(100));
    if (chance(64) == 0) put_gap(w, i);
  }
}

static void sparse_workload(struct workload *w) {
  w->name = "sparse block";
  bench_pattern(w, 8000);
  for (size_t i = 0; i < RECORDS; i++)
    put_record(w, i, 1 + chance(2), chance(100) < 2 ? chance(3) : 3 + chance(3), chance(100), chance(100));
}

/* Four variables of one class in one set: each start goes on in up to 24 ways. */
static void branching_workload(struct workload *w) {
  w->name = "branching set";
  begin_pattern(w, 5, "\x10\x10\x10\x10\x20", 100);
  for (unsigned v = 0; v < 5; v++) own_conditions(w, v, v == 4);
  for (size_t i = 0; i < RECORDS; i++)
    put_record(w, i, 1, chance(100) < 18 ? 0 : chance(100) < 10 ? 1 : 3, chance(100), chance(100));
}

static void joins_workload(struct workload *w) {
  w->name = "long windows with joins";
  begin_pattern(w, 4, "\x10\x28\x28\x30", 4000);
  for (unsigned v = 0; v < 4; v++) own_conditions(w, v, v);
  with_variable(w, 0, SLOT, EQUAL, 1, SLOT);
  with_variable(w, 1, AMOUNT, AT_MOST, 2, AMOUNT);
  with_variable(w, 2, SLOT, EQUAL, 0, SLOT);
  with_variable(w, 3, CORE, EQUAL, 0, CORE);
  with_variable(w, 3, SLOT, EQUAL, 1, SLOT);
  for (size_t i = 0; i < RECORDS; i++) {
    unsigned class = chance(100) < 8 ? 0 : chance(100) < 55 ? 1 + chance(2) : chance(100) < 5 ? 3 : 4;
    put_record(w, i, chance(2), class, chance(8), chance(100));
  }
}

static void idle_workload(struct workload *w) {
  w->name = "nothing fires";
  bench_pattern(w, 1000);
  for (size_t i = 0; i < RECORDS; i++) put_record(w, i, chance(4), 3 + chance(3), chance(100), chance(100));
}

/* Twelve group variables, six of each of two sets. Each of 32 events fires all six of the first set while only variable
   5 is bound; once another is, that one's loop alone fires, since no two of the first five go together. */
static void deep_workload(struct workload *w) {
  w->name = "deepest (stack only)";
  begin_pattern(w, 12, "\x18\x18\x18\x18\x18\x18\x28\x28\x28\x28\x28\x28", 0xffffffffff);
  for (unsigned v = 0; v < 6; v++) own_conditions(w, v, 0);
  for (unsigned v = 0; v < 5; v++) {
    with_variable(w, v, SLOT, ABOVE, 5, SLOT);
    for (unsigned u = v + 1; u < 5; u++) {
      with_variable(w, v, SLOT, ABOVE, u, SLOT);
      with_variable(w, u, SLOT, ABOVE, v, SLOT);
    }
  }
  for (size_t i = 0; i < RECORDS; i++) put_record(w, i, 0, i % 128 == 0 ? 0 : 5, (uint32_t)i, 0);
}

bool has_way(unsigned number, enum asked asked) {
  if (number == JOINS_WORKLOAD) return asked != BY_AMOUNT && asked != BY_ITSELF;
  return number < WORKLOADS || (number == WORKLOADS && asked == BY_CLASS);
}

void make_workload(unsigned number, enum asked asked, struct workload *out) {
  static void (*const make[])(struct workload *) = {bench_workload, sparse_workload, branching_workload,
                                                    joins_workload, idle_workload,   deep_workload};
  way = asked;
  seed_chance(2463534242u);
  out->block_len = sizeof out->block;
  make[number](out);
}
