/* Wide cases: see make_wide in shapes.h. */
#include <string.h>

#include "shapes.h"
#include "spaldep.h"

/* What the variables ask for: of class, core or slot, or else of wave in their place. */
enum family {
  NO_CONDITIONS,
  CLASS_OF_SET, /* the classes of the events alternate, or come in runs */
  LAST_SELDOM,  /* the last variable's class comes once, late, or never */
  OUT_OF_ORDER, /* and the class of the variable before it comes behind that, and once or never in front */
  ONE_FOR_TWO,  /* the last two ask for one class, which comes once, late, or never */
  SAME_CORE,    /* of two cores, each variable that of variable 0 */
  OTHER_CORE,   /* of a few cores, each variable another than variable 0 */
  SLOT_AT_MOST, /* each variable's slot is at most that of the next one */
  LAST_FAILS    /* the last variable's slot is above that of variable 0, which it never is, or once, late */
};

static const unsigned class_type[6] = {0, 16, 32, 64, 96, 128};

static bool joined(enum family f) { return f >= SAME_CORE; }

/* The attribute that a family's conditions ask for where it is not wave. */
static unsigned own_attribute(enum family f) {
  if (!joined(f)) return SPALDEP_ATTRIBUTE_CLASS;
  return f == SAME_CORE || f == OTHER_CORE ? SPALDEP_ATTRIBUTE_CORE : SPALDEP_ATTRIBUTE_SLOT;
}

struct sizes {
  unsigned records, gap; /* the record that is a gap, or past them all */
  bool first_apart;      /* variable 0 is in a set of its own, and all others in the next one */
};

static void any_sizes(struct random *r, enum family f, struct sizes *size) {
  if (joined(f))
    size->records = chance(r, 30) ? between(r, 10, 14) : chance(r, 80) ? between(r, 15, 40) : between(r, 41, 80);
  else if (chance(r, 4))
    size->records = between(r, 121, 600);
  else
    size->records = chance(r, 30) ? between(r, 61, 120) : chance(r, 10) ? between(r, 10, 19) : between(r, 20, 60);
  size->gap = chance(r, 80) ? size->records : below(r, size->records);
}

static void any_wide(struct random *r, enum family f, struct knobs *k, struct sizes *size) {
  any_sizes(r, f, size);
  k->variables = chance(r, 15) ? between(r, 7, 12) : PICK(r, 1, 2, 2, 3, 3, 3, 3, 4, 4, 5, 6);
  k->sets = between(r, k->variables > 6 ? 2 : 1, k->variables < 3 ? k->variables : 3);
  k->group_percent = PICK(r, 0, 50, 80, 100, 100, 100);
  k->time_step = PICK(r, 1, 1, 10);
  k->window = PICK(r, 5, 16, 20, 25, 28, 30, 31, 31, 32, 33, 40, size->records, size->records, size->records);
}

/* Many readings before a gap, where there are too few records for a 33rd binding, and one behind it. */
static void parted_wide(struct random *r, struct knobs *k, struct sizes *size) {
  size->gap = between(r, 22, 32);
  size->records = size->gap + between(r, 30, 45);
  k->variables = between(r, 3, 6);
  k->sets = between(r, 1, 2);
  k->group_percent = PICK(r, 80, 100);
  k->time_step = 1;
  k->window = size->records;
}

/* Variables that take one event each: full readings with the rest of a long block behind them. */
static void plain_wide(struct random *r, struct knobs *k, struct sizes *size) {
  size->records = size->gap = between(r, 121, 400);
  k->variables = between(r, 1, 4);
  k->sets = between(r, 1, k->variables < 3 ? k->variables : 3);
  k->group_percent = PICK(r, 0, 0, 20);
  k->time_step = 1;
  k->window = size->records;
}

/* The readings of each start bind the events of its core, or of its wave: the 33rd binding met first need not have the
   least record. */
static void rates_wide(struct random *r, struct knobs *k, struct sizes *size) {
  size->records = size->gap = between(r, 66, 80);
  k->variables = between(r, 3, 5);
  k->sets = 2;
  k->group_percent = 100;
  k->first_single = size->first_apart = true;
  k->time_step = 1;
  k->window = size->records;
}

/* Variable 0 takes an event or some, and the others then share the events of all other cores, or of other waves. */
static void others_wide(struct random *r, struct knobs *k, struct sizes *size) {
  size->records = size->gap = between(r, 32, 60);
  k->variables = between(r, 3, 6);
  k->sets = 2;
  k->group_percent = PICK(r, 80, 100);
  k->first_single = chance(r, 50);
  size->first_apart = true;
  k->time_step = 1;
  k->window = PICK(r, 28, 33, size->records, size->records, size->records);
}

static void wide_knobs(struct random *r, enum family f, struct knobs *k, struct sizes *size) {
  unsigned n = below(r, 100);
  size->first_apart = false;
  *k = (struct knobs){.shape = "wide", .cores = 2, .waves = PICK(r, 1, 3, 256)};
  if (n < 15 && !joined(f))
    parted_wide(r, k, size);
  else if (n < 28 && !joined(f))
    plain_wide(r, k, size);
  else if (n < 35 && f == SAME_CORE)
    rates_wide(r, k, size);
  else if (n < 80 && f == OTHER_CORE)
    others_wide(r, k, size);
  else
    any_wide(r, f, k, size);
  if (f == OTHER_CORE) k->cores = between(r, 2, 4);
  k->same_percent = PICK(r, 0, 0, 0, 30, 100);
  k->same_most = PICK(r, 1, 1, 5, 100);
  k->records = size->records;
}

/* The condition between two variables that an attribute of the one stands so to the same of the other. */
static void put_join(uint8_t *at, unsigned variable, unsigned operator, unsigned second, unsigned attribute) {
  put_condition(at, variable, attribute, operator, SPALDEP_FORM_ATTRIBUTE, second, attribute, 0);
}

static unsigned wide_conditions(enum family f, unsigned attribute, const struct knobs *k, const uint8_t *variables,
                                uint8_t *at) {
  unsigned c = 0, last = k->variables - 1;
  for (unsigned v = 0; v <= last; v++) {
    if (f == CLASS_OF_SET) put_is(at + 8 * c++, v, attribute, (variables[v] >> 4) - 1u);
    if (f == LAST_SELDOM) put_is(at + 8 * c++, v, attribute, v == last);
    if (f == OUT_OF_ORDER && v > 0 && v + 1 >= last) put_is(at + 8 * c++, v, attribute, v == last ? 2 : 1);
    if (f == ONE_FOR_TWO && v > 0 && v + 1 >= last) put_is(at + 8 * c++, v, attribute, 1);
    if (f == SAME_CORE && v > 0) put_join(at + 8 * c++, v, SPALDEP_OPERATOR_EQUAL, 0, attribute);
    if (f == OTHER_CORE && v > 0) put_join(at + 8 * c++, v, SPALDEP_OPERATOR_NOT_EQUAL, 0, attribute);
    if (f == SLOT_AT_MOST && v > 0) put_join(at + 8 * c++, v - 1, SPALDEP_OPERATOR_LESS_EQUAL, v, attribute);
  }
  if (f == LAST_FAILS && last > 0) put_join(at + 8 * c++, last, SPALDEP_OPERATOR_GREATER, 0, attribute);
  return c;
}

static void first_in_own_set(unsigned count, uint8_t *variables) {
  for (unsigned v = 1; v < count; v++) variables[v] = (uint8_t)(0x20 | (variables[v] & 8));
}

static void last_in_own_set(unsigned count, uint8_t *variables) {
  if (count > 1 && variables[count - 1] >> 4 == variables[count - 2] >> 4)
    variables[count - 1] = (uint8_t)(variables[count - 1] + 0x10);
}

/* The records of the seldom events, or past them all, how many of one class follow each other, whether cores take
   turns, and how many slots there are. */
struct turns {
  unsigned early, late, run, cores, slots;
};

/* The number that the attribute asked for has in a record. */
static unsigned number_at(struct random *r, enum family f, const struct knobs *k, const struct turns *t,
                          unsigned record) {
  switch (f) {
    case CLASS_OF_SET: return record / t->run % k->sets;
    case LAST_SELDOM:
    case ONE_FOR_TWO:
    case LAST_FAILS: return record == t->late;
    case OUT_OF_ORDER: return record == t->late ? 2 : record == t->early || record > t->late;
    case SAME_CORE:
    case OTHER_CORE: return t->cores == 1 ? record % k->cores : below(r, k->cores);
    case SLOT_AT_MOST: return below(r, t->slots);
    default: return 0;
  }
}

static void put_number(uint8_t *at, unsigned attribute, unsigned number) {
  switch (attribute) {
    case SPALDEP_ATTRIBUTE_CORE: set_field(at, 2, 6, number); break;
    case SPALDEP_ATTRIBUTE_CLASS: set_field(at, 8, 8, class_type[number]); break;
    case SPALDEP_ATTRIBUTE_SLOT: set_field(at, 56, 32, number); break;
    default: set_field(at, 120, 8, number); break;
  }
}

static void wide_block(struct random *r, enum family f, unsigned attribute, const struct knobs *k, unsigned gap,
                       struct test_case *out) {
  struct turns turns = {.early = PICK(r, 1, 2, 3, k->records, k->records, k->records), .run = PICK(r, 1, 8, 30)};
  turns.cores = below(r, 2);
  turns.slots = PICK(r, 1, 2, 4, attribute == SPALDEP_ATTRIBUTE_WAVE ? 256 : 1000);
  turns.late = chance(r, 40) ? k->records : between(r, k->records / 2, k->records - 1);
  uint64_t time = below(r, 100);
  unsigned left = 0;
  out->block_len = 16 * (size_t)k->records;
  memset(out->block, 0, out->block_len + 16);
  for (unsigned i = 0; i < k->records; i++) {
    if (i > 0) time = next_time(r, k, i == gap || i == gap + 1, &left, time);
    uint8_t *at = out->block + 16 * (size_t)i;
    set_field(at, 16, 40, time);
    if (i == gap) {
      set_field(at, 0, 2, 1);
      set_field(at, 56, 32, 1);
      continue;
    }
    set_field(at, 120, 8, below(r, k->waves));
    put_number(at, attribute, number_at(r, f, k, &turns, i));
  }
}

void make_wide(struct random *r, struct test_case *out) {
  enum family f =
      (enum family)PICK(r, NO_CONDITIONS, NO_CONDITIONS, CLASS_OF_SET, CLASS_OF_SET, LAST_SELDOM, LAST_SELDOM,
                        OUT_OF_ORDER, ONE_FOR_TWO, SAME_CORE, SAME_CORE, OTHER_CORE, SLOT_AT_MOST, LAST_FAILS);
  struct knobs k;
  struct sizes size;
  wide_knobs(r, f, &k, &size);
  unsigned attribute = chance(r, 30) ? SPALDEP_ATTRIBUTE_WAVE : own_attribute(f);
  wide_block(r, f, attribute, &k, size.gap, out);
  memset(out->pattern, 0, PATTERN_ROOM);
  put_variables(r, &k, out->pattern + 8);
  if (size.first_apart) first_in_own_set(k.variables, out->pattern + 8);
  if (f == OUT_OF_ORDER) last_in_own_set(k.variables, out->pattern + 8);
  unsigned c = wide_conditions(f, attribute, &k, out->pattern + 8, out->pattern + 8 + k.variables);
  put_header(r, &k, c, out);
}
