/* Families of wide patterns: see families.h. */
#include "families.h"

#include <string.h>

enum { VARIABLES = 12, SETS = 3, SET_VARIABLES = 6 };

/* What a pattern and its block are made from. A window of `window` records has its first event and those behind it. */
struct shape {
  unsigned n, sets, set[VARIABLES], records, window;
  bool group[VARIABLES];
};

#define PICK(...) ((const unsigned[]){__VA_ARGS__})[chance(sizeof((const unsigned[]){__VA_ARGS__}) / sizeof(unsigned))]

/* ---- shapes ---- */

/* Puts n variables into a number of sets: one into each, the others by chance where there is room. */
static void fill_sets(struct shape *s, unsigned n, unsigned sets) {
  unsigned size[SETS] = {0}, v = 0;
  s->n = n;
  s->sets = sets;
  for (unsigned i = 0; i < sets; i++) size[i] = 1;
  for (unsigned left = n - sets; left > 0;) {
    unsigned i = chance(sets);
    if (size[i] == SET_VARIABLES) continue;
    size[i]++;
    left--;
  }
  for (unsigned i = 0; i < sets; i++)
    for (unsigned j = 0; j < size[i]; j++) s->set[v++] = i;
}

static void draw_sets(struct shape *s, unsigned n) {
  unsigned fewest = (n + SET_VARIABLES - 1) / SET_VARIABLES, most = n < SETS ? n : SETS;
  fill_sets(s, n, fewest + chance(most - fewest + 1));
}

static void draw_groups(struct shape *s) {
  unsigned percent = PICK(0, 50, 100);
  for (unsigned v = 0; v < s->n; v++) s->group[v] = chance(100) < percent;
}

static void draw_window(struct shape *s) {
  unsigned window = PICK(5, 10, 20, 33, 50, 200, SPALDEP_BLOCK_RECORDS);
  s->window = window < s->records ? window : s->records;
}

static void any_size(struct shape *s) { s->records = PICK(10, 20, 40, 100, 400, 1000, SPALDEP_BLOCK_RECORDS); }

static void any_shape(struct shape *s) {
  draw_sets(s, 1 + chance(VARIABLES));
  draw_groups(s);
  any_size(s);
}

static void shape_for_joins(struct shape *s) {
  draw_sets(s, 2 + chance(VARIABLES - 1));
  draw_groups(s);
  any_size(s);
}

/* One or two sets, and a last one of a single variable; record RARE_RECORD is in the block. */
static void shape_with_end(struct shape *s) {
  draw_sets(s, 1 + chance(VARIABLES - 1));
  if (s->sets == SETS) fill_sets(s, s->n, SETS - 1);
  draw_groups(s);
  s->set[s->n] = s->sets++;
  s->group[s->n++] = chance(2) == 0;
  s->records = PICK(40, 60, 100, 400, 1000, SPALDEP_BLOCK_RECORDS);
}

static void typed_shape(struct shape *s) {
  draw_sets(s, 1 + chance(5));
  draw_groups(s);
  s->records = PICK(10, 20, 40, 100, 400);
}

/* ---- conditions ---- */

static void no_conditions(const struct shape *s, struct workload *w) {
  (void)s;
  (void)w;
}

static void class_of_set(const struct shape *s, struct workload *w) {
  for (unsigned v = 0; v < s->n; v++) with_constant(w, v, CLASS, EQUAL, (uint8_t)s->set[v]);
}

/* Class 1 for the last variable, class 0 for all others. */
static void class_of_end(const struct shape *s, struct workload *w) {
  for (unsigned v = 0; v < s->n; v++) with_constant(w, v, CLASS, EQUAL, v + 1 == s->n);
}

static unsigned other_than(const struct shape *s, unsigned v) { return (v + 1 + chance(s->n - 1)) % s->n; }

/* Two variables have the same core, or all have. */
static void join_on_core(const struct shape *s, struct workload *w) {
  unsigned v = chance(s->n), other = other_than(s, v), all = chance(2);
  if (!all) with_variable(w, v, CORE, EQUAL, other, CORE);
  for (unsigned u = 1; all && u < s->n; u++) with_variable(w, 0, CORE, EQUAL, u, CORE);
}

static void join_on_slot(const struct shape *s, struct workload *w) {
  unsigned v = chance(s->n);
  with_variable(w, v, SLOT, AT_MOST, other_than(s, v), SLOT);
}

/* In a block of distinct_slots no two records have the same slot, and none an amount above another's. */
static void failing_join(const struct shape *s, struct workload *w) {
  unsigned last = s->n - 1, other = chance(last);
  if (chance(2) == 0)
    with_variable(w, last, SLOT, EQUAL, other, SLOT);
  else
    with_variable(w, last, AMOUNT, ABOVE, other, AMOUNT);
}

/* Of ten variables six ask for a class, three for a type and one for nothing; one pattern in four has joins. */
static void typed_conditions(const struct shape *s, struct workload *w) {
  for (unsigned v = 0; v < s->n; v++) {
    unsigned asks = chance(10), class = chance(4);
    if (asks < 6) with_constant(w, v, CLASS, EQUAL, (uint8_t) class);
    if (asks >= 6 && asks < 9) with_constant(w, v, TYPE, EQUAL, class_types[class]);
  }
  unsigned joins = s->n > 1 && chance(4) == 0 ? 1 + chance(2) : 0;
  for (; joins > 0; joins--) {
    unsigned v = chance(s->n), attribute = PICK(CORE, CORE, SLOT, AMOUNT);
    with_variable(w, v, attribute, attribute == CORE ? EQUAL : PICK(EQUAL, AT_MOST), other_than(s, v), attribute);
  }
}

/* ---- blocks ---- */

enum { RARE_RECORD = 30 };

static void equal_events(const struct shape *s, struct workload *w) {
  for (unsigned i = 0; i < s->records; i++) put_event(w, i, 0, class_types[0], 0, 0);
}

/* The classes of class_of_set in turn, each for a run of events; beside a single set, a class that none asks for. */
static void runs(const struct shape *s, struct workload *w, unsigned length) {
  unsigned classes = s->sets > 1 ? s->sets : 2;
  for (unsigned i = 0; i < s->records; i++) put_event(w, i, 0, class_types[i / length % classes], 0, 0);
}

static void alternating(const struct shape *s, struct workload *w) { runs(s, w, 1); }
static void runs_of_8(const struct shape *s, struct workload *w) { runs(s, w, 8); }
static void runs_of_30(const struct shape *s, struct workload *w) { runs(s, w, 30); }

static void end_once(const struct shape *s, struct workload *w) {
  equal_events(s, w);
  put_event(w, RARE_RECORD, 0, class_types[1], 0, 0);
}

static void two_cores(const struct shape *s, struct workload *w) {
  for (unsigned i = 0; i < s->records; i++) put_event(w, i, chance(2), class_types[0], 0, 0);
}

static void random_slots(const struct shape *s, struct workload *w) {
  for (unsigned i = 0; i < s->records; i++) put_event(w, i, 0, class_types[0], chance(1000), 0);
}

static void distinct_slots(const struct shape *s, struct workload *w) {
  for (unsigned i = 0; i < s->records; i++) put_event(w, i, 0, class_types[0], i, 0);
}

/* Four events of five are of the classes that typed_conditions asks for; half of the blocks have gaps. */
static void typed_block(const struct shape *s, struct workload *w) {
  bool gaps = chance(2) == 0;
  for (unsigned i = 0; i < s->records; i++) {
    unsigned class = chance(5) < 4 ? chance(4) : 4 + chance(2);
    put_event(w, i, chance(2), class_types[class] + chance(3), chance(8), chance(100));
    if (gaps && chance(64) == 0) put_gap(w, i);
  }
}

/* Gives every second record the cycle of the one before it, where both are events. */
static void in_pairs(const struct shape *s, struct workload *w) {
  for (unsigned i = 1; i < s->records; i += 2) {
    uint8_t *at = w->block + SPALDEP_RECORD_BYTES * (size_t)i, *before = at - SPALDEP_RECORD_BYTES;
    if (at[0] >> 6 == 0 && before[0] >> 6 == 0) memcpy(at + 2, before + 2, 5);
  }
}

static void alternating_pairs(const struct shape *s, struct workload *w) {
  alternating(s, w);
  in_pairs(s, w);
}

/* In each cycle an event of class_of_end's class 0, and behind it one of class 1. */
static void end_in_pairs(const struct shape *s, struct workload *w) {
  runs(&(struct shape){.sets = 2, .records = s->records}, w, 1);
  in_pairs(s, w);
}

static void typed_pairs(const struct shape *s, struct workload *w) {
  typed_block(s, w);
  in_pairs(s, w);
}

/* ---- the families ---- */

static const struct {
  const char *name;
  void (*shape)(struct shape *s);
  void (*conditions)(const struct shape *s, struct workload *w);
  void (*block)(const struct shape *s, struct workload *w);
} families[FAMILIES] = {
    {"no conditions", any_shape, no_conditions, equal_events},
    {"a class for each set, events alternating", any_shape, class_of_set, alternating},
    {"a class for each set, events in runs of 8", any_shape, class_of_set, runs_of_8},
    {"a class for each set, events in runs of 30", any_shape, class_of_set, runs_of_30},
    {"{a+, b+}{c} and the like, c at record 30", shape_with_end, class_of_end, end_once},
    {"a join on core, two cores", shape_for_joins, join_on_core, two_cores},
    {"a join on slot, at most, random slots", shape_for_joins, join_on_slot, random_slots},
    {"a join that fails at the last variable", shape_for_joins, failing_join, distinct_slots},
    {"random, as people type them", typed_shape, typed_conditions, typed_block},
    {"random, larger", any_shape, typed_conditions, typed_block},
    {"a class for each set, two events a cycle", any_shape, class_of_set, alternating_pairs},
    {"{a+, b+}{c} and the like, a c with each a", shape_with_end, class_of_end, end_in_pairs},
    {"random, two events a cycle", typed_shape, typed_conditions, typed_pairs},
};

const char *family_name(unsigned family) { return families[family].name; }

void begin_family(unsigned family) { seed_chance(2654435769u * (family + 1)); }

static void describe(const struct shape *s, char *to) {
  size_t at = 0;
  for (unsigned v = 0; v < s->n; v++) {
    bool first = v == 0 || s->set[v] != s->set[v - 1], last = v + 1 == s->n || s->set[v] != s->set[v + 1];
    at += (size_t)snprintf(to + at, DESCRIPTION_BYTES - at, "%s%c%s%s", first ? "{" : ", ", 'a' + (int)v,
                           s->group[v] ? "+" : "", last ? "}" : "");
  }
  snprintf(to + at, DESCRIPTION_BYTES - at, ", %u of %u records", s->window, s->records);
}

static const uint8_t *conditions_of(const struct workload *w) { return w->pattern + 8 + (w->pattern[0] & 15); }

static bool is_join(const uint8_t *condition) { return condition[1] & 0x20; }

void next_pattern(unsigned family, struct wide *out) {
  struct shape s;
  struct workload *w = &out->workload;
  char variables[VARIABLES];
  families[family].shape(&s);
  draw_window(&s);
  for (unsigned v = 0; v < s.n; v++) variables[v] = (char)((s.set[v] + 1) << 4 | (s.group[v] ? 8 : 0));
  begin_pattern(w, s.n, variables, CYCLES_A_RECORD * (uint64_t)(s.window - 1));
  families[family].conditions(&s, w);
  families[family].block(&s, w);
  w->block_len = SPALDEP_RECORD_BYTES * s.records;
  w->name = out->description;
  describe(&s, out->description);
  out->joins = false;
  for (const uint8_t *at = conditions_of(w); at < w->pattern + w->pattern_len; at += 8)
    out->joins = out->joins || is_join(at);
}

void print_conditions(FILE *to, const struct workload *w) {
  static const char *const attributes[] = {"core", "type", "class", "slot", "amount", "wave"};
  static const char *const operators[] = {"=", "<", "<=", ">", ">=", "!="};
  for (const uint8_t *at = conditions_of(w); at < w->pattern + w->pattern_len; at += 8) {
    fprintf(to, ", %c.%s%s", 'a' + (at[0] >> 4), attributes[at[0] >> 1 & 7], operators[(at[0] & 1) << 2 | at[1] >> 6]);
    if (is_join(at))
      fprintf(to, "%c.%s", 'a' + (at[1] >> 1 & 15), attributes[(at[1] & 1) << 2 | at[2] >> 6]);
    else
      fprintf(to, "%u", at[7]);
  }
}
