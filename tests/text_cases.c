/* Random texts: see text_cases.h. */
#include "text_cases.h"

#include <inttypes.h>
#include <stdio.h>
#include <string.h>

#include "texts.h"

/* ---- making ---- */

static void make_names(struct random *r, struct making *m) {
  for (unsigned i = 0; i < LETTERS; i++) m->name[i] = (char)('a' + i);
  m->named_in_order = chance(r, 40);
  for (unsigned i = 0; i < LETTERS && !m->named_in_order; i++) {
    unsigned other = between(r, i, LETTERS - 1);
    char name = m->name[i];
    m->name[i] = m->name[other];
    m->name[other] = name;
  }
}

/* Sets in order most of the time, else too many or too large ones. */
static void make_sets(struct random *r, struct making *m) {
  bool in_order = chance(r, 80);
  unsigned members = 0, next_percent = in_order ? below(r, 101) : PICK(r, 2, 10, 90, 100);
  m->sets = 1;
  for (unsigned v = 0; v < m->variables; v++) {
    bool next = members > 0 && chance(r, next_percent);
    if (in_order && m->sets == SETS) next = false;
    if (in_order && members == SET_VARIABLES) next = true;
    if (next) {
      m->sets++;
      members = 0;
    }
    members++;
    m->set[v] = m->sets;
    m->group[v] = chance(r, 30);
  }
}

static int64_t make_constant(struct random *r, unsigned attribute) {
  static const int64_t with_sign[] = {-2147483648, -2147483647, -1, 0, 1, 2147483646, 2147483647, -10, -4, 1000000000};
  static const int64_t without[] = {0, 1, 9, 10, 255, 2147483647, 2147483648, 4294967294, 4294967295, 1000000000};
  if (chance(r, 50)) return attribute == AMOUNT ? with_sign[below(r, 10)] : without[below(r, 10)];
  if (chance(r, 50)) return below(r, 300);
  uint32_t any = (uint32_t)random_next(r);
  return attribute == AMOUNT ? (int64_t)any - 2147483648 : (int64_t)any;
}

void make_condition(struct random *r, const struct making *m, struct condition *k) {
  *k = (struct condition){.variable = below(r, m->variables),
                          .attribute = below(r, ATTRIBUTES),
                          .operator= below(r, OPERATORS),
                          .form = chance(r, 50) ? WITH_CONSTANT : WITH_ATTRIBUTE};
  if (k->form == WITH_CONSTANT) {
    k->constant = make_constant(r, k->attribute);
  } else {
    k->second_variable = below(r, m->variables);
    k->second_attribute = below(r, ATTRIBUTES);
  }
}

static unsigned any_conditions(struct random *r) {
  switch (below(r, 20)) {
    case 0: return CONDITIONS;
    case 1: return CONDITIONS + 1;
    case 2: return chance(r, 50) ? between(r, CONDITIONS + 1, 64) : PICK(r, 255, 256, 257, 288, MOST_SAID);
    case 3:
    case 4: return below(r, CONDITIONS + 1);
    case 5: return 0;
    default: return below(r, 8);
  }
}

static void make_duration(struct random *r, struct making *m) {
  static const char *const too_long[] = {"1099511627776",        "1099511627876",        "4398046511104",
                                         "9999999999999",        "18446744073709551615", "18446744073709551616",
                                         "18446744073709551716", "184467440737095516160"};
  m->too_long = chance(r, 12);
  m->cycles = chance(r, 60) ? below(r, 1000) : random_next(r) >> PICK(r, 24, 25, 32, 44);
  if (chance(r, 10)) m->cycles = chance(r, 30) ? 0 : ((uint64_t)1 << 40) - 1;
  if (!m->too_long)
    sprintf(m->duration, "%" PRIu64, m->cycles);
  else if (chance(r, 70))
    strcpy(m->duration, too_long[below(r, sizeof too_long / sizeof *too_long)]);
  else
    for (unsigned i = 0, digits = PICK(r, 14, 20, 40, DIGITS); i <= digits; i++)
      m->duration[i] = i == digits ? '\0' : (char)((i == 0 ? '1' : '0') + (chance(r, 50) ? below(r, 9) : 0));
}

/* The longest text that a pattern has: every variable a group variable, as many sets as there can be, and conditions
   that hold amounts against ten digits with a minus. */
static void make_longest(struct random *r, struct making *m) {
  m->variables = VARIABLES;
  m->sets = SETS;
  m->conditions = CONDITIONS;
  for (unsigned v = 0; v < VARIABLES; v++) {
    m->set[v] = v < SETS ? v + 1 : SETS;
    m->group[v] = true;
  }
  for (unsigned i = 0; i < CONDITIONS; i++)
    m->condition[i] = (struct condition){.variable = below(r, VARIABLES),
                                         .attribute = AMOUNT,
                                         .operator= PICK(r, LESS_EQUAL, GREATER_EQUAL, NOT_EQUAL),
                                         .form = WITH_CONSTANT,
                                         .constant = -2147483648 + (int64_t)below(r, 1000000)};
  m->cycles = ((uint64_t)1 << 40) - 1 - below(r, 1000);
  m->too_long = false;
  sprintf(m->duration, "%" PRIu64, m->cycles);
}

void make_making(struct random *r, struct making *m) {
  make_names(r, m);
  if (chance(r, 1)) {
    make_longest(r, m);
    return;
  }
  m->variables = chance(r, 50) ? between(r, 1, 4) : chance(r, 75) ? between(r, 1, VARIABLES) : VARIABLES;
  if (chance(r, 10)) m->variables = chance(r, 30) ? LETTERS : between(r, VARIABLES + 1, LETTERS);
  make_sets(r, m);
  m->conditions = any_conditions(r);
  for (unsigned i = 0; i < m->conditions; i++) make_condition(r, m, &m->condition[i]);
  make_duration(r, m);
}

void rename_making(struct making *m) {
  for (unsigned i = 0; i < LETTERS; i++) m->name[i] = (char)('a' + i);
  m->named_in_order = true;
}

/* ---- the text ---- */

size_t write_condition(const struct making *m, const struct condition *k, char *to) {
  char right[40];
  if (k->form == WITH_CONSTANT)
    sprintf(right, "%" PRId64, k->constant);
  else
    sprintf(right, "%c.%s", m->name[k->second_variable], attribute_words[k->second_attribute]);
  return (size_t)sprintf(to, "when %c.%s %s %s", m->name[k->variable], attribute_words[k->attribute],
                         operator_words[k->operator], right);
}

void write_making(const struct making *m, struct text *t) {
  char *at = (char *)t->bytes;
  unsigned v = 0;
  for (unsigned set = 1; set <= m->sets; set++) {
    at += sprintf(at, "set");
    for (; v < m->variables && m->set[v] == set; v++) at += sprintf(at, m->group[v] ? " %c+" : " %c", m->name[v]);
    *at++ = '\n';
  }
  for (unsigned i = 0; i < m->conditions; i++) {
    at += write_condition(m, &m->condition[i], at);
    *at++ = '\n';
  }
  at += sprintf(at, "within %s\n", m->duration);
  t->length = (size_t)(at - (char *)t->bytes);
}

/* ---- the pattern ---- */

size_t making_pattern_len(const struct making *m) { return 8 + m->variables + 8 * (size_t)m->conditions; }

void write_making_pattern(const struct making *m, uint8_t *pattern) {
  memset(pattern, 0, making_pattern_len(m));
  pattern[0] = (uint8_t)(0x10 | (m->variables & 15));
  pattern[1] = (uint8_t)m->conditions;
  for (unsigned i = 0; i < 5; i++) pattern[3 + i] = (uint8_t)(m->cycles >> (32 - 8 * i));
  for (unsigned v = 0; v < m->variables; v++) pattern[8 + v] = (uint8_t)(m->set[v] * 16 + m->group[v] * 8u);
  for (unsigned i = 0; i < m->conditions; i++) {
    const struct condition *k = &m->condition[i];
    uint8_t *at = pattern + 8 + m->variables + 8 * i;
    unsigned fields = k->variable << 20 | k->attribute << 17 |
                      k->operator<< 14 | k->form << 13 | k->second_variable << 9 | k->second_attribute << 6;
    for (unsigned j = 0; j < 3; j++) at[j] = (uint8_t)(fields >> (16 - 8 * j));
    for (unsigned j = 0; j < 4; j++) at[4 + j] = (uint8_t)((uint32_t)k->constant >> (24 - 8 * j));
  }
}

/* ---- what is too much ---- */

bool has_too_much(const struct making *m) {
  return m->variables > VARIABLES || m->conditions > CONDITIONS || m->too_long;
}

bool has_bad_set(const struct making *m, unsigned *place) {
  for (unsigned v = 0; v < m->variables; v++) {
    *place = v;
    if (m->set[v] > SETS || (v >= SET_VARIABLES && m->set[v] == m->set[v - SET_VARIABLES])) return true;
  }
  return false;
}
