/* What a run of the comparison of texts has met: see text_tally.h. */
#include "text_tally.h"

#include <inttypes.h>
#include <stdio.h>
#include <string.h>

#include "demands.h"
#include "spaldep.h"
#include "texts.h"

struct text_tally text_tally;

const char *const text_call_names[TEXT_CALLS] = {"read_text", "write_text"};

const unsigned fault_codes[TEXT_CALLS][MOST_FAULTS] = {{14, 2, 3, 12}, {1, 2, 1, 3, 4, 12}};
static const unsigned fault_counts[TEXT_CALLS] = {READ_FAULTS, WRITE_FAULTS};
static const char *const fault_names[TEXT_CALLS][MOST_FAULTS] = {
    {"a line outside the form", "too many variables or conditions or too long a duration", "a bad set",
     "a short slice"},
    {"no header", "a bad header", "a wrong length", "a bad variable", "a bad condition", "a short slice"}};

static const char *const met_names[TEXT_METS] = {
    "accepted texts with names that are not a, b, c",
    "texts with all letters as names",
    "accepted texts whose pattern passes check_pattern",
    "accepted texts named a, b, c that are written again as they were",
    "accepted texts with other names that are written again with a, b, c",
    "patterns that are written and read again as they were",
    "patterns with the longest text",
    "accepted texts without conditions",
    "accepted texts of the most variables",
    "accepted texts of the most conditions",
    "accepted texts of the most sets",
    "accepted texts with the most variables in a set",
    "texts refused with 2 for one condition more",
    "texts refused with 2 for 256 conditions",
    "texts refused with 3 for one set more",
    "texts refused with 3 for one variable more in a set",
    "accepted texts of one variable",
    "accepted texts with the constant -2147483648",
    "accepted texts with the constant 2147483647 beside amount",
    "accepted texts with the constant 4294967295",
    "accepted texts with the constant 2147483648",
    "accepted texts with the constant 0",
    "accepted texts with the duration 0",
    "accepted texts with the duration 2^40 - 1",
    "texts refused with 2 for the duration 2^40",
    "texts refused with 2 for the duration 2^64",
    "texts refused with 2 for a duration of a thousand digits",
    "texts with two kinds of damage",
    "damaged texts that are accepted",
    "texts whose pattern fills its slice",
    "texts whose pattern has one byte too few",
    "texts whose pattern has bytes to spare",
    "texts with no room for the pattern",
    "patterns whose text fills its slice",
    "patterns whose text has one byte too few",
    "patterns whose text has bytes to spare",
    "patterns with no room for the text",
    "large texts that are answered in time",
    "texts whose bad line is beyond the last place",
};

unsigned code_of_faults(int call, unsigned faults) {
  for (unsigned i = 0; i < fault_counts[call]; i++)
    if (faults >> i & 1) return fault_codes[call][i];
  return 0;
}

void count_pairs(int call, unsigned faults) {
  unsigned first = 0;
  if (faults == 0) return;
  while ((faults >> first & 1) == 0) first++;
  for (unsigned i = first + 1; i < fault_counts[call]; i++) text_tally.pairs[call][first][i] += faults >> i & 1;
}

/* ---- makings ---- */

static void count_condition(const struct condition *k) {
  text_tally.attributes[k->attribute]++;
  text_tally.operators[k->operator]++;
  if (k->form == WITH_ATTRIBUTE) {
    text_tally.second_attributes[k->second_attribute]++;
    return;
  }
  text_tally.met[TEXT_LEAST_SIGNED] += k->constant == -2147483648;
  text_tally.met[TEXT_GREATEST_SIGNED] += k->attribute == AMOUNT && k->constant == 2147483647;
  text_tally.met[TEXT_GREATEST_UNSIGNED] += k->constant == 4294967295;
  text_tally.met[TEXT_ABOVE_SIGNED] += k->constant == 2147483648;
  text_tally.met[TEXT_ZERO] += k->constant == 0;
}

static unsigned largest_set(const struct making *m) {
  unsigned members[LETTERS + 1] = {0}, most = 0;
  for (unsigned v = 0; v < m->variables; v++)
    if (++members[m->set[v]] > most) most = members[m->set[v]];
  return most;
}

static void count_accepted(const struct making *m) {
  uint64_t *met = text_tally.met;
  met[TEXT_OWN_NAMES] += !m->named_in_order;
  met[TEXT_NO_CONDITIONS] += m->conditions == 0;
  met[TEXT_MOST_VARIABLES] += m->variables == VARIABLES;
  met[TEXT_MOST_CONDITIONS] += m->conditions == CONDITIONS;
  met[TEXT_MOST_SETS] += m->sets == SETS;
  met[TEXT_MOST_IN_SET] += largest_set(m) == SET_VARIABLES;
  met[TEXT_ONE_VARIABLE] += m->variables == 1;
  met[TEXT_DURATION_0] += m->cycles == 0;
  met[TEXT_DURATION_GREATEST] += m->cycles == ((uint64_t)1 << 40) - 1;
  for (unsigned i = 0; i < m->conditions; i++) count_condition(&m->condition[i]);
}

void count_making(const struct making *m, uint64_t answer) {
  uint64_t *met = text_tally.met;
  unsigned code = spaldep_code(answer);
  bool variables = m->variables > VARIABLES, conditions = m->conditions > CONDITIONS;
  met[TEXT_ALL_LETTERS] += m->variables == LETTERS;
  if (code == SPALDEP_DONE) count_accepted(m);
  if (code == SPALDEP_REFUSED_VARIABLE) {
    met[TEXT_SET_MORE] += m->sets == SETS + 1 && largest_set(m) <= SET_VARIABLES;
    met[TEXT_IN_SET_MORE] += m->sets <= SETS && largest_set(m) == SET_VARIABLES + 1;
  }
  if (code != SPALDEP_REFUSED_HEADER) return;
  text_tally.variables[m->variables] += !conditions && !m->too_long;
  met[TEXT_CONDITION_MORE] += m->conditions == CONDITIONS + 1 && !variables && !m->too_long;
  met[TEXT_CONDITIONS_256] += m->conditions == 256 && !variables && !m->too_long;
  if (variables || conditions) return;
  met[TEXT_DURATION_MORE] += strcmp(m->duration, "1099511627776") == 0;
  met[TEXT_DURATION_64] += strcmp(m->duration, "18446744073709551616") == 0;
  met[TEXT_DURATION_LONG] += strlen(m->duration) == DIGITS;
}

/* ---- what was never met ---- */

void print_text_answers(void) {
  for (int call = 0; call < TEXT_CALLS; call++) {
    printf("%s:", text_call_names[call]);
    for (unsigned code = 0; code < 256; code++)
      if (text_tally.codes[call][code] > 0) printf(" %u: %" PRIu64, code, text_tally.codes[call][code]);
    printf("\n");
  }
}

static void demand_faults(int call) {
  char what[200];
  for (unsigned i = 0; i < fault_counts[call]; i++) {
    snprintf(what, sizeof what, "%s refuses with %u", text_call_names[call], fault_codes[call][i]);
    demand(text_tally.codes[call][fault_codes[call][i]], what, "", &text_tally.failed);
    for (unsigned j = i + 1; j < fault_counts[call]; j++) {
      if (call == WRITE_TEXT && i == WRITE_SHORT && j != WRITE_ROOM) continue; /* there is nothing to judge */
      snprintf(what, sizeof what, "of these, %s and ", fault_names[call][i]);
      demand(text_tally.pairs[call][i][j], what, fault_names[call][j], &text_tally.failed);
    }
  }
}

static void demand_variables(void) {
  static char digits[LETTERS - VARIABLES][3];
  const char *words[LETTERS - VARIABLES];
  for (unsigned i = 0; i < LETTERS - VARIABLES; i++) {
    sprintf(digits[i], "%u", (VARIABLES + 1 + i) % 100);
    words[i] = digits[i];
  }
  demand_each("texts refused with 2 for so many variables", text_tally.variables + VARIABLES + 1, words,
              LETTERS - VARIABLES, &text_tally.failed);
}

void demand_all_texts_met(void) {
  uint64_t *failed = &text_tally.failed;
  for (int call = 0; call < TEXT_CALLS; call++) {
    demand(text_tally.codes[call][0], text_call_names[call], " accepts", failed);
    demand_faults(call);
  }
  for (size_t i = 0; i < damage_count(); i++)
    demand(text_tally.damaged[i], damage_at(i)->name, ", alone: refused with 14", failed);
  for (int met = 0; met < TEXT_METS; met++) demand(text_tally.met[met], met_names[met], "", failed);
  demand_variables();
  demand_each("accepted conditions by attribute", text_tally.attributes, attribute_words, ATTRIBUTES, failed);
  demand_each("accepted conditions by second attribute", text_tally.second_attributes, attribute_words, ATTRIBUTES,
              failed);
  demand_each("accepted conditions by operator", text_tally.operators, operator_words, OPERATORS, failed);
}
