/* The text form of patterns: see texts.h. A line is taken apart by itself first (text_lines.c); then it is asked
   whether it may stand behind the lines before it; and what the lines say together is judged at the end. */
#include "texts.h"

#include <inttypes.h>
#include <stdio.h>
#include <string.h>

#include "text_lines.h"

enum { TEXT_PATTERN_BYTES = 8 + VARIABLES + 8 * CONDITIONS, WRITTEN = 4096, LAST_PLACE = 0xffffff };

/* ---- lines behind one another ---- */

/* What the lines so far say. Variables cannot be more than there are letters; of the conditions the first are kept. */
struct content {
  enum kind last;
  unsigned sets, variables, set[NAMES];
  bool group[NAMES];
  uint8_t name[NAMES];
  size_t conditions;
  struct condition condition[CONDITIONS];
  struct span duration;
};

/* The number of the variable with that name, or how many there are where none has it. */
static unsigned variable_named(const struct content *c, unsigned letter) {
  unsigned v = 0;
  while (v < c->variables && c->name[v] != letter) v++;
  return v;
}

static bool add_set(struct content *c, const struct line *line) {
  c->sets++;
  for (size_t i = 0; i < line->names; i++) {
    if (variable_named(c, line->name[i]) < c->variables) return false;
    c->name[c->variables] = line->name[i];
    c->group[c->variables] = line->plus[i];
    c->set[c->variables] = c->sets;
    c->variables++;
  }
  return true;
}

static bool add_condition(struct content *c, struct condition k) {
  k.variable = variable_named(c, k.variable);
  if (k.variable == c->variables) return false;
  if (k.form == WITH_ATTRIBUTE) {
    k.second_variable = variable_named(c, k.second_variable);
    if (k.second_variable == c->variables) return false;
  }
  if (c->conditions < CONDITIONS) c->condition[c->conditions] = k;
  c->conditions++;
  return true;
}

/* Adds a line, or says that no text of the form goes on with it. */
static bool add_line(struct content *c, const struct line *line) {
  enum kind last = c->last;
  c->last = line->kind;
  switch (line->kind) {
    case SET_LINE: return (last == NO_LINE || last == SET_LINE) && add_set(c, line);
    case WHEN_LINE: return (last == SET_LINE || last == WHEN_LINE) && add_condition(c, line->condition);
    case WITHIN_LINE: c->duration = line->duration; return last == SET_LINE || last == WHEN_LINE;
    default: return false;
  }
}

/* Whether the text is in the form. `place` becomes its first bad line, or the one that is missing at its end. */
static bool take_text(struct span text, struct content *c, size_t *place) {
  memset(c, 0, sizeof *c);
  for (*place = 0; text.length > 0; ++*place) {
    const uint8_t *feed = memchr(text.at, '\n', text.length);
    if (feed == NULL) return false;
    size_t length = (size_t)(feed - text.at);
    struct line line = line_of((struct span){text.at, length});
    if (!add_line(c, &line)) return false;
    text = (struct span){feed + 1, text.length - length - 1};
  }
  return c->last == WITHIN_LINE;
}

/* ---- judging what they say, and its bytes ---- */

/* 0, or refusal 2 or 3. */
static uint64_t judge(const struct content *c) {
  unsigned members[1 + NAMES] = {0};
  if (c->variables > VARIABLES || c->conditions > CONDITIONS || !at_most(c->duration, "1099511627775"))
    return refusal(2, 0);
  for (unsigned v = 0; v < c->variables; v++)
    if (c->set[v] > SETS || ++members[c->set[v]] > SET_VARIABLES) return refusal(3, v);
  return 0;
}

struct bits {
  uint8_t bytes[TEXT_PATTERN_BYTES];
  size_t count;
};

static void put_bits(struct bits *b, unsigned width, uint64_t value) {
  while (width-- > 0) {
    b->bytes[b->count / 8] = (uint8_t)(b->bytes[b->count / 8] << 1 | (value >> width & 1));
    b->count++;
  }
}

/* Rules 2.1 to 2.3. */
static void put_pattern(const struct content *c, struct bits *b) {
  put_bits(b, 4, 1);
  put_bits(b, 4, c->variables);
  put_bits(b, 8, c->conditions);
  put_bits(b, 8, 0);
  put_bits(b, 40, value_of_decimal(c->duration));
  for (unsigned v = 0; v < c->variables; v++) {
    put_bits(b, 4, c->set[v]);
    put_bits(b, 1, c->group[v]);
    put_bits(b, 3, 0);
  }
  for (size_t i = 0; i < c->conditions; i++) {
    const struct condition *k = &c->condition[i];
    put_bits(b, 4, k->variable);
    put_bits(b, 3, k->attribute);
    put_bits(b, 3, k->operator);
    put_bits(b, 1, k->form);
    put_bits(b, 4, k->second_variable);
    put_bits(b, 3, k->second_attribute);
    put_bits(b, 14, 0);
    put_bits(b, 32, (uint64_t)k->constant);
  }
}

uint64_t reference_read_text(const uint8_t *text, size_t text_len, uint8_t *pattern, size_t pattern_len) {
  struct content c;
  struct bits b = {.count = 0};
  size_t place;
  clear(pattern, pattern_len);
  if (!take_text((struct span){text, text_len}, &c, &place))
    return refusal(14, place < LAST_PLACE ? place : LAST_PLACE);
  uint64_t refused = judge(&c);
  if (refused != 0) return refused;
  put_pattern(&c, &b);
  if (b.count / 8 > pattern_len) return refusal(12, 0);
  memcpy(pattern, b.bytes, b.count / 8);
  return answer(0, b.count / 8, 0, 0);
}

/* ---- the writer ---- */

static char letter(unsigned variable) { return "abcdefghijkl"[variable]; }

static size_t text_of(const struct pattern *p, char *to) {
  char *at = to;
  for (unsigned v = 0; v < p->n; v++) {
    bool begins = v == 0 || p->set[v] != p->set[v - 1], ends = v + 1 == p->n || p->set[v + 1] != p->set[v];
    at += sprintf(at, "%s %c%s%s", begins ? "set" : "", letter(v), p->group[v] ? "+" : "", ends ? "\n" : "");
  }
  for (unsigned i = 0; i < p->c; i++) {
    const struct condition *k = &p->condition[i];
    const char *attribute = attribute_words[k->attribute], *operator_word = operator_words[k->operator];
    at += sprintf(at, "when %c.%s %s ", letter(k->variable), attribute, operator_word);
    if (k->form == WITH_CONSTANT)
      at += sprintf(at, "%" PRId64 "\n", k->constant);
    else
      at += sprintf(at, "%c.%s\n", letter(k->second_variable), attribute_words[k->second_attribute]);
  }
  at += sprintf(at, "within %" PRIu64 "\n", p->duration);
  return (size_t)(at - to);
}

uint64_t reference_write_text(const uint8_t *pattern, size_t pattern_len, uint8_t *text, size_t text_len) {
  struct pattern p;
  char written[WRITTEN];
  clear(text, text_len);
  uint64_t refused = read_pattern(pattern, pattern_len, &p);
  if (refused != 0) return refused;
  size_t length = text_of(&p, written);
  if (length > text_len) return refusal(12, 0);
  memcpy(text, written, length);
  return answer(0, length, 0, 0);
}
