/* Damage to a pattern for the writer of texts: see text_patterns.h. */
#include "text_patterns.h"

#include "text_tally.h"

/* n and c stay what they are, so that the fields behind the header do too. */
static void break_header(struct random *r, uint8_t *pattern) {
  if (chance(r, 50))
    pattern[0] = (uint8_t)(PICK(r, 0, 2, 3, 9, 15) << 4 | (pattern[0] & 15));
  else
    pattern[2] = (uint8_t)between(r, 1, 255);
}

/* n or c themselves: nothing behind the header can then be judged. */
static void break_counts(struct random *r, uint8_t *pattern) {
  if (chance(r, 50))
    pattern[0] = (uint8_t)(0x10 | PICK(r, 0, 13, 14, 15));
  else
    pattern[1] = (uint8_t)PICK(r, 33, 34, 64, 128, 255);
}

static void break_length(struct random *r, size_t *pattern_len) {
  size_t most = *pattern_len - 8;
  if (chance(r, 50))
    *pattern_len += PICK(r, 1, 2, 7, 8, 9, 16);
  else
    *pattern_len -= chance(r, 50) ? 1 : 1 + below(r, (unsigned)most);
}

static void break_variable(struct random *r, const struct making *m, uint8_t *pattern) {
  unsigned v = below(r, m->variables);
  uint8_t *byte = pattern + 8 + v;
  if (chance(r, 60))
    *byte = (uint8_t)(*byte | between(r, 1, 7));
  else if (v == 0)
    *byte = (uint8_t)(PICK(r, 0, 2, 9) << 4);
  else
    *byte = (uint8_t)((chance(r, 50) ? (m->set[v - 1] + 2) % 16 : m->set[v - 1] - 1) << 4 | (*byte & 8));
}

static void break_condition(struct random *r, const struct making *m, uint8_t *pattern) {
  unsigned i = below(r, m->conditions);
  uint8_t *at = pattern + 8 + m->variables + 8 * i;
  switch (below(r, 5)) {
    case 0: at[0] = (uint8_t)((at[0] & 0xf1) | PICK(r, 6, 7) << 1); break;                /* attribute */
    case 1: at[0] |= 1, at[1] = (uint8_t)((at[1] & 0x3f) | PICK(r, 2, 3) << 6); break;    /* operator 6 or 7 */
    case 2: at[0] = (uint8_t)((at[0] & 0x0f) | between(r, m->variables, 15) << 4); break; /* variable */
    case 3: at[PICK(r, 2, 3)] |= (uint8_t)(1u << below(r, 6)); break;                     /* zero bits */
    default:
      if (m->condition[i].form == WITH_CONSTANT)
        at[1] |= 2; /* second variable */
      else
        at[7] |= 1; /* constant */
  }
}

unsigned break_pattern(struct random *r, const struct making *m, uint8_t *pattern, size_t *pattern_len) {
  unsigned place, faults = has_bad_set(m, &place) ? 1u << WRITE_VARIABLE : 0, percent = PICK(r, 20, 50, 80);
  if (chance(r, 10)) {
    *pattern_len = below(r, 8);
    return 1u << WRITE_SHORT;
  }
  if (chance(r, 10)) {
    break_counts(r, pattern);
    return 1u << WRITE_HEADER;
  }
  if (m->conditions > 0 && chance(r, percent)) {
    break_condition(r, m, pattern);
    faults |= 1u << WRITE_CONDITION;
  }
  if (chance(r, percent)) {
    break_variable(r, m, pattern);
    faults |= 1u << WRITE_VARIABLE;
  }
  if (chance(r, percent)) {
    break_length(r, pattern_len);
    faults |= 1u << WRITE_LENGTH;
  }
  if (chance(r, percent)) {
    break_header(r, pattern);
    faults |= 1u << WRITE_HEADER;
  }
  return faults;
}
