/* Damage to a case's bytes: see cases.h. */
#include "cases.h"
#include "spaldep.h"

static void flip_bit(struct random *r, uint8_t *bytes, size_t length) {
  if (length == 0) return;
  size_t bit = random_next(r) % (8 * length);
  bytes[bit / 8] = (uint8_t)(bytes[bit / 8] ^ 0x80u >> bit % 8);
}

static void damage_pattern_length(struct random *r, struct test_case *c) {
  switch (below(r, 4)) {
    case 0: c->pattern_len = below(r, 9); break;
    case 1: c->pattern_len -= 1; break;
    case 2: c->pattern_len += PICK(r, 1, 8, 9, 100); break;
    default: c->pattern_len = below(r, (unsigned)c->pattern_len + 1); break;
  }
}

static void damage_header(struct random *r, struct test_case *c) {
  switch (below(r, 6)) {
    case 0: set_field(c->pattern, 0, 4, PICK(r, 0, 2, 3, 15)); break;
    case 1: set_field(c->pattern, 4, 4, PICK(r, 0, 13, 14, 15)); break;
    case 2: set_field(c->pattern, 8, 8, PICK(r, 33, 34, 64, 255)); break;
    case 3: set_field(c->pattern, 16, 8, 1 + below(r, 255)); break;
    case 4: set_field(c->pattern, 4, 4, below(r, 16)); break;
    default: set_field(c->pattern, 8, 8, below(r, 40)); break;
  }
}

/* 7 to 12 variables without conditions, in sets of one size: 7 in a set are too many, and so are 9 sets. */
static void many_variables(struct random *r, struct test_case *c) {
  unsigned n = between(r, 7, 12), size = PICK(r, 1, 2, 6, 7, 12);
  set_field(c->pattern, 4, 12, n << 8);
  for (unsigned v = 0; v < n; v++) c->pattern[8 + v] = (uint8_t)((1 + v / size) << 4 | below(r, 2) << 3);
  c->pattern_len = 8 + n;
}

static void damage_variable(struct random *r, struct test_case *c) {
  unsigned n = c->pattern[0] & 15;
  if (n == 0) return;
  uint8_t *byte = c->pattern + 8 + below(r, n);
  switch (below(r, 5)) {
    case 0: set_field(c->pattern + 8, 0, 4, PICK(r, 0, 2)); break;
    case 1: set_field(byte, 5, 3, 1 + below(r, 7)); break;
    case 2: set_field(byte, 0, 4, below(r, 16)); break;
    case 3: set_field(byte, 0, 4, (uint64_t)(*byte >> 4) + PICK(r, 1, 2, 15)); break;
    default: many_variables(r, c); break;
  }
}

/* The condition that the core of variable 0 is a second attribute. */
static void put_second(uint8_t *at, unsigned second_variable, unsigned second_attribute) {
  put_condition(at, 0, SPALDEP_ATTRIBUTE_CORE, SPALDEP_OPERATOR_EQUAL, SPALDEP_FORM_ATTRIBUTE, second_variable,
                second_attribute, 0);
}

/* An attribute that becomes wave, or an operator that becomes !=, is no damage: what the pattern then asks follows from
   the rules. */
static void damage_condition(struct random *r, struct test_case *c) {
  unsigned n = c->pattern[0] & 15, conditions = c->pattern[1];
  if (conditions == 0 || 8 + n + 8 * conditions > c->pattern_len) return;
  uint8_t *at = c->pattern + 8 + n + 8 * below(r, conditions);
  switch (below(r, 15)) {
    case 0: set_field(at, 0, 4, chance(r, 50) ? n : between(r, n, 15)); break;
    case 1:
    case 2:
    case 3: set_field(at, 4, 3, between(r, SPALDEP_ATTRIBUTE_WAVE, 7)); break;
    case 4:
    case 5:
    case 6:
    case 7: set_field(at, 7, 3, PICK(r, SPALDEP_OPERATOR_NOT_EQUAL, 6, 6, 7, 7)); break;
    case 8: set_field(at, 10, 1, at[1] >> 5 & 1 ? SPALDEP_FORM_CONSTANT : SPALDEP_FORM_ATTRIBUTE); break;
    case 9: put_second(at, chance(r, 50) ? n : between(r, n, 15), SPALDEP_ATTRIBUTE_CORE); break;
    case 10:
    case 11:
    case 12: put_second(at, 0, between(r, SPALDEP_ATTRIBUTE_WAVE, 7)); break;
    case 13: set_field(at, 18 + below(r, 14), 1, 1); break;
    default: set_field(at, 32 + below(r, 32), 1, 1); break;
  }
}

void damage_pattern(struct random *r, struct test_case *c) {
  unsigned times = PICK(r, 1, 1, 1, 2, 3);
  for (unsigned i = 0; i < times && c->pattern_len >= 9; i++) switch (below(r, 12)) {
      case 0:
      case 1: damage_header(r, c); break;
      case 2:
      case 3:
      case 4: damage_variable(r, c); break;
      case 5:
      case 6:
      case 7:
      case 8: damage_condition(r, c); break;
      case 9: flip_bit(r, c->pattern, c->pattern_len); break;
      default: damage_pattern_length(r, c); break;
    }
}

/* A gap that is in order but for its last byte. */
static void put_gap_with_wave(struct random *r, uint8_t *at) {
  set_field(at, 0, 16, 0x4000);
  set_field(at, 56, 32, 1 + below(r, 3));
  set_field(at, 88, 32, 0);
  set_field(at, 120, 8, PICK(r, 1, 128, 255, 1 + below(r, 255)));
}

static void put_gap_in_order(uint8_t *at) {
  set_field(at, 0, 16, 0x4000);
  set_field(at, 56, 32, 1);
  set_field(at, 88, 40, 0);
}

/* Gives a record the time of the one before, and makes one of the two a gap, or both, or neither: with neither a gap
   that is no damage. */
static void put_in_cycle(struct random *r, struct test_case *c, size_t record) {
  uint8_t *at = c->block + 16 * record;
  unsigned gaps = below(r, 4);
  if (record == 0) return;
  set_field(at, 16, 40, time_of(c, record - 1));
  if (gaps & 1) put_gap_in_order(at);
  if (gaps & 2) put_gap_in_order(at - 16);
}

/* Another last byte is damage to a gap, and none to an event. */
static void damage_record(struct random *r, struct test_case *c, size_t record) {
  uint8_t *at = c->block + 16 * record;
  switch (below(r, 15)) {
    case 0: set_field(at, 0, 2, between(r, 2, 3)); break;
    case 1:
      set_field(at, 0, 2, between(r, 2, 3));
      set_field(at, 120, 8, PICK(r, 0, 1, 255));
      break;
    case 2:
    case 3: set_field(at, 120, 8, PICK(r, 0, 1, 128, 255, 1 + below(r, 255))); break;
    case 4:
    case 5: put_gap_with_wave(r, at); break;
    case 6: set_field(at, 0, 2, 1); break;
    case 7: set_field(at, 0, 16, 0x4000 | 1u << below(r, 14)); break;
    case 8:
      set_field(at, 0, 16, 0x4000);
      set_field(at, 56, 32, below(r, 2));
      break;
    case 9: set_field(at, 88 + below(r, 32), 1, 1); break;
    case 10:
    case 11: put_in_cycle(r, c, record); break;
    case 12:
      if (record > 0) set_field(at, 16, 40, time_of(c, record - 1) - 1);
      break;
    case 13: set_field(at, 16, 40, PICK(r, 0, 1)); break;
    default: flip_bit(r, at, 16); break;
  }
}

void damage_block(struct random *r, struct test_case *c) {
  unsigned times = PICK(r, 1, 1, 2, 3);
  if (c->block_len == 0 || chance(r, 15)) {
    c->block_len += between(r, 1, 15);
    return;
  }
  size_t record = below(r, (unsigned)(c->block_len / 16));
  for (unsigned i = 0; i < times; i++) {
    damage_record(r, c, record);
    if (chance(r, 50)) record = below(r, (unsigned)(c->block_len / 16));
  }
}
