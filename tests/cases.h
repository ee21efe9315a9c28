/*
 * Random cases: a pattern and a block that go together, as their bytes, some of them damaged. A case is fixed by its
 * seed. Most have few readings: a pass that tries them all has a bounded number of tests to make. The others are wide:
 * their readings can be too many for that by any measure, the reference answers by merged readings (merged.h), and the
 * pass ends only because it stops where nothing that it could find changes its answer. The block of a case that is
 * neither is cut until it is one of both; the answers are those of the bytes as they then stand.
 */
#ifndef CASES_H
#define CASES_H

#include <stdbool.h>
#include <stddef.h>
#include <stdint.h>

#include "chance.h"
#include "merged.h"

enum { PATTERN_ROOM = 1024, BLOCK_ROOM = 4098 * 16 };

struct test_case {
  const char *shape;
  bool large;
  bool wide;            /* merged then has the readings */
  bool too_many_groups; /* cut, because its merged readings are in too many groups, or their values too many */
  bool trial_too_long;  /* cut, because of wide_trial_ends */
  struct merged merged;
  size_t pattern_len, block_len;
  uint8_t pattern[PATTERN_ROOM];
  uint8_t block[BLOCK_ROOM];
};

/* Sets the field of `width` bits that begins `from` bits into the bytes, most significant bit first. */
void set_field(uint8_t *bytes, size_t from, size_t width, uint64_t value);

void put_condition(uint8_t *at, unsigned variable, unsigned attribute, unsigned operator, unsigned form,
                   unsigned second_variable, unsigned second_attribute, uint32_t constant);
/* The condition that an attribute is a constant. */
void put_is(uint8_t *at, unsigned variable, unsigned attribute, uint32_t constant);
uint64_t time_of(const struct test_case *c, size_t record);

/* Break a rule or two, or none by chance. The bytes behind a slice that grows are 0. */
void damage_pattern(struct random *r, struct test_case *c);
void damage_block(struct random *r, struct test_case *c);

/* Where no wide cases are asked for, a case that would be one is cut. */
void make_case(uint64_t seed, bool wide, struct test_case *out);

#endif
