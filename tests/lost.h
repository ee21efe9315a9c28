/*
 * Readings that a gap closed. A block of which a gap is made an event stands for one in which that entry was not lost:
 * a reading with mark 4 is reported of it all the same, and one with mark 3 as it was or with more bindings.
 */
#ifndef LOST_H
#define LOST_H

#include <stdbool.h>
#include <stddef.h>
#include <stdint.h>

#include "cases.h"

/* A line of a result: its numbers from the head on, and what they tell. */
struct line {
  const uint8_t *at;
  unsigned mark, bindings;
  size_t first, last; /* records */
};

/* The line whose head is the number `at` of a result. */
struct line line_at(const uint8_t *result, uint32_t at);

/* The gap that closed the line: the first from its last record on. False where no gap did. */
bool closing_gap(const struct test_case *c, const struct line *l, size_t *gap);

/* A line of a result of `used` numbers that a gap closed, by chance where there are several. False where none is. */
bool any_gap_line(const uint8_t *result, uint32_t used, uint64_t random, struct line *l);

/* Makes record `gap` of a block an event of its own time, and else like record `like`. */
void fill_gap(uint8_t *block, size_t gap, size_t like);

/* Whether a result of `used` numbers has a line with just these bindings; or one with these and more behind them. */
bool has_bindings(const uint8_t *result, uint32_t used, const struct line *l);
bool has_more(const uint8_t *result, uint32_t used, const struct line *l);

/* Counts the lines of a pass over the case that gaps closed, by the pattern and by how far the gap is. */
void count_gap_lines(const struct test_case *c, const uint8_t *result, uint64_t answer);

#endif
