/* What a case has to do with events of one cycle (Rule 1.5), as the tally counts it. */
#ifndef CYCLES_H
#define CYCLES_H

#include <stdbool.h>
#include <stddef.h>
#include <stdint.h>

#include "cases.h"

/* Counts a block by its cycles, or by what its times are refused for. */
void count_cycles(const struct test_case *c, uint64_t block_answer);

/* Counts the lines of a pass over the case by the cycles of their events. */
void count_cycle_lines(const struct test_case *c, const uint8_t *result, uint64_t answer);

/* Whether two events of an accepted block share a cycle. */
bool shares_cycle(const struct test_case *c);

/* Where a block that a pass accepted can be cut (the manual says how), by chance, and often inside a cycle: the second
   part begins at `from`, and the first ends before `to`. False where there are no two records. */
bool any_cut(const struct test_case *c, uint64_t random, size_t *from, size_t *to);

/* Whether two results have the same lines, so many numbers of them, where the second's records are counted from
   `from`. */
bool same_lines(const uint8_t *result, const uint8_t *part, uint32_t used, size_t from);

#endif
