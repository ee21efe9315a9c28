/* What a case has to do with waves, by what the rules say of its bytes. */
#ifndef WAVES_H
#define WAVES_H

#include <stdbool.h>
#include <stddef.h>
#include <stdint.h>

#include "cases.h"

/* Whether the pattern is accepted and has a condition on wave, on either side; or accepted and has none. */
bool asks_wave(const struct test_case *c);
bool asks_no_wave(const struct test_case *c);

/* Whether some event of the block, accepted or not, has a wave other than 0. */
bool has_wave(const struct test_case *c);

/* Sets the waves of all events of a block to 0. */
void clear_waves(uint8_t *block, size_t block_len);

/* Counts what pattern and block have to do with waves, given the answers of their checks. */
void count_waves(const struct test_case *c, uint64_t pattern_answer, uint64_t block_answer);

#endif
