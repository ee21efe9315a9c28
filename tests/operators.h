/* What a case has to do with the operator !=, by what the rules say of its bytes. */
#ifndef OPERATORS_H
#define OPERATORS_H

#include <stdbool.h>
#include <stdint.h>

#include "cases.h"

/* Whether the pattern is accepted and has a condition with !=; or one that is between two variables. */
bool asks_not_equal(const struct test_case *c);
bool joins_not_equal(const struct test_case *c);

/* Counts what pattern and block have to do with it, given the answers of their checks. */
void count_operators(const struct test_case *c, uint64_t pattern_answer, uint64_t block_answer);

#endif
