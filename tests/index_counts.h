/* What a case has to do with indexes, by what the rules say of its bytes. */
#ifndef INDEX_COUNTS_H
#define INDEX_COUNTS_H

#include <stdbool.h>
#include <stdint.h>

#include "cases.h"
#include "index_cases.h"

/* Counts what a block is to the maker, which answered so and left this. */
void count_index(const struct test_case *c, uint64_t answer, const struct index *left);

/* Counts a search by its answer and by that of the forward pass with the same arguments. */
void count_search(const struct test_case *c, const struct index *index, bool own, uint64_t search, uint64_t forward);

#endif
