/* The maker of indexes and the search beside the reference's, on the case at hand: see calls.h. */
#ifndef INDEX_CALLS_H
#define INDEX_CALLS_H

#include <stdbool.h>
#include <stddef.h>
#include <stdint.h>

#include "index_cases.h"

/* Once, after calls_ready. */
void index_calls_ready(void);

/* The maker with a slice of that length, and what it left there. Gives the library's answer. */
uint64_t compare_make_index(size_t index_len, struct index *left);

/* The search with an index. Gives the library's answer. */
uint64_t compare_search(const struct index *index, uint32_t limit, size_t work_len, size_t result_len);

/* The same right after compare_passes and with its arguments. In the place of the reference's search it takes the
   library's forward pass, which was just held against the reference's: that saves time. `own` says that the index is
   the block's own: then the search is also judged by the answers of the library alone. It is counted too. */
void compare_search_and_forward(int kind, const struct index *index, bool own);

#endif
