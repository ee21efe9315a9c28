/* The maker of indexes and the search beside the reference's: see index_calls.h. */
#include "index_calls.h"

#include <string.h>

#include "calls.h"
#include "index_counts.h"
#include "indexes.h"
#include "reference.h"
#include "tally.h"

static struct lent lent_index;
static const uint8_t zeros[RESULT_ROOM];

void index_calls_ready(void) { lent_make(&lent_index, INDEX_ROOM); }

uint64_t compare_make_index(size_t index_len, struct index *left) {
  uint8_t reference_index[INDEX_ROOM];
  lend_input(CALL_INDEX);
  lent_out(&lent_index, NULL, filled(), index_len);
  memset(reference_index, 0x5a, index_len);
  uint64_t reference = reference_make_index(now.block, now.block_len, reference_index, index_len);
  uint64_t library = spaldep_make_index(lent_block.bytes, now.block_len, lent_index.bytes, index_len);
  same_answer(CALL_INDEX, library, reference);
  same_bytes("leaves another index", &lent_index, reference_index);
  *left = (struct index){.length = index_len};
  memcpy(left->bytes, lent_index.bytes, index_len);
  return library;
}

static uint64_t library_search(const char *name, const struct index *index, uint32_t limit, size_t work_len,
                               size_t result_len) {
  lend_input(CALL_SEARCH);
  lent_out(&lent_index, index->bytes, 0, index->length);
  lend_output(work_len, result_len);
  now_call = name;
  return spaldep_search(lent_pattern.bytes, now.pattern_len, lent_index.bytes, index->length, lent_block.bytes,
                        now.block_len, limit, lent_work.bytes, work_len, lent_result.bytes, result_len);
}

static void same_search(const struct index *index, uint64_t library, uint64_t reference, const uint8_t *result) {
  same_answer(CALL_SEARCH, library, reference);
  same_bytes("changes the index", &lent_index, index->bytes);
  same_bytes("leaves another result", &lent_result, result);
  same_bytes("leaves other working memory", &lent_work, zeros);
}

uint64_t compare_search(const struct index *index, uint32_t limit, size_t work_len, size_t result_len) {
  static uint8_t work[WORK_ROOM], result[RESULT_ROOM];
  memset(work, 0x5a, work_len);
  memset(result, 0x5a, result_len);
  uint64_t reference = reference_search(now.pattern, now.pattern_len, index->bytes, index->length, now.block,
                                        now.block_len, limit, work, work_len, result, result_len);
  uint64_t library = library_search(call_names[CALL_SEARCH], index, limit, work_len, result_len);
  same_search(index, library, reference, result);
  if (memcmp(work, zeros, work_len) != 0) fail("of the reference leaves something in working memory");
  return library;
}

/* With the block's own index the search reports what the forward pass reports, and where it answers otherwise, it
   succeeds with nothing. */
static void judge_by_forward(uint64_t search) {
  uint64_t forward = passed.forward;
  bool same_result = memcmp(lent_result.bytes, passed.forward_result, passed.result_len) == 0;
  bool nothing = search == 0 && memcmp(lent_result.bytes, zeros, passed.result_len) == 0;
  if (spaldep_code(forward) == 0 && (search >> 16 != forward >> 16 || !same_result))
    fail_answers(search, "or reports something else, where the forward pass accepts with", forward);
  if (search != forward && !nothing) fail_answers(search, "or has a result, where the forward pass answers", forward);
  if (search == forward && !same_result) fail("reports something else than the forward pass");
}

/* What the search answers where the forward pass answers so: Rule 8.20. */
static uint64_t answer_beside(uint64_t forward, const struct index *index) {
  struct pattern p;
  unsigned code = spaldep_code(forward);
  if (read_pattern(now.pattern, now.pattern_len, &p) != 0) return forward;
  if (!index_in_order(index->bytes, index->length)) return refusal(SPALDEP_REFUSED_INDEX, 0);
  if (code >= SPALDEP_REFUSED_BLOCK_LENGTH && code <= SPALDEP_REFUSED_LIMIT_OR_MEMORY) return forward;
  return cannot_match(&p, index->bytes) ? 0 : forward;
}

void compare_search_and_forward(int kind, const struct index *index, bool own) {
  uint64_t reference = answer_beside(passed.forward, index);
  uint64_t library = library_search(search_names[kind], index, passed.limit, passed.work_len, passed.result_len);
  same_search(index, library, reference, reference == passed.forward ? passed.forward_result : zeros);
  if (own) judge_by_forward(library);
  count_search(&now, index, own, library, passed.forward);
}
