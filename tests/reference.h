/*
 * The rules of docs/RULES.md in plain C, to hold the library against. The calls are those of include/spaldep.h under
 * other names: the same arguments, the same answers, the same bytes in lent memory. It allocates, it is slow, and it
 * uses nothing of the library.
 *
 * What is compared here was written from the rules alone, without looking at the library's code: the reference, the
 * rows of rows.c, and the models (tests/..._model.py) that make what the test programs must write. Where library and
 * reference differ, the rules decide.
 */
#ifndef REFERENCE_H
#define REFERENCE_H

#include <stddef.h>
#include <stdint.h>

uint64_t reference_check_pattern(const uint8_t *pattern, size_t pattern_len);
uint64_t reference_check_block(const uint8_t *block, size_t block_len);
uint64_t reference_list_automaton(const uint8_t *pattern, size_t pattern_len, uint8_t *listing, size_t listing_len);
uint64_t reference_forward(const uint8_t *pattern, size_t pattern_len, const uint8_t *block, size_t block_len,
                           uint32_t limit, uint8_t *work, size_t work_len, uint8_t *result, size_t result_len);
/* This one tries every reading, and so does measure: only for cases that have few. merged.h has the others. */
uint64_t reference_start_by_start(const uint8_t *pattern, size_t pattern_len, const uint8_t *block, size_t block_len,
                                  uint8_t *result, size_t result_len);
uint64_t reference_measure(const uint8_t *pattern, size_t pattern_len, const uint8_t *block, size_t block_len);
uint64_t reference_make_index(const uint8_t *block, size_t block_len, uint8_t *index, size_t index_len);
uint64_t reference_search(const uint8_t *pattern, size_t pattern_len, const uint8_t *index, size_t index_len,
                          const uint8_t *block, size_t block_len, uint32_t limit, uint8_t *work, size_t work_len,
                          uint8_t *result, size_t result_len);

/*
 * The forward pass once more, by no pass at all: tries every list of bindings and asks of each whether it is a
 * partial reading, live and reported, by Rules 5.1 to 5.9. Only for blocks for which reference_by_rule_lists is small:
 * in those no reading has 33 bindings, so 9 is not looked for.
 */
uint64_t reference_by_rule(const uint8_t *pattern, size_t pattern_len, const uint8_t *block, size_t block_len,
                           uint32_t limit, uint8_t *work, size_t work_len, uint8_t *result, size_t result_len);

/* How many lists of bindings reference_by_rule would try, or 1,000,000 where it is that many or more; 0 where
   pattern or block is refused. */
uint64_t reference_by_rule_lists(const uint8_t *pattern, size_t pattern_len, const uint8_t *block, size_t block_len);

/* How many tests of a record against a reading the start-by-start pass above makes, or `most` where it is that many or
   more; 0 where pattern or block is refused. It says which cases are too large for that. */
uint64_t reference_effort(const uint8_t *pattern, size_t pattern_len, const uint8_t *block, size_t block_len,
                          uint64_t most);

#endif
