/*
 * The two passes, the maker of indexes and the search in plain, careful C, to time the library against: the calls of
 * include/spaldep.h under other names, the same answers and the same bytes in lent memory (tests/run holds them to that
 * too). A pass decodes the records once a call; conditions that look at one event alone are settled once a record, and
 * what leaves a state is a few masks. Decoded records stand in static memory, so calls do not run side by side. The
 * maker, and the search where a block cannot match, go through the block's own bytes and decode nothing ahead.
 */
#ifndef YARDSTICK_H
#define YARDSTICK_H

#include <stddef.h>
#include <stdint.h>

uint64_t yardstick_forward(const uint8_t *pattern, size_t pattern_len, const uint8_t *block, size_t block_len,
                           uint32_t limit, uint8_t *work, size_t work_len, uint8_t *result, size_t result_len);
uint64_t yardstick_start_by_start(const uint8_t *pattern, size_t pattern_len, const uint8_t *block, size_t block_len,
                                  uint8_t *result, size_t result_len);
uint64_t yardstick_make_index(const uint8_t *block, size_t block_len, uint8_t *index, size_t index_len);
uint64_t yardstick_search(const uint8_t *pattern, size_t pattern_len, const uint8_t *index, size_t index_len,
                          const uint8_t *block, size_t block_len, uint32_t limit, uint8_t *work, size_t work_len,
                          uint8_t *result, size_t result_len);

#endif
