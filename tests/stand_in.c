/* The library's calls by the bench's yardstick and, where it has none, by the reference: to try the tests themselves,
   and to hold the yardstick to the answers that it is timed for. */
#include "reference.h"
#include "spaldep.h"
#include "texts.h"
#include "yardstick.h"

uint64_t spaldep_check_pattern(const uint8_t *pattern, size_t pattern_len) {
  return reference_check_pattern(pattern, pattern_len);
}

uint64_t spaldep_check_block(const uint8_t *block, size_t block_len) { return reference_check_block(block, block_len); }

uint64_t spaldep_list_automaton(const uint8_t *pattern, size_t pattern_len, uint8_t *listing, size_t listing_len) {
  return reference_list_automaton(pattern, pattern_len, listing, listing_len);
}

uint64_t spaldep_read_text(const uint8_t *text, size_t text_len, uint8_t *pattern, size_t pattern_len) {
  return reference_read_text(text, text_len, pattern, pattern_len);
}

uint64_t spaldep_write_text(const uint8_t *pattern, size_t pattern_len, uint8_t *text, size_t text_len) {
  return reference_write_text(pattern, pattern_len, text, text_len);
}

uint64_t spaldep_forward(const uint8_t *pattern, size_t pattern_len, const uint8_t *block, size_t block_len,
                         uint32_t limit, uint8_t *work, size_t work_len, uint8_t *result, size_t result_len) {
  return yardstick_forward(pattern, pattern_len, block, block_len, limit, work, work_len, result, result_len);
}

uint64_t spaldep_start_by_start(const uint8_t *pattern, size_t pattern_len, const uint8_t *block, size_t block_len,
                                uint8_t *result, size_t result_len) {
  return yardstick_start_by_start(pattern, pattern_len, block, block_len, result, result_len);
}

uint64_t spaldep_make_index(const uint8_t *block, size_t block_len, uint8_t *index, size_t index_len) {
  return yardstick_make_index(block, block_len, index, index_len);
}

uint64_t spaldep_search(const uint8_t *pattern, size_t pattern_len, const uint8_t *index, size_t index_len,
                        const uint8_t *block, size_t block_len, uint32_t limit, uint8_t *work, size_t work_len,
                        uint8_t *result, size_t result_len) {
  return yardstick_search(pattern, pattern_len, index, index_len, block, block_len, limit, work, work_len, result,
                          result_len);
}

uint64_t spaldep_measure(const uint8_t *pattern, size_t pattern_len, const uint8_t *block, size_t block_len);

uint64_t spaldep_measure(const uint8_t *pattern, size_t pattern_len, const uint8_t *block, size_t block_len) {
  return reference_measure(pattern, pattern_len, block, block_len);
}
