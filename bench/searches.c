/* The bench's tables of indexes and searches: see searches.h. */
#define _DEFAULT_SOURCE
#include "searches.h"

#include <stddef.h>
#include <stdint.h>
#include <stdio.h>
#include <string.h>

#include "passes.h"
#include "seconds.h"
#include "spaldep.h"
#include "times.h"
#include "workloads.h"
#include "yardstick.h"

enum { RECORDS = SPALDEP_BLOCK_RECORDS, BLOCK_BYTES = RECORDS * SPALDEP_RECORD_BYTES, CORES = 64, NO_CORE = CORES };

static uint8_t result[SPALDEP_RESULT_BYTES_MAX], other[SPALDEP_RESULT_BYTES_MAX];

/* ---- the index of a block ---- */

static uint64_t plain_make_index(const struct workload *w, uint8_t *to) {
  return yardstick_make_index(w->block, w->block_len, to, SPALDEP_INDEX_BYTES);
}

static uint64_t plain_search(const struct workload *w, uint8_t *to) {
  return yardstick_search(w->pattern, w->pattern_len, w->index, sizeof w->index, w->block, w->block_len, LIMIT, work,
                          sizeof work, to, SPALDEP_RESULT_BYTES_MAX);
}

static uint64_t short_search(const struct workload *w, uint8_t *to) {
  return spaldep_search(w->pattern, w->pattern_len, w->index, sizeof w->index, w->block, w->block_len, 1, work,
                        SPALDEP_WORK_BYTES(1), to, 0);
}

static uint64_t clearing(const struct workload *w, uint8_t *to) {
  (void)w;
  memset(work, 0, sizeof work);
  memset(to, 0, SPALDEP_RESULT_BYTES_MAX);
  return 0;
}

/* Takes the workload's index from the library; false where the yardstick makes another. */
static bool take_index(struct workload *w) {
  uint8_t plain[SPALDEP_INDEX_BYTES];
  uint64_t answer = library_make_index(w, w->index);
  return answer == plain_make_index(w, plain) && memcmp(w->index, plain, sizeof plain) == 0 &&
         spaldep_used(answer) == SPALDEP_INDEX_BYTES;
}

/* Whether all searches of the workload find that it cannot match. */
static bool in_vain(const struct workload *w) {
  memset(result, 0xff, sizeof result); /* what a search does not clear shows */
  return library_search(w, result) == 0 && short_search(w, other) == 0 && plain_search(w, other) == 0 &&
         memcmp(result, other, sizeof result) == 0;
}

/* What is timed of a block, and the places of its times. */
enum { LIBRARY, PLAIN, CHECK, PATTERN, SEARCH, ALL_LENT, CLEARING, TIMED };
static const pass timed[TIMED] = {[LIBRARY] = library_make_index, [PLAIN] = plain_make_index,
                                  [CHECK] = library_check_block,  [PATTERN] = library_check_pattern,
                                  [SEARCH] = short_search,        [ALL_LENT] = library_search,
                                  [CLEARING] = clearing};

static bool print_index(struct workload *w) {
  double least[TIMED];
  bool same = take_index(w);
  with_constant(w, 0, CORE, EQUAL, NO_CORE);
  if (!same || !in_vain(w)) {
    printf("%-24s FAILED: the library and the yardstick differ, or a search is not in vain\n", w->name);
    return false;
  }
  time_in_turn(TIMED, timed, w, least);
  printf("%-24s %9.2f %9.2f %7.2f", w->name, 1e6 * least[LIBRARY], 1e6 * least[PLAIN], least[LIBRARY] / least[PLAIN]);
  for (unsigned i = CHECK; i < TIMED; i++) printf(" %9.2f", 1e6 * least[i]);
  printf("\n");
  return true;
}

static void make_mixed(struct workload *w) {
  make_workload(0, BY_CLASS, w);
  w->name = "mixed at random";
  for (size_t i = 0; i < RECORDS; i++) {
    put_event(w, i, chance(CORES), class_types[chance(CLASSES)] + chance(3), chance(100), chance(100));
    if (chance(16) == 0) put_gap(w, i);
  }
}

bool print_indexes(void) {
  static struct workload w;
  bool all = true;
  printf("%-24s %9s %9s %7s %9s %9s %9s %9s %9s\n", "index of a block, us", "library", "plain C", "ratio", "check",
         "pattern", "search", "all lent", "clearing");
  for (unsigned i = 0; i < WORKLOADS; i++) {
    make_workload(i, BY_CLASS, &w);
    all = print_index(&w) && all;
  }
  make_mixed(&w);
  return print_index(&w) && all;
}

/* ---- many blocks ---- */

enum { BLOCKS = 1000, BLOCKS_A_MATCH = 20, SEARCH_ROUNDS = 5, BENCH_CORES = 2 };
enum lack { DRAWS, A_CORE, EVERY_CLASS, LACKS };

static const char *const lack_names[LACKS] = {"draws", "a core", "every class"};

static uint8_t blocks[BLOCKS][BLOCK_BYTES], indexes[BLOCKS][SPALDEP_INDEX_BYTES];

static bool can_match(size_t number) { return number % BLOCKS_A_MATCH == 0; }

/* A block as that of the bench pattern's workload; where it cannot match, without what it lacks. */
static void put_block(struct workload *w, enum lack lack, bool matches) {
  unsigned cores = lack == A_CORE && matches ? BENCH_CORES + 1 : BENCH_CORES;
  for (size_t i = 0; i < RECORDS; i++) {
    unsigned class = chance(10) < 8 ? chance(3) : 3 + chance(3);
    if (!matches && ((lack == DRAWS && class == 2) || (lack == EVERY_CLASS && class < 3))) class += 3;
    put_event(w, i, 1 + chance(cores), class_types[class], chance(100), chance(100));
    if (chance(64) == 0) put_gap(w, i);
  }
}

/* The pattern into `w`, and the blocks with their indexes; false where the library and the yardstick make others. */
static bool make_blocks(struct workload *w, enum lack lack) {
  bool same = true;
  make_workload(0, BY_CLASS, w);
  if (lack == A_CORE) with_constant(w, 0, CORE, EQUAL, BENCH_CORES + 1);
  for (size_t i = 0; i < BLOCKS; i++) {
    put_block(w, lack, can_match(i));
    same = take_index(w) && same;
    memcpy(blocks[i], w->block, BLOCK_BYTES);
    memcpy(indexes[i], w->index, SPALDEP_INDEX_BYTES);
  }
  return same;
}

/* A call on the block of a number. */
typedef uint64_t (*block_call)(const struct workload *w, size_t number, uint8_t *to);

static uint64_t forward_block(const struct workload *w, size_t number, uint8_t *to) {
  return spaldep_forward(w->pattern, w->pattern_len, blocks[number], BLOCK_BYTES, LIMIT, work, sizeof work, to,
                         SPALDEP_RESULT_BYTES_MAX);
}

static uint64_t search_block(const struct workload *w, size_t number, uint8_t *to) {
  return spaldep_search(w->pattern, w->pattern_len, indexes[number], SPALDEP_INDEX_BYTES, blocks[number], BLOCK_BYTES,
                        LIMIT, work, sizeof work, to, SPALDEP_RESULT_BYTES_MAX);
}

static uint64_t plain_search_block(const struct workload *w, size_t number, uint8_t *to) {
  return yardstick_search(w->pattern, w->pattern_len, indexes[number], SPALDEP_INDEX_BYTES, blocks[number], BLOCK_BYTES,
                          LIMIT, work, sizeof work, to, SPALDEP_RESULT_BYTES_MAX);
}

/* Whether a search reports of a block what the forward pass reported into `result`. */
static bool same_report(block_call search, const struct workload *w, size_t number, uint64_t forward) {
  uint64_t answer = search(w, number, other);
  return answer == (can_match(number) ? forward : 0) && memcmp(result, other, sizeof result) == 0;
}

/* Whether both searches report what the forward pass does, on each block, which has readings where it can match and
   none elsewhere; adds up the readings. */
static bool same_reports(const struct workload *w, unsigned *readings) {
  for (size_t i = 0; i < BLOCKS; i++) {
    uint64_t forward = forward_block(w, i, result);
    if (spaldep_code(forward) != 0 || (spaldep_readings(forward) != 0) != can_match(i)) return false;
    if (!same_report(search_block, w, i, forward) || !same_report(plain_search_block, w, i, forward)) return false;
    *readings += spaldep_readings(forward);
  }
  return true;
}

/* Takes the time over all blocks, in seconds, where it is the least so far. */
static void time_blocks(block_call run, const struct workload *w, double *least) {
  double from = seconds();
  for (size_t i = 0; i < BLOCKS; i++) run(w, i, result);
  double taken = seconds() - from;
  if (taken < *least) *least = taken;
}

static bool print_search(enum lack lack) {
  static struct workload w;
  double library = 1e9, plain = 1e9, forward = 1e9;
  unsigned readings = 0;
  if (!make_blocks(&w, lack) || !same_reports(&w, &readings)) {
    printf("%-24s FAILED: the library and the yardstick differ, or a search and the forward pass do\n",
           lack_names[lack]);
    return false;
  }
  for (unsigned i = 0; i < SEARCH_ROUNDS; i++) {
    time_blocks(search_block, &w, &library);
    time_blocks(plain_search_block, &w, &plain);
    time_blocks(forward_block, &w, &forward);
  }
  printf("%-24s %10u %10.1f %10.1f %7.2f %10.1f %10.3f\n", lack_names[lack], readings, 1e3 * library, 1e3 * plain,
         library / plain, 1e3 * forward, library / forward);
  return true;
}

bool print_searches(void) {
  bool all = true;
  printf("%d blocks, ms; %d can match\n", BLOCKS, BLOCKS / BLOCKS_A_MATCH);
  printf("%-24s %10s %10s %10s %7s %10s %10s\n", "the others lack", "readings", "search", "plain C", "ratio", "forward",
         "of forward");
  for (enum lack lack = DRAWS; lack < LACKS; lack++) all = print_search(lack) && all;
  return all;
}
