/*
 * compare [narrow] SEED COUNT   holds the library against the reference on COUNT random cases, after the rows of Rules
 *                               10.2, 12.2 and 12.3, the bytes of Rule 10.1, the bench, and its index, with every bit
 *                               and every length changed, each bit of an index, and the refusals on indexes in pairs
 * compare [narrow] case SEED    the one case with that seed, with its bytes
 *
 * Of each call: the answer, and every byte of the slices that it was lent. Of each case: both passes against each
 * other and, where the pattern asks no wave, against themselves on the same block with waves of 0; and the search, with
 * the block's own index and with others, against the forward pass. It prints how often each call gave each refusal, and
 * its last line is 'N passed, M failed'. A refusal that a call has and that no case met is a failure, so is each
 * further thing that it counts, and so is a call that does not end within its time. `narrow` has no wide cases
 * (cases.h), for a start-by-start pass that tries every reading.
 */
#define _DEFAULT_SOURCE
#include <inttypes.h>
#include <stdio.h>
#include <stdlib.h>
#include <string.h>
#include <unistd.h>

#include "calls.h"
#include "cases.h"
#include "cycles.h"
#include "index_bits.h"
#include "index_calls.h"
#include "index_counts.h"
#include "index_rows.h"
#include "indexes.h"
#include "operators.h"
#include "reference.h"
#include "refusals.h"
#include "rows.h"
#include "rules.h"
#include "spaldep.h"
#include "tally.h"
#include "waves.h"

/* ---- the header's numbers ---- */

#define SAME(header, reference) _Static_assert((int)(header) == (int)(reference), #header)

SAME(SPALDEP_ATTRIBUTE_CORE, CORE);
SAME(SPALDEP_ATTRIBUTE_TYPE, TYPE);
SAME(SPALDEP_ATTRIBUTE_CLASS, CLASS);
SAME(SPALDEP_ATTRIBUTE_SLOT, SLOT);
SAME(SPALDEP_ATTRIBUTE_AMOUNT, AMOUNT);
SAME(SPALDEP_ATTRIBUTE_WAVE, WAVE);
SAME(SPALDEP_ATTRIBUTE_WAVE + 1, ATTRIBUTES);
SAME(SPALDEP_OPERATOR_EQUAL, EQUAL);
SAME(SPALDEP_OPERATOR_LESS, LESS);
SAME(SPALDEP_OPERATOR_LESS_EQUAL, LESS_EQUAL);
SAME(SPALDEP_OPERATOR_GREATER, GREATER);
SAME(SPALDEP_OPERATOR_GREATER_EQUAL, GREATER_EQUAL);
SAME(SPALDEP_OPERATOR_NOT_EQUAL, NOT_EQUAL);
SAME(SPALDEP_OPERATOR_NOT_EQUAL + 1, OPERATORS);
SAME(SPALDEP_FORM_CONSTANT, WITH_CONSTANT);
SAME(SPALDEP_FORM_ATTRIBUTE, WITH_ATTRIBUTE);
SAME(SPALDEP_INDEX_BYTES, INDEX_BYTES);

/* ---- lent memory at its edges ---- */

static size_t any_listing_len(struct random *r, size_t steps) {
  switch (below(r, 7)) {
    case 0: return 8 * steps;
    case 1: return 8 * steps - (steps > 0);
    case 2: return 8 * (steps - (steps > 0));
    case 3: return 8 * steps + below(r, 41);
    case 4: return below(r, 18);
    case 5: return below(r, 8 * (unsigned)steps + 1);
    default: return 8 * SPALDEP_STEPS_MAX;
  }
}

static size_t any_result_len(struct random *r, size_t used) {
  switch (below(r, 16)) {
    case 0:
    case 1:
    case 2:
    case 3: return 2 * used;
    case 4:
    case 5:
    case 6: return 2 * (used - (used > 0));
    case 7: return 2 * used + (chance(r, 30) ? 1 : 2);
    case 8: return 2 * used - (used > 0);
    case 9: return SPALDEP_RESULT_BYTES_MAX;
    case 10: return SPALDEP_RESULT_BYTES_MAX + between(r, 1, 4);
    case 11:
    case 12: return 2 * below(r, (unsigned)used + 1);
    case 13: return below(r, 4);
    default: return 2 * below(r, (unsigned)used + 20);
  }
}

/* Working memory for the highest limit. */
enum { MOST_WORK = SPALDEP_WORK_BYTES(SPALDEP_LIMIT_MAX) };

static uint32_t any_limit(struct random *r, uint32_t peak) {
  switch (below(r, 10)) {
    case 0:
    case 1:
    case 2: return peak + (peak == 0);
    case 3:
    case 4: return peak - (peak > 1);
    case 5: return 1 + below(r, SPALDEP_LIMIT_MAX);
    case 6: return SPALDEP_LIMIT_MAX;
    case 7:
    case 8: return 1 + below(r, peak + 2);
    default: {
      static const uint32_t edges[] = {
          0, 1, SPALDEP_LIMIT_MAX - 1, SPALDEP_LIMIT_MAX + 1, SPALDEP_LIMIT_MAX + 2, 0x10001, 0x80000001, 0xffffffff};
      return edges[below(r, 8)];
    }
  }
}

static size_t any_work_len(struct random *r, uint32_t limit) {
  size_t need = SPALDEP_WORK_BYTES(limit <= SPALDEP_LIMIT_MAX ? limit : SPALDEP_LIMIT_MAX);
  switch (below(r, 24)) {
    case 0: return need - (need > 0);
    case 1: return below(r, (unsigned)need + 1);
    case 2: return need / 2;
    case 3:
    case 4: return need + below(r, 1000);
    case 5: return need + 1;
    default: return need;
  }
}

/* ---- one case ---- */

static bool with_wide = true;

static void count_input(uint64_t pattern_answer, uint64_t block_answer) {
  if (spaldep_code(pattern_answer) == 0) {
    tally.met[MET_MOST_VARIABLES] += (now.pattern[0] & 15) == 12;
    tally.met[MET_MOST_CONDITIONS] += now.pattern[1] == 32;
  }
  if (spaldep_code(block_answer) == 0) {
    tally.met[MET_MOST_RECORDS] += spaldep_used(block_answer) == SPALDEP_BLOCK_RECORDS;
    tally.met[MET_NO_RECORDS] += spaldep_used(block_answer) == 0;
  }
  count_waves(&now, pattern_answer, block_answer);
  count_operators(&now, pattern_answer, block_answer);
  count_cycles(&now, block_answer);
}

/* See tally.h. */
static void count_wide(void) {
  const struct merged *m = &now.merged;
  tally.too_many_groups += now.too_many_groups;
  tally.trial_too_long += now.trial_too_long;
  if (!now.wide) return;
  bool report = !m->too_long && m->numbers <= SPALDEP_RESULT_BYTES_MAX / 2;
  tally.wide++;
  tally.met[MET_WIDE_BEHIND] += report && m->behind >= WIDE_BEHIND;
  if (m->branches <= WIDE_BRANCHES) return;
  tally.met[MET_WIDE_TOO_LONG] += m->too_long;
  tally.met[MET_WIDE_BEFORE] += m->too_long && m->before > WIDE_BRANCHES;
  tally.met[MET_WIDE_ROOM] += !m->too_long && !report;
  tally.met[MET_WIDE_NEVER_FULL] += report && m->never_full > WIDE_BRANCHES;
  tally.met[MET_WIDE_JOINS] += m->joins;
  tally.met[MET_WIDE_WAVE] += asks_wave(&now);
  tally.met[MET_WIDE_NOT_EQUAL] += joins_not_equal(&now);
  tally.met[MET_WIDE_CYCLE] += shares_cycle(&now);
}

/* The numbers that a pass would write and the most readings live, found with every slice as long as it may be: the
   edges of the lent memory are chosen around them. Where the forward pass refuses at a record, the records before it
   count, so that a limit of just the peak meets that record. Where a wide case has no report that fits, the numbers are
   any. */
static void find_edges(struct random *r, size_t *used, uint32_t *peak) {
  static uint8_t work[MOST_WORK], result[SPALDEP_RESULT_BYTES_MAX];
  uint64_t forward = reference_forward(now.pattern, now.pattern_len, now.block, now.block_len, SPALDEP_LIMIT_MAX, work,
                                       MOST_WORK, result, sizeof result);
  if (spaldep_code(forward) == SPALDEP_REFUSED_BINDINGS || spaldep_code(forward) == SPALDEP_REFUSED_LIVE)
    forward = reference_forward(now.pattern, now.pattern_len, now.block, 16 * (size_t)spaldep_place(forward),
                                SPALDEP_LIMIT_MAX, work, MOST_WORK, result, sizeof result);
  *peak = spaldep_peak(forward);
  uint64_t starts = now.wide ? merged_start_by_start(&now.merged, result, sizeof result)
                             : reference_start_by_start(now.pattern, now.pattern_len, now.block, now.block_len, result,
                                                        sizeof result);
  if (now.wide && spaldep_code(starts) != 0)
    *used = below(r, SPALDEP_RESULT_BYTES_MAX / 2 + 1);
  else
    *used = spaldep_code(starts) == 0 ? spaldep_used(starts) : spaldep_used(forward);
}

/* The maker with a slice of an index's length and with another one. False where it refuses the block; what it leaves in
   the first slice stands for the block's own index then. */
static bool make_own_index(struct random *r, struct index *own) {
  struct index left;
  uint64_t answer = compare_make_index(SPALDEP_INDEX_BYTES, own);
  count_index(&now, answer, own);
  compare_make_index(any_other_length(r), &left);
  return spaldep_code(answer) == 0;
}

/* The search right after compare_passes, with some index other than the block's own; and against the reference's search
   where that is asked for. */
static void run_other_search(struct random *r, const struct index *own, bool by_reference) {
  struct index other;
  int kind = INDEX_OWN + 1 + (int)below(r, INDEX_KINDS - INDEX_OWN - 1);
  put_index(r, kind, &now, own, &other);
  compare_search_and_forward(kind, &other, false);
  if (by_reference) compare_search(&other, passed.limit, passed.work_len, passed.result_len);
}

static void run_case(uint64_t seed) {
  struct random r = {seed ^ 0x5bd1e995};
  struct index own;
  size_t used;
  uint32_t peak;
  begin_case(seed);
  make_case(seed, with_wide, &now);
  count_wide();
  uint64_t pattern = compare_check_pattern(), block = compare_check_block();
  count_input(pattern, block);
  uint64_t listing = compare_listing(8 * SPALDEP_STEPS_MAX);
  compare_listing(any_listing_len(&r, spaldep_used(listing)));
  compare_measure();
  bool made = make_own_index(&r, &own);
  find_edges(&r, &used, &peak);
  compare_passes(SPALDEP_LIMIT_MAX, MOST_WORK, SPALDEP_RESULT_BYTES_MAX);
  compare_search_and_forward(INDEX_OWN, &own, made);
  compare_without_waves(SPALDEP_LIMIT_MAX, MOST_WORK, SPALDEP_RESULT_BYTES_MAX);
  compare_filled();
  compare_cut();
  compare_by_rule(SPALDEP_LIMIT_MAX, MOST_WORK, SPALDEP_RESULT_BYTES_MAX);
  for (unsigned i = 0; i < (now.large ? 1 : 3); i++) {
    uint32_t limit = any_limit(&r, peak);
    size_t work_len = any_work_len(&r, limit), result_len = any_result_len(&r, used);
    compare_passes(limit, work_len, result_len);
    if (i == 0) compare_search_and_forward(INDEX_OWN, &own, made);
    run_other_search(&r, &own, i == 0 && !now.large && seed % 8 == 0);
    if (i == 0) compare_without_waves(limit, work_len, result_len);
    if (i == 0) compare_by_rule(limit, work_len, result_len);
    if (i == 0 && !now.wide && seed % 4 == 0) compare_merged(result_len);
  }
  end_case();
}

/* ---- every bit and every length of the bench ---- */

static void flip(uint8_t *bytes, size_t bit) { bytes[bit / 8] = (uint8_t)(bytes[bit / 8] ^ 0x80u >> bit % 8); }

/* The bench, to be changed in one place. */
static void begin_changed_bench(const char *what, size_t at) {
  static char shape[80];
  snprintf(shape, sizeof shape, "the bench with %s %zu", what, at);
  begin_case(0);
  now.shape = shape;
  memset(now.pattern, 0, sizeof now.pattern);
  memset(now.block, 0, 16 * 20);
  now.pattern_len = bench_pattern(now.pattern);
  now.block_len = bench_block(now.block);
}

/* The calls on indexes, on the bench and its index or on what they were changed to. */
static void run_changed_index(const char *what, size_t at) {
  struct index index;
  compare_make_index(strcmp(what, "maker's length") == 0 ? at : SPALDEP_INDEX_BYTES, &index);
  if (strcmp(what, "index bit") == 0) flip(index.bytes, at);
  if (strcmp(what, "index length") == 0) index.length = at;
  compare_search(&index, 16, SPALDEP_WORK_BYTES(16), 512);
}

static void run_bench_with_index(const char *what, size_t at) {
  begin_changed_bench(what, at);
  run_changed_index(what, at);
  end_case();
}

/* All calls on the bench, changed in one place: bit `at` of its pattern or of its block, or one of the lengths. */
static void run_changed_bench(const char *what, size_t at) {
  begin_changed_bench(what, at);
  if (strcmp(what, "pattern bit") == 0) flip(now.pattern, at);
  if (strcmp(what, "block bit") == 0) flip(now.block, at);
  if (strcmp(what, "pattern length") == 0) now.pattern_len = at;
  if (strcmp(what, "block length") == 0) now.block_len = at;
  compare_check_pattern();
  compare_check_block();
  compare_listing(8 * SPALDEP_STEPS_MAX);
  compare_measure();
  compare_passes(SPALDEP_LIMIT_MAX, MOST_WORK, SPALDEP_RESULT_BYTES_MAX);
  compare_without_waves(SPALDEP_LIMIT_MAX, MOST_WORK, SPALDEP_RESULT_BYTES_MAX);
  compare_filled();
  run_changed_index(what, at);
  end_case();
}

static void run_changed_benches(void) {
  uint64_t before = tally.failed;
  size_t pattern_len = bench_pattern(now.pattern), block_len = bench_block(now.block);
  for (size_t at = 0; at < 8 * pattern_len; at++) run_changed_bench("pattern bit", at);
  for (size_t at = 0; at < 8 * block_len; at++) run_changed_bench("block bit", at);
  for (size_t at = 0; at <= pattern_len + 16; at++) run_changed_bench("pattern length", at);
  for (size_t at = 0; at <= block_len + 16; at++) run_changed_bench("block length", at);
  for (size_t at = 0; at < 8 * INDEX_BYTES; at++) run_bench_with_index("index bit", at);
  for (size_t at = 0; at <= 2 * INDEX_BYTES; at++) run_bench_with_index("index length", at);
  for (size_t at = 0; at <= 2 * INDEX_BYTES; at++) run_bench_with_index("maker's length", at);
  printf("the bench with each bit and each length changed: %" PRIu64 " differ\n", tally.failed - before);
}

/* Two group variables, no conditions and 19 events: more readings and more numbers than the answer's fields hold. */
static void run_measure_stops(void) {
  static const uint8_t pattern[] = {0x12, 0, 0, 0, 0, 0, 0, 99, 0x18, 0x18};
  if (spaldep_measure == NULL) return;
  begin_case(0);
  now.shape = "measure stops";
  now.pattern_len = sizeof pattern;
  now.block_len = 16 * 19;
  memcpy(now.pattern, pattern, sizeof pattern);
  memset(now.block, 0, now.block_len);
  for (unsigned i = 0; i < 19; i++) now.block[16 * i + 6] = (uint8_t)i;
  if (compare_measure() != (uint64_t)0xffffffffff << 16) fail("does not stop at the largest number of its fields");
  end_case();
}

/* ---- the run ---- */

static void hex(const char *name, const uint8_t *bytes, size_t length) {
  printf("%s (%zu bytes)", name, length);
  for (size_t i = 0; i < length; i++) printf("%s%02x", i % 16 == 0 ? "\n  " : " ", bytes[i]);
  printf("\n");
}

static uint64_t number(const char *text) {
  char *end;
  uint64_t n = strtoull(text, &end, 0);
  if (*text == 0 || *end != 0) {
    fprintf(stderr, "compare: not a number: %s\n", text);
    exit(2);
  }
  return n;
}

static int run_one(uint64_t seed) {
  uint8_t index[INDEX_BYTES];
  run_case(seed);
  printf("shape %s\n", now.shape);
  hex("pattern", now.pattern, now.pattern_len);
  hex("block", now.block, now.block_len);
  reference_make_index(now.block, now.block_len, index, sizeof index);
  hex("its index", index, sizeof index);
  printf("%" PRIu64 " passed, %" PRIu64 " failed\n", tally.passed, tally.failed);
  return tally.failed == 0 ? 0 : 1;
}

static int run_all(uint64_t seed, uint64_t count) {
  struct random r = {seed};
  uint64_t calls = 0;
  memset(tally.calls, 0, sizeof tally.calls); /* what is to be met, the random cases must meet */
  memset(tally.codes, 0, sizeof tally.codes);
  memset(tally.met, 0, sizeof tally.met);
  memset(tally.not_equal, 0, sizeof tally.not_equal);
  memset(tally.otherwise, 0, sizeof tally.otherwise);
  printf("seed %" PRIu64 ", %" PRIu64 " cases\n", seed, count);
  fflush(stdout);
  for (uint64_t i = 0; i < count; i++) run_case(random_next(&r));
  alarm(0);
  for (int call = 0; call < CALLS; call++) calls += tally.calls[call];
  printf("%" PRIu64 " calls compared\n", calls);
  print_answers(spaldep_measure != NULL);
  demand_all_met(spaldep_measure != NULL, with_wide);
  printf("%" PRIu64 " passed, %" PRIu64 " failed\n", tally.passed, tally.failed);
  return tally.failed == 0 ? 0 : 1;
}

int main(int argc, char **argv) {
  calls_ready();
  index_calls_ready();
  if (argc == 4 && strcmp(argv[1], "narrow") == 0) {
    with_wide = false;
    case_command = "compare narrow case";
    argc--;
    argv++;
  }
  if (argc != 3) {
    fprintf(stderr, "usage: compare [narrow] SEED COUNT | compare [narrow] case SEED\n");
    return 2;
  }
  if (strcmp(argv[1], "case") == 0) return run_one(number(argv[2]));
  rows_run(&tally.passed, &tally.failed);
  index_rows_run(&tally.passed, &tally.failed);
  run_measure_stops();
  run_changed_benches();
  index_bits_run();
  refusals_run();
  return run_all(number(argv[1]), number(argv[2]));
}
