/* Each call of the library beside the reference's: see calls.h. */
#define _DEFAULT_SOURCE
#include "calls.h"

#include <inttypes.h>
#include <signal.h>
#include <stdio.h>
#include <string.h>
#include <unistd.h>

#include "cycles.h"
#include "lost.h"
#include "operators.h"
#include "reference.h"
#include "rules.h"
#include "tally.h"
#include "waves.h"

enum { LISTING_ROOM = 8 * 900, CALL_SECONDS = 60 };

/* ---- failures ---- */

struct test_case now;
const char *case_command = "compare case";
static uint64_t now_seed;
const char *now_call = "none";
static bool now_failed;

void fail(const char *what) {
  now_failed = true;
  if (tally.failed < 10)
    printf("FAILED: %s %s; %s 0x%016" PRIx64 " (%s)\n", now_call, what, case_command, now_seed, now.shape);
}

void fail_answers(uint64_t answer, const char *where, uint64_t other) {
  char text[160];
  snprintf(text, sizeof text, "answers 0x%016" PRIx64 " %s 0x%016" PRIx64, answer, where, other);
  fail(text);
}

/* A crash or a call that does not end: say where, and end. */
static void stopped(int sig) {
  if (sig == SIGALRM)
    printf("FAILED: %s did not end in %d seconds; %s 0x%016" PRIx64 "\n", now_call, CALL_SECONDS, case_command,
           now_seed);
  else
    printf("FAILED: %s ended by signal %d; %s 0x%016" PRIx64 "\n", now_call, sig, case_command, now_seed);
  printf("%" PRIu64 " passed, %" PRIu64 " failed\n", tally.passed, tally.failed + 1);
  fflush(stdout);
  _exit(1);
}

void begin_case(uint64_t seed) {
  now_seed = seed;
  now_failed = false;
  now_call = "making the case";
  now.wide = false;
  alarm(CALL_SECONDS);
}

void end_case(void) {
  if (now_failed)
    tally.failed++;
  else
    tally.passed++;
}

/* ---- calls ---- */

struct lent lent_pattern, lent_block, lent_work, lent_result;
static struct lent lent_listing;
static uint8_t reference_result[RESULT_ROOM], reference_work[WORK_ROOM], reference_listing[LISTING_ROOM];

struct passed passed;

uint8_t filled(void) { return (uint8_t)(now_seed >> 8 | 1); }

void lend_input(int call) {
  now_call = call_names[call];
  lent_out(&lent_pattern, now.pattern, 0, now.pattern_len);
  lent_out(&lent_block, now.block, 0, now.block_len);
  alarm(CALL_SECONDS);
}

void lend_output(size_t work_len, size_t result_len) {
  lent_out(&lent_work, NULL, filled(), work_len);
  lent_out(&lent_result, NULL, filled(), result_len);
}

void same_bytes(const char *what, const struct lent *library, const uint8_t *reference) {
  if (!lent_whole(library)) fail("writes in front of a slice");
  if (memcmp(library->bytes, reference, library->length) != 0) fail(what);
}

void same_answer(int call, uint64_t library, uint64_t reference) {
  tally.calls[call]++;
  tally.codes[call][library >> 56]++;
  if (library != reference) fail_answers(library, "where the reference answers", reference);
  same_bytes("changes the pattern", &lent_pattern, now.pattern);
  same_bytes("changes the block", &lent_block, now.block);
}

uint64_t compare_check_pattern(void) {
  lend_input(CALL_PATTERN);
  uint64_t reference = reference_check_pattern(now.pattern, now.pattern_len);
  same_answer(CALL_PATTERN, spaldep_check_pattern(lent_pattern.bytes, now.pattern_len), reference);
  return reference;
}

uint64_t compare_check_block(void) {
  lend_input(CALL_BLOCK);
  uint64_t reference = reference_check_block(now.block, now.block_len);
  same_answer(CALL_BLOCK, spaldep_check_block(lent_block.bytes, now.block_len), reference);
  return reference;
}

uint64_t compare_listing(size_t listing_len) {
  lend_input(CALL_LISTING);
  lent_out(&lent_listing, NULL, filled(), listing_len);
  memset(reference_listing, 0x5a, listing_len);
  uint64_t reference = reference_list_automaton(now.pattern, now.pattern_len, reference_listing, listing_len);
  uint64_t library = spaldep_list_automaton(lent_pattern.bytes, now.pattern_len, lent_listing.bytes, listing_len);
  same_answer(CALL_LISTING, library, reference);
  same_bytes("leaves another listing", &lent_listing, reference_listing);
  if (spaldep_code(library) == 0 && spaldep_used(library) == listing_len / 8) tally.met[MET_LISTING_FULL]++;
  return reference;
}

static void count_report(const uint8_t *result, uint64_t answer, size_t result_len) {
  bool marks[16] = {false}, long_one = false;
  uint32_t used = spaldep_used(answer);
  tally.met[MET_LONGEST_RESULT_SHORT] +=
      spaldep_code(answer) == SPALDEP_REFUSED_RESULT_ROOM && result_len == SPALDEP_RESULT_BYTES_MAX;
  if (spaldep_code(answer) != 0) return;
  for (uint32_t at = 0; at < used; at += 1 + spaldep_bindings(spaldep_number(result, at))) {
    marks[spaldep_mark(spaldep_number(result, at))] = true;
    long_one = long_one || spaldep_bindings(spaldep_number(result, at)) == SPALDEP_BINDINGS_MAX;
  }
  tally.met[MET_MARK_WINDOW] += marks[1];
  tally.met[MET_MARK_END] += marks[2];
  count_gap_lines(&now, result, answer);
  count_cycle_lines(&now, result, answer);
  tally.met[MET_MOST_BINDINGS] += long_one;
  tally.met[MET_RESULT_FULL] += used > 0 && used == result_len / 2;
}

static uint64_t compare_forward(uint32_t limit, size_t work_len, size_t result_len) {
  lend_input(CALL_FORWARD);
  lend_output(work_len, result_len);
  memset(reference_work, 0x5a, work_len);
  memset(reference_result, 0x5a, result_len);
  uint64_t reference = reference_forward(now.pattern, now.pattern_len, now.block, now.block_len, limit, reference_work,
                                         work_len, reference_result, result_len);
  uint64_t library = spaldep_forward(lent_pattern.bytes, now.pattern_len, lent_block.bytes, now.block_len, limit,
                                     lent_work.bytes, work_len, lent_result.bytes, result_len);
  same_answer(CALL_FORWARD, library, reference);
  same_bytes("leaves another result", &lent_result, reference_result);
  same_bytes("leaves other working memory", &lent_work, reference_work);
  count_report(reference_result, reference, result_len);
  tally.met[MET_PEAK_IS_LIMIT] += spaldep_code(library) == 0 && spaldep_peak(library) == limit;
  tally.met[MET_MOST_LIVE] += spaldep_peak(library) == SPALDEP_LIMIT_MAX;
  return library;
}

static uint64_t compare_starts(size_t result_len) {
  lend_input(CALL_STARTS);
  lent_out(&lent_result, NULL, filled(), result_len);
  memset(reference_result, 0x5a, result_len);
  uint64_t reference = now.wide ? merged_start_by_start(&now.merged, reference_result, result_len)
                                : reference_start_by_start(now.pattern, now.pattern_len, now.block, now.block_len,
                                                           reference_result, result_len);
  uint64_t library = spaldep_start_by_start(lent_pattern.bytes, now.pattern_len, lent_block.bytes, now.block_len,
                                            lent_result.bytes, result_len);
  same_answer(CALL_STARTS, library, reference);
  same_bytes("leaves another result", &lent_result, reference_result);
  return library;
}

uint64_t compare_measure(void) {
  if (spaldep_measure == NULL || now.wide) return 0;
  lend_input(CALL_MEASURE);
  uint64_t reference = reference_measure(now.pattern, now.pattern_len, now.block, now.block_len);
  same_answer(CALL_MEASURE, spaldep_measure(lent_pattern.bytes, now.pattern_len, lent_block.bytes, now.block_len),
              reference);
  return reference;
}

void compare_by_rule(uint32_t limit, size_t work_len, size_t result_len) {
  static uint8_t result[RESULT_ROOM], work[WORK_ROOM];
  uint64_t lists = reference_by_rule_lists(now.pattern, now.pattern_len, now.block, now.block_len);
  if (lists == 0 || lists > 3200) return;
  now_call = "the reference's forward";
  uint64_t pass = reference_forward(now.pattern, now.pattern_len, now.block, now.block_len, limit, reference_work,
                                    work_len, reference_result, result_len);
  uint64_t rule = reference_by_rule(now.pattern, now.pattern_len, now.block, now.block_len, limit, work, work_len,
                                    result, result_len);
  if (pass != rule) fail_answers(pass, "where the rule gives", rule);
  if (memcmp(result, reference_result, result_len) != 0) fail("reports what the rule does not");
  tally.met[MET_BY_RULE]++;
}

void compare_merged(size_t result_len) {
  static uint8_t result[RESULT_ROOM];
  merge_readings(now.pattern, now.pattern_len, now.block, now.block_len, &now.merged);
  if (!now.merged.answered) return;
  now_call = "the reference's start_by_start";
  memset(result, 0x5a, result_len);
  uint64_t pass =
      reference_start_by_start(now.pattern, now.pattern_len, now.block, now.block_len, reference_result, result_len);
  uint64_t merged = merged_start_by_start(&now.merged, result, result_len);
  if (pass != merged) fail_answers(pass, "where the merged readings give", merged);
  if (memcmp(result, reference_result, result_len) != 0) fail("reports what the merged readings do not");
  tally.met[MET_MERGED]++;
  tally.met[MET_MERGED_NOT_EQUAL] += joins_not_equal(&now);
}

/* Demand 3: what one pass's acceptance says of the other. */
void compare_passes(uint32_t limit, size_t work_len, size_t result_len) {
  passed.limit = limit;
  passed.work_len = work_len;
  passed.result_len = result_len;
  passed.forward = compare_forward(limit, work_len, result_len);
  memcpy(passed.forward_result, lent_result.bytes, result_len);
  memcpy(passed.work, lent_work.bytes, work_len);
  passed.starts = compare_starts(result_len);
  memcpy(passed.starts_result, lent_result.bytes, result_len);
  uint64_t forward = passed.forward, starts = passed.starts;
  bool in_order = limit >= 1 && limit <= SPALDEP_LIMIT_MAX && work_len >= SPALDEP_WORK_BYTES(limit);
  bool same =
      (forward & ~(uint64_t)0xffff) == starts && memcmp(passed.forward_result, passed.starts_result, result_len) == 0;
  now_call = "the two passes";
  if (spaldep_code(forward) == 0 && !(spaldep_code(starts) == 0 && same))
    fail("differ: forward accepts, start-by-start does not, or with another result");
  if (spaldep_code(starts) == 0 && in_order && !(same || spaldep_code(forward) == SPALDEP_REFUSED_LIVE))
    fail("differ: start-by-start accepts, forward gives neither the same nor 10");
  tally.met[MET_LIVE_ALONE] += spaldep_code(starts) == 0 && spaldep_code(forward) == SPALDEP_REFUSED_LIVE;
  tally.met[MET_WAVE_REPORT] += spaldep_readings(starts) > 0 && asks_wave(&now) && has_wave(&now);
  tally.met[MET_NOT_EQUAL_REPORT] += spaldep_readings(starts) > 0 && asks_not_equal(&now);
}

/* The input as before, with waves of 0 in the block. */
static void lend_without_waves(int call) {
  lend_input(call);
  clear_waves(lent_block.bytes, lent_block.length);
}

static void count_without_waves(uint64_t answer) {
  tally.met[MET_WITHOUT_WAVES]++;
  tally.met[MET_WITHOUT_WAVES_REPORT] += spaldep_readings(answer) > 0;
}

void compare_without_waves(uint32_t limit, size_t work_len, size_t result_len) {
  static const char without_waves[] = "with waves of 0, and before";
  if (!asks_no_wave(&now) || !has_wave(&now)) return;
  lend_without_waves(CALL_FORWARD);
  lend_output(work_len, result_len);
  uint64_t forward = spaldep_forward(lent_pattern.bytes, now.pattern_len, lent_block.bytes, now.block_len, limit,
                                     lent_work.bytes, work_len, lent_result.bytes, result_len);
  if (forward != passed.forward) fail_answers(forward, without_waves, passed.forward);
  same_bytes("leaves another result with waves of 0", &lent_result, passed.forward_result);
  same_bytes("leaves other working memory with waves of 0", &lent_work, passed.work);
  count_without_waves(forward);
  lend_without_waves(CALL_STARTS);
  lent_out(&lent_result, NULL, filled(), result_len);
  uint64_t starts = spaldep_start_by_start(lent_pattern.bytes, now.pattern_len, lent_block.bytes, now.block_len,
                                           lent_result.bytes, result_len);
  if (starts != passed.starts) fail_answers(starts, without_waves, passed.starts);
  same_bytes("leaves another result with waves of 0", &lent_result, passed.starts_result);
  count_without_waves(starts);
}

void compare_filled(void) {
  struct line l;
  size_t gap, other;
  uint32_t used = spaldep_used(passed.forward);
  if (!any_gap_line(passed.forward_result, used, now_seed >> 16, &l) || !closing_gap(&now, &l, &gap)) return;
  lend_input(CALL_FORWARD);
  fill_gap(lent_block.bytes, gap, l.last);
  lend_output(SPALDEP_WORK_BYTES(SPALDEP_LIMIT_MAX), SPALDEP_RESULT_BYTES_MAX);
  uint64_t answer = spaldep_forward(lent_pattern.bytes, now.pattern_len, lent_block.bytes, now.block_len,
                                    SPALDEP_LIMIT_MAX, lent_work.bytes, lent_work.length, lent_result.bytes,
                                    lent_result.length);
  if (spaldep_code(answer) != 0) return;
  for (uint32_t at = 0; at < used; at += 1 + l.bindings) {
    l = line_at(passed.forward_result, at);
    if (!closing_gap(&now, &l, &other) || other != gap) continue;
    bool stands = has_bindings(lent_result.bytes, spaldep_used(answer), &l);
    bool grows = !stands && has_more(lent_result.bytes, spaldep_used(answer), &l);
    if (l.mark == SPALDEP_MARK_GAP_COMPLETE && !stands) fail("drops a reading with mark 4 where its gap is an event");
    if (!stands && !grows) fail("drops a reading that a gap closed where the gap is an event");
    tally.met[MET_FILLED_STANDS] += l.mark == SPALDEP_MARK_GAP_COMPLETE && stands;
    tally.met[MET_FILLED_GROWS] += l.mark == SPALDEP_MARK_GAP && grows;
  }
}

/* The forward pass of the library on some records of the block, with the highest limit and the longest result. */
static uint64_t forward_part(size_t from, size_t to) {
  lend_input(CALL_FORWARD);
  lent_out(&lent_block, now.block + RECORD_BYTES * from, 0, RECORD_BYTES * (to - from));
  lend_output(SPALDEP_WORK_BYTES(SPALDEP_LIMIT_MAX), SPALDEP_RESULT_BYTES_MAX);
  return spaldep_forward(lent_pattern.bytes, now.pattern_len, lent_block.bytes, lent_block.length, SPALDEP_LIMIT_MAX,
                         lent_work.bytes, lent_work.length, lent_result.bytes, lent_result.length);
}

void compare_cut(void) {
  size_t from, to;
  uint32_t used = spaldep_used(passed.forward), kept = 0;
  bool across = false;
  if (spaldep_code(passed.forward) != 0 || !any_cut(&now, now_seed >> 24, &from, &to)) return;
  for (struct line l; kept < used && (l = line_at(passed.forward_result, kept)).first < from; kept += 1 + l.bindings)
    across = across || l.last >= from;
  uint64_t first = forward_part(0, to);
  if (spaldep_code(first) != 0) return; /* it has the start of the second part's readings too, so room may be short */
  uint32_t rest = spaldep_used(first) - kept;
  if (memcmp(lent_result.bytes, passed.forward_result, 2 * (size_t)kept) != 0 ||
      (rest > 0 && line_at(lent_result.bytes, kept).first < from))
    fail("reports something else of the first part of a block");
  uint64_t second = forward_part(from, now.block_len / RECORD_BYTES);
  if (spaldep_code(second) != 0 || spaldep_used(second) != used - kept ||
      !same_lines(passed.forward_result + 2 * (size_t)kept, lent_result.bytes, used - kept, from))
    fail("reports something else of the second part of a block");
  tally.met[MET_CUT]++;
  tally.met[MET_CUT_IN_CYCLE] += across && time_of(&now, from) == time_of(&now, from - 1);
}

void calls_ready(void) {
  static const int signals[] = {SIGSEGV, SIGBUS, SIGILL, SIGFPE, SIGABRT, SIGALRM};
  lent_make(&lent_pattern, PATTERN_ROOM);
  lent_make(&lent_block, BLOCK_ROOM);
  lent_make(&lent_work, WORK_ROOM);
  lent_make(&lent_result, RESULT_ROOM);
  lent_make(&lent_listing, LISTING_ROOM);
  for (size_t i = 0; i < sizeof signals / sizeof *signals; i++) signal(signals[i], stopped);
}
