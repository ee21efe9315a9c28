/*
 * texts SEED COUNT   holds the library's reader and writer of texts against the reference on COUNT random cases, after
 *                    the example texts, the bench's with every byte and every length changed, and large texts
 * texts case SEED    the one case with that seed, with its text
 *
 * Of each call: the answer, and every byte of the slice that it was lent. Reference and library are also held against
 * what the text was made of: the pattern's bytes, the first fault, and for most damage the line. What was read passes
 * check_pattern and is written again; what was written is read again. It prints how often each thing was met, and its
 * last line is 'N passed, M failed'. A refusal that no case met is a failure, so is each other thing that it counts,
 * and so is a call that does not end within its time.
 */
#include <inttypes.h>
#include <stdio.h>
#include <stdlib.h>
#include <string.h>
#include <unistd.h>

#include "chance.h"
#include "spaldep.h"
#include "text_calls.h"
#include "text_cases.h"
#include "text_damage.h"
#include "text_examples.h"
#include "text_patterns.h"
#include "text_sizes.h"
#include "text_tally.h"

enum { PATTERN_MAX = SPALDEP_PATTERN_BYTES_MAX, TEXT_MAX = SPALDEP_TEXT_BYTES_MAX };

/* A length for a slice of which `need` bytes are needed. */
static size_t any_len(struct random *r, size_t need, size_t longest) {
  switch (below(r, 8)) {
    case 0: return need;
    case 1: return need - 1;
    case 2: return need + 1;
    case 3: return chance(r, 50) ? 0 : below(r, 9);
    case 4: return below(r, (unsigned)need);
    case 5: return need + below(r, 64);
    case 6: return need - (need < 12 ? need : 12) + below(r, 25);
    default: return longest;
  }
}

/* Counts a slice by its length: `first` is the first of the four things that are met by it. */
static void count_room(int first, uint64_t answer, size_t need, size_t length) {
  bool room = spaldep_code(answer) == SPALDEP_REFUSED_LISTING_ROOM;
  text_tally.met[first] += spaldep_code(answer) == 0 && length == need;
  text_tally.met[first + 1] += room && length + 1 == need;
  text_tally.met[first + 2] += spaldep_code(answer) == 0 && length > need;
  text_tally.met[first + 3] += room && length == 0;
}

/* Whether the call gave the first of the faults. */
static void expect_first_fault(int call, uint64_t answer, unsigned faults) {
  if (spaldep_code(answer) != code_of_faults(call, faults)) fail_text("does not give the first fault");
  count_pairs(call, faults);
}

/* ---- reading ---- */

static struct making making, renamed;
static struct text text, damaged, again;
static uint8_t pattern[SAID_PATTERN_ROOM];

static unsigned read_faults(const struct making *m, size_t pattern_len, unsigned *variable) {
  unsigned faults = 0;
  if (has_too_much(m)) faults |= 1u << READ_COUNTS;
  if (has_bad_set(m, variable)) faults |= 1u << READ_SETS;
  if (pattern_len < making_pattern_len(m)) faults |= 1u << READ_ROOM;
  return faults;
}

/* The accepted pattern is checked, and written again with the names a, b, c. */
static void write_again(struct random *r, size_t pattern_len) {
  if (memcmp(written, pattern, pattern_len) != 0) fail_text("gives another pattern than the one that was said");
  expect_checked(pattern, pattern_len);
  text_tally.met[TEXT_CHECKED]++;
  size_t text_len = again.length + (chance(r, 50) ? 0 : below(r, 20));
  if (compare_write_text(pattern, pattern_len, text_len) != (uint64_t)again.length << 32 ||
      memcmp(written, again.bytes, again.length) != 0)
    fail_text("does not write what was read");
  text_tally.met[making.named_in_order ? TEXT_AGAIN : TEXT_RENAMED]++;
}

static void run_in_form(struct random *r, size_t pattern_len) {
  size_t need = making_pattern_len(&making);
  unsigned variable, faults = read_faults(&making, pattern_len, &variable);
  uint64_t answer = compare_read_text(text.bytes, text.length, pattern_len);
  expect_first_fault(READ_TEXT, answer, faults);
  if (spaldep_code(answer) == SPALDEP_REFUSED_VARIABLE && spaldep_place(answer) != variable)
    fail_text("gives another variable than the first bad one");
  count_room(TEXT_ROOM_JUST, answer, need, pattern_len);
  count_making(&making, answer);
  if (spaldep_code(answer) == 0) write_again(r, need);
}

static void run_damaged(struct random *r) {
  size_t at = below(r, (unsigned)damage_count()), pattern_len = any_len(r, making_pattern_len(&making), PATTERN_MAX);
  unsigned variable;
  damaged.length = text.length;
  memcpy(damaged.bytes, text.bytes, text.length);
  size_t place = damage_at(at)->harm(r, &making, &damaged);
  bool two = place != NOT_DONE && damaged.length > 1 && chance(r, 10);
  if (place == NOT_DONE) return;
  if (two) damage_at(below(r, SAFE_DAMAGES))->harm(r, &making, &damaged);
  uint64_t answer = compare_read_text(damaged.bytes, damaged.length, pattern_len);
  text_tally.met[TEXT_TWO_DAMAGES] += two;
  text_tally.met[TEXT_DAMAGED_ACCEPTED] += spaldep_code(answer) == 0;
  if (spaldep_code(answer) == 0) expect_checked(written, spaldep_used(answer));
  if (two) return;
  text_tally.damaged[at] += spaldep_code(answer) == SPALDEP_REFUSED_TEXT;
  if (place == NO_PLACE) return;
  if (spaldep_code(answer) != SPALDEP_REFUSED_TEXT || spaldep_place(answer) != place)
    fail_text("does not give the line that was damaged");
  if (damaged.length + 1 >= text.length)
    count_pairs(READ_TEXT, 1u << READ_FORM | read_faults(&making, pattern_len, &variable));
}

/* ---- writing ---- */

static void run_write(struct random *r, size_t pattern_len, unsigned faults) {
  size_t text_len = any_len(r, again.length, TEXT_MAX);
  if (text_len < again.length) faults |= 1u << WRITE_ROOM;
  uint64_t answer = compare_write_text(pattern, pattern_len, text_len);
  expect_first_fault(WRITE_TEXT, answer, faults);
  count_room(WRITTEN_ROOM_JUST, answer, again.length, text_len);
  if (faults != 0) return;
  if (memcmp(written, again.bytes, again.length) != 0) fail_text("writes another text than was meant");
  if (again.length > TEXT_MAX) fail_text("writes a text that is longer than the longest");
  text_tally.met[TEXT_LONGEST] += again.length == TEXT_MAX;
  if (compare_read_text(again.bytes, again.length, PATTERN_MAX) != (uint64_t)pattern_len << 32 ||
      memcmp(written, pattern, pattern_len) != 0)
    fail_text("does not read what was written");
  text_tally.met[TEXT_PATTERN_AGAIN]++;
}

static void run_broken(struct random *r) {
  size_t pattern_len = making_pattern_len(&making);
  write_making_pattern(&making, pattern);
  for (size_t i = pattern_len; i < pattern_len + 16; i++) pattern[i] = (uint8_t)random_next(r);
  unsigned faults = break_pattern(r, &making, pattern, &pattern_len);
  run_write(r, pattern_len, faults);
}

/* Any bytes as a pattern. */
static void run_any_bytes(struct random *r) {
  size_t pattern_len = below(r, 40);
  for (size_t i = 0; i < pattern_len; i++) pattern[i] = (uint8_t)random_next(r);
  if (chance(r, 70)) pattern[0] = (uint8_t)(0x10 | (pattern[0] & 15)), pattern[1] &= 3, pattern[2] = 0;
  compare_write_text(pattern, pattern_len, below(r, 200));
}

/* ---- cases ---- */

static void run_case(uint64_t seed) {
  struct random r = {seed ^ 0x5bd1e995};
  unsigned variable;
  begin_text_case("", seed);
  make_making(&r, &making);
  renamed = making;
  rename_making(&renamed);
  write_making(&making, &text);
  write_making(&renamed, &again);
  write_making_pattern(&making, pattern);
  run_in_form(&r, making_pattern_len(&making));
  run_in_form(&r, any_len(&r, making_pattern_len(&making), PATTERN_MAX));
  for (unsigned i = 0; i < 4; i++) run_damaged(&r);
  if (!has_too_much(&making)) {
    run_write(&r, making_pattern_len(&making), has_bad_set(&making, &variable) ? 1u << WRITE_VARIABLE : 0);
    run_broken(&r);
    run_broken(&r);
  }
  run_any_bytes(&r);
  end_text_case();
}

static uint64_t number(const char *digits) {
  char *end;
  uint64_t n = strtoull(digits, &end, 0);
  if (*digits == 0 || *end != 0) {
    fprintf(stderr, "texts: not a number: %s\n", digits);
    exit(2);
  }
  return n;
}

static int end_run(void) {
  printf("%" PRIu64 " passed, %" PRIu64 " failed\n", text_tally.passed, text_tally.failed);
  return text_tally.failed == 0 ? 0 : 1;
}

static int run_one(uint64_t seed) {
  run_case(seed);
  printf("%.*s", (int)text.length, (const char *)text.bytes);
  return end_run();
}

static int run_all(uint64_t seed, uint64_t count) {
  struct random r = {seed};
  run_example_texts();
  run_changed_texts();
  memset(text_tally.codes, 0, sizeof text_tally.codes); /* what is to be met, the random cases must meet */
  memset(text_tally.met, 0, sizeof text_tally.met);
  printf("seed %" PRIu64 ", %" PRIu64 " cases of texts\n", seed, count);
  fflush(stdout);
  for (uint64_t i = 0; i < count; i++) run_case(random_next(&r));
  print_text_answers();
  run_large_texts();
  run_last_place();
  alarm(0);
  demand_all_texts_met();
  printf("%" PRIu64 " calls compared\n", text_tally.calls[READ_TEXT] + text_tally.calls[WRITE_TEXT]);
  return end_run();
}

int main(int argc, char **argv) {
  if (argc != 3) {
    fprintf(stderr, "usage: texts SEED COUNT | texts case SEED\n");
    return 2;
  }
  if (damage_count() > MOST_DAMAGES) abort();
  text_calls_ready();
  if (strcmp(argv[1], "case") == 0) return run_one(number(argv[2]));
  return run_all(number(argv[1]), number(argv[2]));
}
