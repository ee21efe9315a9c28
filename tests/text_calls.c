/* The library's reader and writer of texts beside the reference's: see text_calls.h. */
#define _DEFAULT_SOURCE
#include "text_calls.h"

#include <inttypes.h>
#include <signal.h>
#include <stdbool.h>
#include <stdio.h>
#include <string.h>
#include <unistd.h>

#include "lent.h"
#include "spaldep.h"
#include "text_tally.h"
#include "texts.h"

/* Where an emulator runs the calls, a large text takes a second or so, and the one with the most lines half a minute.
 */
enum { CALL_SECONDS = 60, LONGEST_CALL_SECONDS = 300 };

/* ---- failures ---- */

static const char *now_name = "none", *now_call = "none";
static uint64_t now_seed;
static bool now_failed;

static void print_case(void) {
  if (now_seed != 0)
    printf("; texts case 0x%016" PRIx64 "\n", now_seed);
  else
    printf("; %s\n", now_name);
}

void fail_text(const char *what) {
  now_failed = true;
  if (text_tally.failed >= 10) return;
  printf("FAILED: %s %s", now_call, what);
  print_case();
}

/* A crash or a call that does not end: say where, and end. */
static void stopped(int sig) {
  printf("FAILED: %s ", now_call);
  if (sig == SIGALRM)
    printf("did not end in time");
  else
    printf("ended by signal %d", sig);
  print_case();
  printf("%" PRIu64 " passed, %" PRIu64 " failed\n", text_tally.passed, text_tally.failed + 1);
  fflush(stdout);
  _exit(1);
}

void begin_text_case(const char *name, uint64_t seed) {
  now_name = name;
  now_seed = seed;
  now_call = "making the case";
  now_failed = false;
  alarm(CALL_SECONDS);
}

void end_text_case(void) {
  if (now_failed)
    text_tally.failed++;
  else
    text_tally.passed++;
}

/* ---- calls ---- */

static struct lent lent_read, lent_written;
static uint8_t reference_written[WRITTEN_ROOM];
uint8_t written[WRITTEN_ROOM];

static uint8_t filled(void) { return (uint8_t)(now_seed >> 8 | 1); }

static void compare_answers(int call, uint64_t library, uint64_t reference) {
  char text[120];
  text_tally.calls[call]++;
  text_tally.codes[call][spaldep_code(library)]++;
  if (library == reference) return;
  snprintf(text, sizeof text, "answers 0x%016" PRIx64 " where 0x%016" PRIx64 " is right", library, reference);
  fail_text(text);
}

/* Lends the bytes to be read and the slice to be written, and has both calls made. */
static uint64_t compare(int call, const uint8_t *read, size_t read_len, size_t written_len) {
  now_call = text_call_names[call];
  lent_out(&lent_read, read, 0, read_len);
  lent_out(&lent_written, NULL, filled(), written_len);
  memset(reference_written, 0x5a, written_len);
  alarm(CALL_SECONDS);
  uint64_t library = call == READ_TEXT ? spaldep_read_text(lent_read.bytes, read_len, lent_written.bytes, written_len)
                                       : spaldep_write_text(lent_read.bytes, read_len, lent_written.bytes, written_len);
  uint64_t reference = call == READ_TEXT ? reference_read_text(read, read_len, reference_written, written_len)
                                         : reference_write_text(read, read_len, reference_written, written_len);
  compare_answers(call, library, reference);
  if (!lent_whole(&lent_read) || !lent_whole(&lent_written)) fail_text("writes in front of a slice");
  if (memcmp(lent_read.bytes, read, read_len) != 0) fail_text("changes what it reads");
  if (memcmp(lent_written.bytes, reference_written, written_len) != 0) fail_text("leaves another slice");
  memcpy(written, lent_written.bytes, written_len);
  return library;
}

uint64_t compare_read_text(const uint8_t *text, size_t text_len, size_t pattern_len) {
  return compare(READ_TEXT, text, text_len, pattern_len);
}

uint64_t compare_write_text(const uint8_t *pattern, size_t pattern_len, size_t text_len) {
  return compare(WRITE_TEXT, pattern, pattern_len, text_len);
}

void expect_read_refused(const uint8_t *text, size_t text_len, size_t pattern_len, uint64_t expected) {
  now_call = text_call_names[READ_TEXT];
  lent_out(&lent_written, NULL, filled(), pattern_len);
  alarm(LONGEST_CALL_SECONDS);
  compare_answers(READ_TEXT, spaldep_read_text(text, text_len, lent_written.bytes, pattern_len), expected);
  if (!lent_whole(&lent_written)) fail_text("writes in front of a slice");
  for (size_t i = 0; i < pattern_len; i++)
    if (lent_written.bytes[i] != 0) {
      fail_text("leaves another slice");
      break;
    }
}

void expect_checked(const uint8_t *pattern, size_t pattern_len) {
  now_call = "check_pattern";
  if (spaldep_check_pattern(pattern, pattern_len) != 0) fail_text("refuses what read_text wrote");
}

void text_calls_ready(void) {
  static const int signals[] = {SIGSEGV, SIGBUS, SIGILL, SIGFPE, SIGABRT, SIGALRM};
  lent_make(&lent_read, LARGE_TEXT);
  lent_make(&lent_written, WRITTEN_ROOM);
  for (size_t i = 0; i < sizeof signals / sizeof *signals; i++) signal(signals[i], stopped);
}
