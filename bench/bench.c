/*
 * bench [--stack]: times the library's two passes against the yardstick's on five workloads, by what they ask of an
 * event alone; then its maker of indexes and its search, on one block and over 1,000 of them (searches.h says what is
 * timed); and measures the stack of a call. With --stack only that. The library and the yardstick must give the same
 * answer and the same bytes on each. Times are the least of several rounds, the two taken in turn; the stack is painted
 * before a call, and what the call overwrote is counted.
 */
#include <stdbool.h>
#include <stdio.h>
#include <string.h>

#include "passes.h"
#include "searches.h"
#include "spaldep.h"
#include "times.h"
#include "workloads.h"
#include "yardstick.h"

static uint64_t plain_forward(const struct workload *w, uint8_t *result) {
  return yardstick_forward(w->pattern, w->pattern_len, w->block, w->block_len, LIMIT, work, sizeof work, result,
                           SPALDEP_RESULT_BYTES_MAX);
}

static uint64_t plain_starts(const struct workload *w, uint8_t *result) {
  return yardstick_start_by_start(w->pattern, w->pattern_len, w->block, w->block_len, result, SPALDEP_RESULT_BYTES_MAX);
}

static uint64_t library_listing(const struct workload *w, uint8_t *result) {
  return spaldep_list_automaton(w->pattern, w->pattern_len, result, SPALDEP_RESULT_BYTES_MAX);
}

/* Writes the pattern as text and reads it again. */
static uint64_t library_texts(const struct workload *w, uint8_t *result) {
  static uint8_t text[SPALDEP_TEXT_BYTES_MAX];
  uint64_t answer = spaldep_write_text(w->pattern, w->pattern_len, text, sizeof text);
  return spaldep_read_text(text, spaldep_used(answer), result, SPALDEP_PATTERN_BYTES_MAX);
}

/* Reads a text of a megabyte, all of it: one that has too many conditions. */
static uint64_t library_long_text(const struct workload *w, uint8_t *result) {
  static const char first[] = "set a\n", line[] = "when a.core = 0\n", last[] = "within 1\n";
  enum { FIRST = sizeof first - 1, LINE = sizeof line - 1, LAST = sizeof last - 1, LINES = 65536 };
  static uint8_t text[FIRST + LINE * LINES + LAST];
  (void)w;
  memcpy(text, first, FIRST);
  for (size_t i = 0; i < LINES; i++) memcpy(text + FIRST + LINE * i, line, LINE);
  memcpy(text + FIRST + LINE * LINES, last, LAST);
  return spaldep_read_text(text, sizeof text, result, SPALDEP_PATTERN_BYTES_MAX);
}

/* ---- times ---- */

/* One line of the table; false where the two do not agree. */
static bool compare_times(const char *name, const char *asked, pass library, pass plain, const struct workload *w) {
  static uint8_t result[SPALDEP_RESULT_BYTES_MAX], other[SPALDEP_RESULT_BYTES_MAX];
  const pass both[2] = {library, plain};
  double least[2];
  uint64_t answer = library(w, result);
  if (answer != plain(w, other) || memcmp(result, other, sizeof result) != 0 || spaldep_code(answer) != 0) {
    printf("%-15s %-24s %-14s FAILED: the library and the yardstick differ, or refuse with %u at %u\n", name, w->name,
           asked, spaldep_code(answer), spaldep_place(answer));
    return false;
  }
  time_in_turn(2, both, w, least);
  printf("%-15s %-24s %-14s %8u %6u %10.1f %10.1f %7.2f\n", name, w->name, asked, spaldep_readings(answer),
         spaldep_peak(answer), 1e6 * least[0], 1e6 * least[1], least[0] / least[1]);
  return true;
}

/* The lines of one pass. */
static bool compare_all(const char *name, pass library, pass plain) {
  static struct workload w;
  bool all = true;
  for (enum asked asked = BY_CLASS; asked < WAYS_TO_ASK; asked++)
    for (unsigned i = 0; i < WORKLOADS; i++) {
      if (!has_way(i, asked)) continue;
      make_workload(i, asked, &w);
      all = compare_times(name, way_names[asked], library, plain, &w) && all;
    }
  return all;
}

/* ---- stack ---- */

static size_t larger(size_t a, size_t b) { return a > b ? a : b; }

/* The header's figures are those of the archive as it is delivered, for x86-64. Another processor's frames may take a
   little more of the longest ones. */
#ifdef __x86_64__
enum { MORE = 0 };
#else
enum { MORE = 1024 };
#endif
enum { MOST_SEARCH = SPALDEP_STACK_FORWARD + MORE, MOST_STARTS = SPALDEP_STACK_START_BY_START + MORE };

/* One line of the table; false where a call of the library takes more than that. */
static bool print_stack(const struct workload *w) {
  size_t without = painted(NULL, w), forward = painted(library_forward, w) - without;
  size_t starts = painted(library_starts, w) - without, listing = painted(library_listing, w) - without;
  size_t checks = larger(painted(library_check_pattern, w), painted(library_check_block, w)) - without;
  size_t texts = larger(painted(library_texts, w), painted(library_long_text, w)) - without;
  size_t maker = painted(library_make_index, w) - without, search = painted(library_search, w) - without;
  size_t most = larger(larger(forward, texts), larger(listing, checks));
  printf("%-24s %9zu %9zu %9zu %9zu %9zu %9zu %9zu %9zu %9zu\n", w->name, forward, search, starts, listing, checks,
         maker, texts, painted(plain_forward, w) - without, painted(plain_starts, w) - without);
  if (most <= SPALDEP_STACK_FORWARD && larger(search, maker) <= MOST_SEARCH && starts <= MOST_STARTS) return true;
  printf("%-24s FAILED: it may take %u, %u for maker and search, and %u for start-by-start\n", w->name,
         SPALDEP_STACK_FORWARD, (unsigned)MOST_SEARCH, (unsigned)MOST_STARTS);
  return false;
}

/* By its own index the workload where nothing fires cannot match; the others can, and are searched as by the forward
   pass. */
static bool print_stacks(void) {
  static struct workload w;
  bool all = true;
  make_workload(0, BY_CLASS, &w);
  painted(library_forward, &w); /* the first call of a function of the C library takes stack to find it */
  printf("%-24s %9s %9s %9s %9s %9s %9s %9s %9s %9s\n", "stack of a call, bytes", "forward", "search", "starts",
         "listing", "checks", "maker", "texts", "C forward", "C starts");
  for (unsigned i = 0; i <= WORKLOADS; i++) {
    make_workload(i, BY_CLASS, &w);
    yardstick_make_index(w.block, w.block_len, w.index, sizeof w.index);
    all = print_stack(&w) && all;
  }
  return all;
}

int main(int count, char **words) {
  if (count == 2 && strcmp(words[1], "--stack") == 0) return print_stacks() ? 0 : 1;
  printf("%-15s %-24s %-14s %8s %6s %10s %10s %7s\n", "pass", "workload", "asked by", "readings", "peak", "library us",
         "plain C us", "ratio");
  bool all = compare_all("forward", library_forward, plain_forward);
  all = compare_all("start-by-start", library_starts, plain_starts) && all;
  printf("\n");
  all = print_indexes() && all;
  printf("\n");
  all = print_searches() && all;
  printf("\n");
  all = print_stacks() && all;
  return all ? 0 : 1;
}
