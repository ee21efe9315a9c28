/* Refusals on indexes, alone and in pairs: see refusals.h. */
#include "refusals.h"

#include <inttypes.h>
#include <stdbool.h>
#include <stdio.h>

#include "calls.h"
#include "index_calls.h"
#include "refusal_inputs.h"
#include "rules.h"
#include "tally.h"

/* ---- the order ---- */

/* By its turn a cause comes before others. Of causes with one turn, the one at the earlier record does, and at one
   record the one that stands here first. Code 0: the search succeeds with nothing. */
static const struct {
  const char *name;
  unsigned code, turn;
} causes[CAUSES] = {
    [SHORT_PATTERN] = {"a pattern without a whole header", 1, 0},
    [BAD_HEADER] = {"the header", 2, 1},
    [BAD_LENGTH] = {"the pattern's length", 1, 2},
    [BAD_VARIABLE] = {"a variable", 3, 3},
    [BAD_CONDITION] = {"a condition", 4, 4},
    [BAD_INDEX_LENGTH] = {"the index's length", 15, 5},
    [BAD_INDEX_BITS] = {"the index's zero bits", 15, 5},
    [ODD_BLOCK] = {"a block of no whole records", 5, 6},
    [LONG_BLOCK] = {"a block of too many records", 5, 6},
    [BAD_RECORD] = {"a record", 6, 7},
    [BAD_TIME] = {"a time", 7, 7},
    [LOW_LIMIT] = {"a limit of 0", 8, 8},
    [HIGH_LIMIT] = {"a limit that is too high", 8, 8},
    [SHORT_WORK] = {"too little working memory", 8, 8},
    [ODD_RESULT] = {"an odd result slice", 8, 8},
    [LONG_RESULT] = {"a result slice that is too long", 8, 8},
    [NO_CLASS] = {"a class without events", 0, 9},
    [NO_CORE] = {"a core without events", 0, 9},
    [NO_ROOM] = {"too little room for the report", 11, 10},
    [MANY_BINDINGS] = {"a 33rd binding", 9, 10},
    [MANY_LIVE] = {"a live reading too many", 10, 10},
};

static unsigned bit(unsigned cause) { return 1u << cause; }

/* The causes that the maker has. */
static const unsigned of_maker =
    1u << BAD_INDEX_LENGTH | 1u << ODD_BLOCK | 1u << LONG_BLOCK | 1u << BAD_RECORD | 1u << BAD_TIME;

/* ---- the cases ---- */

/* Whether a cause comes before another one. */
static bool before(unsigned cause, unsigned other) {
  if (causes[cause].turn != causes[other].turn) return causes[cause].turn < causes[other].turn;
  if (made.at[cause] != made.at[other]) return made.at[cause] < made.at[other];
  return cause < other;
}

/* The answer for the first of the causes. Too little room has no place. */
static uint64_t answer_for(unsigned set) {
  unsigned first = CAUSES;
  for (unsigned cause = 0; cause < CAUSES; cause++)
    if ((set & bit(cause)) != 0 && (first == CAUSES || before(cause, first))) first = cause;
  if (causes[first].code == 0) return 0;
  return refusal(causes[first].code, first == NO_ROOM ? 0 : made.at[first]);
}

static void judge(unsigned set, uint64_t answer) {
  if (set == 0 && spaldep_code(answer) != 0) fail("refuses what is in order");
  if (set != 0 && answer != answer_for(set)) fail_answers(answer, "where the table has", answer_for(set));
}

/* The search, and the maker where it has all of the causes: each is a case. */
static void run_set(unsigned set, unsigned way, const char *name) {
  struct index left;
  begin_case(0);
  now.shape = name;
  make_input(set, way);
  uint64_t search = compare_search(&made.index, made.limit, made.work_len, made.result_len);
  if (set == 0 && spaldep_readings(search) != 1) fail("does not report its one reading");
  judge(set, search);
  end_case();
  if ((set & ~of_maker) != 0) return;
  begin_case(0);
  judge(set, compare_make_index(made.index.length, &left));
  end_case();
}

/* Two causes or, where both are one, that one; and then the same of a pattern that cannot match. */
static void run_pair(unsigned first, unsigned second, unsigned way) {
  static char name[200];
  unsigned set = bit(first) | bit(second);
  if (!can_hold(set)) return;
  snprintf(name, sizeof name, "%s and %s, way %u", causes[first].name, causes[second].name, way);
  run_set(set, way, name);
  if ((set & (bit(NO_CLASS) | bit(NO_CORE))) != 0) return;
  snprintf(name, sizeof name, "%s, %s and %s, way %u", causes[first].name, causes[second].name, causes[NO_CLASS].name,
           way);
  run_set(set | bit(NO_CLASS), way, name);
}

void refusals_run(void) {
  uint64_t passed_before = tally.passed, failed_before = tally.failed;
  for (unsigned way = 0; way < WAYS; way++) {
    run_set(0, way, "no refusal");
    for (unsigned first = 0; first < CAUSES; first++)
      for (unsigned second = first; second < CAUSES; second++) run_pair(first, second, way);
  }
  printf("refusals on indexes alone and in pairs: %" PRIu64 " are given as they must be, %" PRIu64 " are not\n",
         tally.passed - passed_before, tally.failed - failed_before);
}
