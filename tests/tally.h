/* What a run of compare has met: answers by call and code, and further things that its cases must have met. */
#ifndef TALLY_H
#define TALLY_H

#include <stdbool.h>
#include <stdint.h>

#include "rules.h"

enum {
  CALL_PATTERN,
  CALL_BLOCK,
  CALL_LISTING,
  CALL_FORWARD,
  CALL_STARTS,
  CALL_MEASURE,
  CALL_INDEX,
  CALL_SEARCH,
  CALLS
};
extern const char *const call_names[CALLS];

enum {
  MET_MARK_WINDOW,
  MET_MARK_END,
  MET_MARK_GAP,
  MET_MARK_GAP_COMPLETE,
  MET_MARK_BESIDE_PLAIN,
  MET_MARK_BEHIND_GROUP,
  MET_GAP_FAR,
  MET_GAP_FAR_COMPLETE,
  MET_FILLED_STANDS,
  MET_FILLED_GROWS,
  MET_MOST_BINDINGS,
  MET_PEAK_IS_LIMIT,
  MET_MOST_LIVE,
  MET_RESULT_FULL,
  MET_LONGEST_RESULT_SHORT,
  MET_LISTING_FULL,
  MET_MOST_RECORDS,
  MET_NO_RECORDS,
  MET_MOST_VARIABLES,
  MET_MOST_CONDITIONS,
  MET_CYCLE_SHARED,
  MET_CYCLE_MANY,
  MET_CYCLE_BOUND,
  MET_CYCLE_ENDS,
  MET_CYCLE_AT_ONCE,
  MET_CYCLE_WAITED,
  MET_CYCLE_STARTS,
  MET_CUT,
  MET_CUT_IN_CYCLE,
  MET_TIME_BELOW,
  MET_TIME_OF_GAP,
  MET_TIME_BEHIND_GAP,
  MET_TIME_OF_GAPS,
  MET_WAVE_FIRST,
  MET_WAVE_SECOND,
  MET_WAVE_ABOVE,
  MET_WAVE_AND_CORE,
  MET_WAVE_AND_SLOT,
  MET_WAVE_AND_AMOUNT,
  MET_WAVE_OWN,
  MET_ATTRIBUTE_FIRST,
  MET_ATTRIBUTE_SECOND,
  MET_WAVE_EVENT,
  MET_WAVE_GREATEST,
  MET_WAVE_GAP,
  MET_KIND_LAST_0,
  MET_KIND_LAST_BYTE,
  MET_WAVE_REPORT,
  MET_WAVE_DECIDES,
  MET_WITHOUT_WAVES,
  MET_WITHOUT_WAVES_REPORT,
  MET_NOT_EQUAL_OWN,
  MET_NOT_EQUAL_GROUP,
  MET_NOT_EQUAL_BITS,
  MET_NOT_EQUAL_EDGE,
  MET_NOT_EQUAL_REPORT,
  MET_NOT_EQUAL_APART,
  MET_OPERATOR_6,
  MET_OPERATOR_7,
  MET_INDEX_CLASSES,
  MET_INDEX_CORES,
  MET_INDEX_GREATEST,
  MET_INDEX_NO_RECORDS,
  MET_INDEX_GAPS_ALONE,
  MET_INDEX_GAPS,
  MET_INDEX_SHORT,
  MET_INDEX_LONG,
  MET_INDEX_ZERO_FIRST,
  MET_INDEX_ZERO_LAST,
  MET_INDEX_BEHIND_PATTERN,
  MET_INDEX_BEFORE_BLOCK,
  MET_INDEX_BEFORE_LIMIT,
  MET_OWN_REPORT,
  MET_OTHER_REPORT,
  MET_CANNOT_CLASS,
  MET_CANNOT_CORE,
  MET_CANNOT_CLASS_ABOVE,
  MET_CANNOT_CORE_ABOVE,
  MET_CANNOT_PEAK,
  MET_CANNOT_BINDINGS,
  MET_CANNOT_LIVE,
  MET_CANNOT_ROOM,
  MET_CANNOT_LEFT_OUT,
  MET_CANNOT_BLOCK_LENGTH,
  MET_CANNOT_RECORD,
  MET_CANNOT_TIME,
  MET_CANNOT_LIMIT,
  MET_RUNS_TYPE,
  MET_RUNS_SLOT,
  MET_RUNS_AMOUNT,
  MET_RUNS_WAVE,
  MET_RUNS_ABOVE,
  MET_RUNS_OPERATOR,
  MET_RUNS_SECOND,
  MET_LIVE_ALONE,
  MET_BY_RULE,
  MET_MERGED,
  MET_MERGED_NOT_EQUAL,
  MET_WIDE_TOO_LONG,
  MET_WIDE_BEFORE,
  MET_WIDE_ROOM,
  MET_WIDE_NEVER_FULL,
  MET_WIDE_BEHIND,
  MET_WIDE_JOINS,
  MET_WIDE_WAVE,
  MET_WIDE_NOT_EQUAL,
  MET_WIDE_CYCLE,
  METS
};

/* Where an attribute stands in a condition: beside a constant, or on a side of a join, which is a condition between two
   variables. */
enum { BESIDE_CONSTANT, JOIN_FIRST, JOIN_SECOND, PLACES };

/*
 * What is counted of a wide case shows that the start-by-start pass stops early, and for which reason it could. The
 * branches of the case, the bindings that trying every reading makes, are more than these, which no call makes within
 * its time limit; and what the answer is says what there was to find: a 33rd binding, or one only behind that many
 * branches; more numbers than the longest slice holds; or a report, with that many branches that lead to none. Which of
 * its tests stopped the pass is not seen from here. Only of the records behind full readings that nothing can follow no
 * such number is asked: to go through them costs time, and no branches.
 */
#define WIDE_BRANCHES ((uint64_t)10000000000)
enum { WIDE_BEHIND = 100 };

extern struct tally {
  uint64_t calls[CALLS], codes[CALLS][256], met[METS];
  uint64_t not_equal[PLACES][ATTRIBUTES]; /* accepted patterns with != on the attribute in that place */
  uint64_t otherwise[OPERATORS]; /* forward passes that do something else with the operator in the place of != */
  uint64_t passed, failed;       /* cases and rows */
  uint64_t wide;                 /* wide cases, and cases cut because they were too wide: */
  uint64_t too_many_groups, trial_too_long;
} tally;

/* Prints the answers by call and code. */
void print_answers(bool with_measure);

/* Prints what else was met, and counts as failed each refusal of a call, and each further thing, that never was. */
void demand_all_met(bool with_measure, bool with_wide);

#endif
