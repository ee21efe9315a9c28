/*
 * The start-by-start pass of the reference a second way, for wide cases, whose readings are too many to try one by one.
 * For each start the records of its window are walked with a list of groups (groups.h), each with the number of its
 * readings and of their bindings. Where there is a report, the readings are found from its end: a full group leads
 * back along the steps that made it, and every way back is a reading, so none is tried in vain.
 */
#ifndef MERGED_H
#define MERGED_H

#include <stdbool.h>
#include <stddef.h>
#include <stdint.h>

/* Where counts of readings, bindings and branches stop. */
#define MERGED_MOST ((uint64_t)1000000000000000000)

enum { MERGED_REPORT_BYTES = 65536 }; /* of the longest report that a call can give */

struct merged {
  bool answered;    /* false: more groups than the walk has room for, more steps than it may take, or more values than
                       a group can tell */
  uint64_t refused; /* the refusal of the pattern or of the block, or 0 */
  bool joins;       /* there is a condition between two variables */
  bool too_long;
  size_t too_long_at;         /* the least record of a 33rd binding */
  uint64_t readings, numbers; /* where none is too long; more than the longest slice holds are not all counted */

  /* Branches are the bindings that trying every reading makes. */
  uint64_t branches; /* at least so many; all of them where none is too long and the report fits */
  uint64_t before;   /* at least so many before the first 33rd binding, starts and variables in their order; no joins */
  uint64_t never_full; /* at least so many that lead to no line of the report */

  size_t behind;                       /* the most records behind a full reading that no step can leave */
  uint8_t report[MERGED_REPORT_BYTES]; /* packed, where it fits */
};

void merge_readings(const uint8_t *pattern, size_t pattern_len, const uint8_t *block, size_t block_len,
                    struct merged *out);

/* The answer and the result of the call, once the readings are merged. */
uint64_t merged_start_by_start(const struct merged *m, uint8_t *result, size_t result_len);

/*
 * Whether the start-by-start pass can be expected to end soon on a wide case. Without joins it can: what a reading can
 * still come to is then known from its state and the records ahead. With joins nobody promises that, so a pass is tried
 * that goes on from a reading only where a report or an earlier 33rd binding may come of it, by the events ahead that
 * agree with what is bound; a case on which this trial has no end is not used.
 */
bool wide_trial_ends(const uint8_t *pattern, size_t pattern_len, const uint8_t *block, size_t block_len,
                     const struct merged *m);

#endif
