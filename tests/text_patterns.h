/* Damage to a pattern that was written of a making, for the writer of texts: faults that are there for sure, one or
   several of them. */
#ifndef TEXT_PATTERNS_H
#define TEXT_PATTERNS_H

#include "text_cases.h"

/* Breaks a pattern of a making that has not too much, and gives the faults that it then has, as bits of the faults of
   WRITE_TEXT (text_tally.h). The bytes behind a pattern that grows are any. */
unsigned break_pattern(struct random *r, const struct making *m, uint8_t *pattern, size_t *pattern_len);

#endif
