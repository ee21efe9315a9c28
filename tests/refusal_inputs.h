/* Inputs of the search and of the maker of indexes with given causes to refuse, for refusals.c. */
#ifndef REFUSAL_INPUTS_H
#define REFUSAL_INPUTS_H

#include <stdbool.h>
#include <stddef.h>
#include <stdint.h>

#include "index_cases.h"

/* A set of causes has the bit 1 << cause for each of them. */
enum cause {
  SHORT_PATTERN,
  BAD_HEADER,
  BAD_LENGTH,
  BAD_VARIABLE,
  BAD_CONDITION,
  BAD_INDEX_LENGTH,
  BAD_INDEX_BITS,
  ODD_BLOCK,
  LONG_BLOCK,
  BAD_RECORD,
  BAD_TIME,
  LOW_LIMIT,
  HIGH_LIMIT,
  SHORT_WORK,
  ODD_RESULT,
  LONG_RESULT,
  NO_CLASS,
  NO_CORE,
  NO_ROOM,
  MANY_BINDINGS,
  MANY_LIVE,
  CAUSES
};

/* In how many ways an input is made. Of two causes at records, the way says which comes first or that both are at one
   record; of others it says what is damaged. */
enum { WAYS = 3 };

/* What was made last, besides the pattern and the block of the case at hand: and where the causes are, by variable,
   condition or record. */
extern struct made {
  unsigned set, way;
  struct index index;
  uint32_t limit;
  size_t work_len, result_len;
  size_t at[CAUSES];
} made;

/* Whether one input can have all causes of a set. */
bool can_hold(unsigned set);

void make_input(unsigned set, unsigned way);

#endif
