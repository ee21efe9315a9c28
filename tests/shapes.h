/* The shapes of random cases: what goes into a case before chance fills it in. Percentages are of 100. */
#ifndef SHAPES_H
#define SHAPES_H

#include "cases.h"

struct knobs {
  const char *shape;
  unsigned variables, sets;
  unsigned group_percent;      /* variables that are group variables, */
  bool first_single;           /* the first of them never */
  unsigned own_class_percent;  /* variables with the condition that class is theirs */
  unsigned shared_percent;     /* variables that share the class of another */
  unsigned core_joins_percent; /* variables with the condition that core is that of variable 0 */
  unsigned wave_joins_percent; /* variables with the condition that wave is that of variable 0 */
  unsigned conditions;         /* further conditions of any sort, */
  unsigned wave_percent;       /* those of them that ask wave in any case, */
  unsigned met_percent;        /* and the share of tried events that each must hold of */
  unsigned edge_percent;       /* slots, amounts, waves and constants at the edges of their ranges */
  unsigned absent_percent;     /* patterns that ask besides for what no event meets */
  unsigned records, gap_percent;
  unsigned fire_percent;    /* events of a class that some variable asks for */
  unsigned last_percent;    /* of those, the ones of the last variable's class */
  unsigned in_turn_percent; /* of the others, the ones that follow the pattern's order */
  unsigned cores;
  unsigned waves;     /* events have waves below this, and those at the edges; 0 or 1: every wave is 0 */
  uint64_t time_step;    /* the most cycles between two records of different times */
  unsigned same_percent; /* cycles with more than one event, */
  unsigned same_most;    /* and the most events that such a cycle has besides its first */
  unsigned window;    /* records that a window holds, about; 0: any duration */
  uint64_t effort;    /* tests that the start-by-start pass may make */
};

void choose_knobs(struct random *r, struct knobs *k);

/* Sets of at most 6 variables, as many as asked for where they fit. */
void put_variables(struct random *r, const struct knobs *k, uint8_t *bytes);

/* The header, once all else of the case is there. */
void put_header(struct random *r, const struct knobs *k, unsigned conditions, struct test_case *out);

/* The time of a record behind one of time `time`: the same while its cycle is to have more events, `left` of them, and
   never where one of the two is a gap. */
uint64_t next_time(struct random *r, const struct knobs *k, bool beside_gap, unsigned *left, uint64_t time);

/* A case in which events can be bound in many ways: one to twelve variables in up to three sets, without conditions or
   with such as many events meet. Not all of these cases are wide: the readings of some are few. */
void make_wide(struct random *r, struct test_case *out);

#endif
