/*
 * Groups of readings that go on alike, for the reference's second way through the start-by-start pass (merged.h).
 * What an event does to a reading depends on its state and, for each condition between two variables, on the events
 * that the other variable is bound to (Rule 5.3). An operator other than != holds of all of these where it holds of the
 * least and of the greatest of their values; != has to be asked of every value. It also depends on whether the event is
 * of the cycle of the latest binding, where a step has the order mark (Rule 4.3). So a group has its state, that cycle
 * and, of each side that is asked, the least value, the greatest, or which values there are; and no reading.
 */
#ifndef GROUPS_H
#define GROUPS_H

#include "rules.h"

enum { MOST_SIDES = VARIABLES * ATTRIBUTES, MOST_VALUES = 64 };

/* One side of a join: see is_join. */
struct side {
  unsigned variable, attribute;
  unsigned least_for, greatest_for; /* the variables whose new event is held against its least, or its greatest */
  unsigned others_for;              /* those whose new event is held against every value of it, by != */
};

struct join {
  const struct condition *condition;
  size_t first, second; /* its sides */
};

/* The values that an attribute has in the block, each once. */
struct values {
  size_t count;
  int64_t value[MOST_VALUES];
};

/* A pattern and a block, with what is settled once for both. */
struct view {
  const struct pattern *p;
  const struct block *b;
  unsigned able[RECORDS];           /* the variables whose own conditions a record meets; none of a gap */
  unsigned leaving[1 << VARIABLES]; /* read by leaves() */
  size_t sides, joins;
  struct side side[MOST_SIDES];
  struct join join[CONDITIONS];
  struct values values[ATTRIBUTES]; /* of the attributes whose every value is asked */
};

/* What no event to come is held against is the same in all groups of a state. */
struct group {
  unsigned state;
  uint64_t cycle; /* one more than the time of the latest binding, where a step with the order mark leaves; else 0 */
  int64_t least[MOST_SIDES], greatest[MOST_SIDES];
  uint64_t bound[MOST_SIDES]; /* bit i: value i of the side's attribute is bound; 0 where != is not asked of it */
};

/* False where a join by != is on an attribute with more than MOST_VALUES values in the block: a group cannot tell all
   of them. A block of so many records at most never has more. */
bool view_of(struct view *w, const struct pattern *p, const struct block *b);

/* The variables that leave a state, a bit for each. */
unsigned leaves(struct view *w, unsigned state);

/* The variables that can be bound now or later: those that are not yet, and those that loop. What is bound and does not
   loop never does again. */
unsigned still_to_come(struct view *w, unsigned state);

/* Of some variables that are still to come, those whose own conditions an event meets, and whose joins with all that
   is bound. */
unsigned agreeing(const struct view *w, const struct group *g, unsigned variables, size_t event);

/* The variables whose steps fire at an event that comes behind all that is bound. Its time is no earlier, so the order
   mark asks only that it is not the latest binding's. */
unsigned firing(struct view *w, const struct group *g, size_t event);

/* The group with v bound to the event as well. */
void bind_group(struct view *w, const struct group *from, unsigned v, size_t event, struct group *to);

bool same_group(const struct view *w, const struct group *x, const struct group *y);
bool full_group(const struct view *w, const struct group *g);

/* The record at which all readings that begin at `first` close, and their mark (Rule 5.8). */
size_t closes_at(const struct view *w, size_t first, unsigned *mark);

#endif
