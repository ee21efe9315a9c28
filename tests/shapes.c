/* The shapes of random cases: see shapes.h. */
#include "shapes.h"

static void any_knobs(struct random *r, struct knobs *k) {
  *k = (struct knobs){.shape = "any", .effort = 6000};
  k->variables = PICK(r, 1, 2, 2, 3, 3, 3, 4, 4, 5, 6, 8, 12);
  k->sets = between(r, 1, k->variables < 8 ? k->variables : 8);
  k->group_percent = PICK(r, 0, 20, 50, 100);
  k->own_class_percent = PICK(r, 100, 90, 70, 30, 0);
  k->shared_percent = PICK(r, 0, 0, 30, 60);
  k->core_joins_percent = PICK(r, 0, 0, 50, 100);
  k->wave_joins_percent = PICK(r, 0, 0, 0, 0, 0, 100);
  k->conditions = PICK(r, 0, 0, 1, 2, 4, 8);
  k->met_percent = PICK(r, 0, 30, 60, 90);
  k->edge_percent = PICK(r, 0, 10, 50, 100);
  k->absent_percent = 10;
  k->records = PICK(r, 0, 1, k->variables, 2 * k->variables, 3 * k->variables, 4 * k->variables, 20, 30, 40);
  k->gap_percent = PICK(r, 0, 0, 3, 6, 12, 30);
  k->fire_percent = PICK(r, 100, 100, 80, 50, 10);
  k->in_turn_percent = PICK(r, 0, 50, 90, 100, 100);
  k->cores = PICK(r, 1, 1, 2, 3, 64);
  k->waves = PICK(r, 1, 1, 2, 4, 256);
  k->time_step = (uint64_t)1 << PICK(r, 0, 1, 4, 10, 26, 33);
  k->same_percent = PICK(r, 0, 0, 20, 60, 100);
  k->same_most = PICK(r, 1, 1, 2, 8);
  k->window = PICK(r, 0, 0, 1, k->variables - 1, k->variables, 2 * k->variables, 3 * k->variables, 20);
}

/* Readings of 28 to 36 bindings: one or two group variables whose events come again and again. */
static void long_knobs(struct random *r, struct knobs *k) {
  *k = (struct knobs){
      .shape = "long", .effort = 6000, .own_class_percent = 100, .absent_percent = 30, .fire_percent = 100};
  k->variables = between(r, 1, 3);
  k->sets = between(r, 1, k->variables);
  k->group_percent = 100;
  k->shared_percent = PICK(r, 0, 0, 0, 20);
  k->core_joins_percent = PICK(r, 0, 0, 100);
  k->conditions = PICK(r, 0, 0, 1);
  k->records = between(r, 30, 44);
  k->gap_percent = PICK(r, 0, 0, 1);
  k->fire_percent = PICK(r, 100, 95, 80);
  k->in_turn_percent = PICK(r, 0, 50, 100);
  k->cores = PICK(r, 1, 1, 1, 2);
  k->waves = PICK(r, 1, 4);
  k->time_step = PICK(r, 1, 10);
  k->same_percent = PICK(r, 0, 0, 30, 100);
  k->same_most = PICK(r, 1, 4, 40);
  k->window = PICK(r, 28, 31, 32, 33, 34, 36, 0);
}

/* Readings near 32 bindings that take their records at different rates: each core, or each wave, has a start of its
   own, and its readings bind the events of that core or wave. The 33rd binding met first need not have the least
   record. */
static void rates_knobs(struct random *r, struct knobs *k) {
  unsigned parts = between(r, 2, 3);
  bool by_wave = chance(r, 40);
  *k = (struct knobs){.shape = "rates", .effort = 6000, .own_class_percent = 100, .absent_percent = 30, .time_step = 1};
  k->variables = PICK(r, 2, 2, 3);
  k->sets = k->variables;
  k->group_percent = 100;
  k->first_single = true;
  k->core_joins_percent = by_wave ? 0 : 100;
  k->wave_joins_percent = by_wave ? 100 : 0;
  k->cores = by_wave ? 1 : parts;
  k->waves = by_wave ? parts : PICK(r, 1, 256);
  k->records = 42 * parts;
  k->fire_percent = PICK(r, 100, 95);
  k->last_percent = PICK(r, 80, 90);
  k->in_turn_percent = PICK(r, 0, 100);
  k->gap_percent = PICK(r, 0, 0, 0, 1);
  k->same_percent = PICK(r, 0, 0, 50);
  k->same_most = PICK(r, 1, 3);
  k->window = PICK(r, 0, 34 * parts, k->records, k->records);
}

/* Sets whose variables ask for little, so that readings branch and the limit is met. */
static void branching_knobs(struct random *r, struct knobs *k) {
  any_knobs(r, k);
  k->shape = "branching";
  k->variables = between(r, 2, 6);
  k->sets = between(r, 1, 2);
  k->group_percent = PICK(r, 30, 60, 100);
  k->own_class_percent = PICK(r, 0, 30, 60);
  k->shared_percent = 60;
  k->records = between(r, 2, 14);
  k->gap_percent = PICK(r, 0, 0, 5);
  k->window = PICK(r, 0, 4, 6, 10);
}

static void gaps_knobs(struct random *r, struct knobs *k) {
  any_knobs(r, k);
  k->shape = "gaps";
  k->variables = between(r, 1, 3);
  k->sets = between(r, 1, k->variables);
  k->gap_percent = PICK(r, 10, 20, 40, 70, 100);
  k->records = between(r, 1, 40);
  k->window = PICK(r, 0, 2, 4, 8);
}

/* Conditions between two variables, of slots, amounts and waves at their edges. */
static void joins_knobs(struct random *r, struct knobs *k) {
  any_knobs(r, k);
  k->shape = "joins";
  k->variables = between(r, 2, 5);
  k->sets = between(r, 1, k->variables);
  k->own_class_percent = PICK(r, 100, 70, 0);
  k->conditions = between(r, 1, 6);
  k->met_percent = PICK(r, 0, 50, 70, 90, 90);
  k->edge_percent = PICK(r, 0, 50, 100);
  k->records = between(r, 2, 30);
  k->fire_percent = 100;
  k->in_turn_percent = PICK(r, 50, 100);
  k->window = PICK(r, 0, k->variables, 2 * k->variables, 3 * k->variables);
}

/* Conditions that ask wave: of constants, of another variable's attributes and of the same event's. */
static void waves_knobs(struct random *r, struct knobs *k) {
  any_knobs(r, k);
  k->shape = "waves";
  k->variables = between(r, 1, 4);
  k->sets = between(r, 1, k->variables);
  k->own_class_percent = PICK(r, 100, 70, 0);
  k->core_joins_percent = PICK(r, 0, 0, 0, 50);
  k->wave_joins_percent = PICK(r, 0, 0, 50);
  k->conditions = between(r, 1, 4);
  k->wave_percent = 100;
  k->met_percent = PICK(r, 0, 50, 70, 90, 90);
  k->edge_percent = PICK(r, 0, 30, 100);
  k->records = between(r, 2, 24);
  k->gap_percent = PICK(r, 0, 0, 3, 12);
  k->fire_percent = 100;
  k->in_turn_percent = PICK(r, 50, 100);
  k->waves = PICK(r, 1, 2, 3, 4, 64, 256);
  k->window = PICK(r, 0, k->variables, 2 * k->variables, 3 * k->variables);
}

/* Every size of pattern, with up to 32 conditions; short blocks. */
static void automaton_knobs(struct random *r, struct knobs *k) {
  any_knobs(r, k);
  k->shape = "automaton";
  k->variables = between(r, 1, 12);
  k->sets = between(r, 1, k->variables < 8 ? k->variables : 8);
  k->conditions = between(r, 0, 32);
  k->met_percent = PICK(r, 0, 95);
  k->in_turn_percent = 100;
  k->fire_percent = 100;
  k->records = PICK(r, 0, 3, k->variables, 2 * k->variables);
}

/* Small enough to try every list of bindings. */
static void tiny_knobs(struct random *r, struct knobs *k) {
  any_knobs(r, k);
  k->shape = "tiny";
  k->variables = between(r, 1, 4);
  k->sets = between(r, 1, k->variables);
  k->own_class_percent = PICK(r, 100, 60, 0);
  k->shared_percent = PICK(r, 0, 50);
  k->conditions = PICK(r, 0, 0, 1, 2);
  k->records = k->variables == 1 ? between(r, 0, 11) : k->variables == 2 ? between(r, 2, 7) : between(r, 3, 5);
  k->gap_percent = PICK(r, 0, 0, 15);
  k->in_turn_percent = PICK(r, 50, 100);
  k->fire_percent = PICK(r, 100, 80);
}

static void large_knobs(struct random *r, struct knobs *k) {
  any_knobs(r, k);
  k->shape = "large";
  k->variables = between(r, 1, 5);
  k->sets = between(r, 1, k->variables);
  k->own_class_percent = 100;
  k->shared_percent = PICK(r, 0, 0, 20);
  k->conditions = PICK(r, 0, 0, 1, 2);
  k->records = PICK(r, 300, 1000, 2000, 4095, 4096, 4096, 4096, 4097);
  k->gap_percent = PICK(r, 0, 0, 1, 5);
  k->fire_percent = PICK(r, 5, 20, 60);
  k->cores = PICK(r, 1, 2, 64, 64);
  k->time_step = PICK(r, 1, 20, 1000);
  k->same_percent = PICK(r, 0, 1, 10, 100);
  k->same_most = PICK(r, 1, 3, 110);
  k->window = PICK(r, 2, 5, 10, 20);
  k->effort = 60000;
}

/* As many events as a block has records at most, all of the class that the last variable asks for. */
static void one_class_knobs(struct random *r, struct knobs *k) {
  *k = (struct knobs){.shape = "one class", .effort = 60000, .own_class_percent = 100, .fire_percent = 100};
  k->variables = PICK(r, 1, 1, 2, 3, 4, 5, 6, 6);
  k->sets = k->variables;
  k->group_percent = PICK(r, 0, 50);
  k->last_percent = 100;
  k->records = 4096;
  k->cores = PICK(r, 1, 2, 64);
  k->waves = PICK(r, 1, 256);
  k->time_step = PICK(r, 1, 1000);
  k->window = between(r, 1, 4);
}

void choose_knobs(struct random *r, struct knobs *k) {
  unsigned n = below(r, 1000);
  if (n < 15)
    large_knobs(r, k);
  else if (n < 80)
    long_knobs(r, k);
  else if (n < 115)
    rates_knobs(r, k);
  else if (n < 230)
    branching_knobs(r, k);
  else if (n < 330)
    gaps_knobs(r, k);
  else if (n < 480)
    joins_knobs(r, k);
  else if (n < 600)
    automaton_knobs(r, k);
  else if (n < 740)
    tiny_knobs(r, k);
  else if (n < 840)
    waves_knobs(r, k);
  else if (n < 843)
    one_class_knobs(r, k);
  else
    any_knobs(r, k);
  if (k->variables > 6 * k->sets) k->sets = 2;
}
