/* What a run of compare has met: see tally.h. */
#include "tally.h"

#include <inttypes.h>
#include <stdio.h>

#include "demands.h"
#include "texts.h"

/* The codes that these calls have. Refusal 13 does not arise: a binding takes a record above all that are bound.
   Refusal 14 is of texts. */
static const unsigned codes[] = {0, 1, 2, 3, 4, 5, 6, 7, 8, 9, 10, 11, 12, 15};
enum { CODES = sizeof codes / sizeof *codes };

struct tally tally;

const char *const call_names[CALLS] = {"check_pattern",  "check_block", "list_automaton", "forward",
                                       "start_by_start", "measure",     "make_index",     "search"};

/* The refusals that each call has: bit i for number i. */
static const unsigned call_refusals[CALLS] = {0x1e, 0xe0, 0x101e, 0xffe, 0xbfe, 0x2fe, 0x80e0, 0x8ffe};

static const char *const met_names[METS] = {
    "reports with mark 1",
    "reports with mark 2",
    "reports with mark 3",
    "reports with mark 4",
    "reports with mark 3 where the last set has a plain variable too",
    "reports with mark 4 where an earlier set has a group variable",
    "reports with mark 3 by a gap past the window",
    "reports with mark 4 by a gap past the window",
    "readings with mark 4 that are reported as well where their gap is an event",
    "readings with mark 3 that are not, but with more bindings",
    "reports with a reading of the most bindings",
    "forward passes whose peak is the limit",
    "forward passes with a peak of the highest limit",
    "passes that fill the result slice",
    "passes that need more than the longest result slice",
    "listings that fill their slice",
    "accepted blocks of the most records",
    "accepted blocks of no records",
    "accepted patterns of the most variables",
    "accepted patterns of the most conditions",
    "accepted blocks with two events in one cycle",
    "accepted blocks with a hundred events in one cycle",
    "reports with two events of the first one's cycle in a reading",
    "reports with two events of that cycle in a reading, and two of the last cycle of its window",
    "reports with a duration of 0 and two events in a reading",
    "reports with a set begun behind an event that only the order mark kept out of it",
    "reports with readings that begin at different events of one cycle",
    "reports put together from those of two parts of the block",
    "among these, parts cut inside a cycle, with a reading on both sides",
    "blocks refused with 7 for a time below the one before",
    "blocks refused with 7 for a gap in the cycle of an event before it",
    "blocks refused with 7 for an event in the cycle of a gap before it",
    "blocks refused with 7 for a gap in the cycle of another",
    "accepted patterns with a condition on wave as first attribute",
    "accepted patterns with a condition on wave as second attribute",
    "accepted patterns that hold wave against a constant above 255",
    "accepted patterns that hold wave against core",
    "accepted patterns that hold wave against slot",
    "accepted patterns that hold wave against amount",
    "accepted patterns that hold wave against another attribute of the same event",
    "patterns refused with 4 for attribute 6 or 7 on the first side, and nothing else in that condition",
    "patterns refused with 4 for attribute 6 or 7 on the second side, and nothing else in that condition",
    "accepted blocks with an event that has a wave",
    "accepted blocks with an event of wave 255",
    "blocks refused with 6 for a gap that has a wave, and nothing else in that record",
    "blocks refused with 6 for kind 2 or 3, with a last byte of 0",
    "blocks refused with 6 for kind 2 or 3, with another last byte",
    "reports of a pattern that asks wave, on a block with waves",
    "forward passes that answer or report something else with waves of 0",
    "passes without a condition on wave, held against the same block with waves of 0",
    "reports among these",
    "accepted patterns with != between two attributes of one event",
    "accepted patterns with != between a group variable and another variable",
    "accepted patterns with != between slot and amount, on blocks with both of the same 32 bits from 2^31 on",
    "accepted patterns with != between slot and amount, on blocks with both 2147483647",
    "reports of a pattern with !=",
    "reports with a variable bound to different values, all of which a join by != asks",
    "patterns refused with 4 for operator 6, and nothing else in that condition",
    "patterns refused with 4 for operator 7, and nothing else in that condition",
    "indexes with events of all classes",
    "indexes with events of all cores",
    "indexes with as many events of one class as a block has records at most",
    "indexes of blocks without records",
    "indexes of blocks of gaps alone",
    "indexes of blocks with events and gaps",
    "searches refused with 15 for an index that is too short",
    "searches refused with 15 for an index that is too long",
    "searches refused with 15 for the first zero bit",
    "searches refused with 15 for the last zero bit",
    "searches refused for the pattern, with an index that is not in order",
    "searches refused with 15, on a block that is not in order",
    "searches refused with 15, with a limit or memory that is not in order",
    "searches with the block's own index that report something",
    "searches with another index that report something",
    "searches with the block's own index that cannot match only because a class has no events",
    "searches with the block's own index that cannot match only because a core has no events",
    "searches with the block's own index that cannot match only because of a class above 5",
    "searches with the block's own index that cannot match only because of a core above 63",
    "searches with the block's own index that cannot match, where the forward pass has a peak",
    "searches with the block's own index that cannot match, where the forward pass refuses with 9",
    "searches with the block's own index that cannot match, where the forward pass refuses with 10",
    "searches with another index that cannot match, where the forward pass refuses with 11",
    "searches with another index that cannot match, where the forward pass reports something",
    "searches refused with 5, of a pattern that cannot match by the index",
    "searches refused with 6, of a pattern that cannot match by the index",
    "searches refused with 7, of a pattern that cannot match by the index",
    "searches refused with 8, of a pattern that cannot match by the index",
    "searches by a pass where no event meets a condition that type is a constant",
    "searches by a pass where no event meets a condition that slot is a constant",
    "searches by a pass where no event meets a condition that amount is a constant",
    "searches by a pass where no event meets a condition that wave is a constant",
    "searches by a pass where no event meets a condition that type or wave is a constant above 255",
    "searches by a pass where no event meets a condition with a constant and another operator, on class or core",
    "searches by a pass where no events meet a condition that class or core is an attribute",
    "passes where only the forward one refuses, with 10",
    "forward passes held against every list of bindings",
    "start-by-start passes of the reference held against its merged readings",
    "among these, passes of a pattern with a join by !=",
    "wide cases with a 33rd binding",
    "wide cases, without joins, with a 33rd binding only behind many branches",
    "wide cases whose report needs more than the longest result slice",
    "wide cases with a report, and many branches that lead to none",
    "wide cases with many records behind full readings that nothing can follow",
    "wide cases with joins",
    "wide cases with a condition on wave",
    "wide cases with a join by !=",
    "wide cases with two events in one cycle",
};

static const char *const place_names[PLACES] = {
    "accepted patterns with != beside a constant",
    "accepted patterns with a join by !=, by first attribute",
    "accepted patterns with a join by !=, by second attribute",
};

static bool gives(int call, unsigned code) { return code == 0 || (call_refusals[call] >> code & 1) == 1; }

static bool is_wide(int met) { return met >= MET_WIDE_TOO_LONG && met <= MET_WIDE_CYCLE; }

void print_answers(bool with_measure) {
  printf("answers by their code, 0 accepted; a dash where the call has no such refusal\n%-15s", "");
  for (unsigned i = 0; i < CODES; i++) printf("%7u", codes[i]);
  printf("\n");
  for (int call = 0; call < CALLS; call++) {
    if (call == CALL_MEASURE && !with_measure) continue;
    printf("%-15s", call_names[call]);
    for (unsigned i = 0; i < CODES; i++)
      if (gives(call, codes[i]))
        printf("%7" PRIu64, tally.codes[call][codes[i]]);
      else
        printf("%7s", "-");
    printf("\n");
  }
  printf("refusal 13 has no case: a binding takes a record above all that are bound\n");
}

void demand_all_met(bool with_measure, bool with_wide) {
  for (int call = 0; call < CALLS; call++)
    for (unsigned i = 0; i < CODES; i++) {
      if (call == CALL_MEASURE && !with_measure) continue;
      if (!gives(call, codes[i]) || tally.codes[call][codes[i]] > 0) continue;
      printf("FAILED: no case met %s with code %u\n", call_names[call], codes[i]);
      tally.failed++;
    }
  for (int met = 0; met < METS; met++)
    if (with_wide || !is_wide(met)) demand(tally.met[met], met_names[met], "", &tally.failed);
  for (int place = 0; place < PLACES; place++)
    demand_each(place_names[place], tally.not_equal[place], attribute_words, ATTRIBUTES, &tally.failed);
  demand_each("forward passes that answer or report something else with another operator in the place of !=",
              tally.otherwise, operator_words, NOT_EQUAL, &tally.failed);
  if (!with_wide) return;
  printf("%" PRIu64 " wide cases in all; cut as too wide: %" PRIu64
         " with too many groups of readings or too many values, %" PRIu64 " on which a trial did not end\n",
         tally.wide, tally.too_many_groups, tally.trial_too_long);
}
