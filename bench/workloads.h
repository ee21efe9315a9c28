/* The bench's workloads: a pattern and a block each, and what packs them. One build makes the same ones in every run;
   another compiler may draw their numbers in another order, so times are compared between runs of one machine. */
#ifndef WORKLOADS_H
#define WORKLOADS_H

#include <stdbool.h>
#include <stddef.h>
#include <stdint.h>

#include "spaldep.h"

struct workload {
  const char *name;
  size_t pattern_len, block_len;
  uint8_t pattern[SPALDEP_PATTERN_BYTES_MAX];
  uint8_t block[SPALDEP_BLOCK_RECORDS * SPALDEP_RECORD_BYTES];
  uint8_t index[SPALDEP_INDEX_BYTES]; /* of the block, by which it is searched; make_workload leaves it as it is */
};

/* The workloads that are timed; one more, number WORKLOADS, is there for the stack: readings of 32 bindings, six
   variables firing at each, with long idle stretches between. */
enum { WORKLOADS = 5, JOINS_WORKLOAD = 3 };

/* What a workload's variables ask of an event alone: its class, its type, its amount, its wave, its type and a bound on
   its slot, or something of each that compares two of the event's own attributes. The same events meet them, but for
   the bound, which some of those events fail. JOINS_WORKLOAD, whose joins need slots and amounts of their own, has no
   BY_AMOUNT and no BY_ITSELF, and the one for the stack has BY_CLASS alone. Events have waves with BY_WAVE alone;
   otherwise these are 0. */
enum asked { BY_CLASS, BY_TYPE, BY_AMOUNT, BY_WAVE, BY_TYPE_AND_SLOT, BY_ITSELF, WAYS_TO_ASK };

extern const char *const way_names[WAYS_TO_ASK];

bool has_way(unsigned number, enum asked asked);
void make_workload(unsigned number, enum asked asked, struct workload *out);

/* ---- packing ---- */

/* Attributes and operators of conditions. */
enum {
  CORE = SPALDEP_ATTRIBUTE_CORE,
  TYPE = SPALDEP_ATTRIBUTE_TYPE,
  CLASS = SPALDEP_ATTRIBUTE_CLASS,
  SLOT = SPALDEP_ATTRIBUTE_SLOT,
  AMOUNT = SPALDEP_ATTRIBUTE_AMOUNT,
  WAVE = SPALDEP_ATTRIBUTE_WAVE,
  EQUAL = SPALDEP_OPERATOR_EQUAL,
  AT_MOST = SPALDEP_OPERATOR_LESS_EQUAL,
  ABOVE = SPALDEP_OPERATOR_GREATER
};

/* A pattern without conditions, from one byte a variable as patterns have it; then condition after condition, with a
   constant or with the attribute of a second variable. */
void begin_pattern(struct workload *w, unsigned n, const char *variables, uint64_t duration);
void with_constant(struct workload *w, unsigned variable, unsigned attribute, unsigned operator, uint8_t constant);
void with_variable(struct workload *w, unsigned variable, unsigned attribute, unsigned operator, unsigned second,
                   unsigned second_attribute);

/* The first type that is used of each class; the two types after it are of the class too. */
enum { CLASSES = 6 };
extern const uint8_t class_types[CLASSES];

/* Records of a block, CYCLES_A_RECORD cycles from one to the next. An event has wave 0; put_gap makes a gap of it. */
enum { CYCLES_A_RECORD = 10 };
void put_event(struct workload *w, size_t record, unsigned core, unsigned type, uint32_t slot, uint32_t amount);
void put_gap(struct workload *w, size_t record);

/* 0 to below - 1 by chance, the same numbers after the same seed. A seed is not 0. */
void seed_chance(uint32_t seed);
uint32_t chance(uint32_t below);

#endif
