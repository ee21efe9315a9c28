/*
 * Families of wide patterns: those of which a block can have more readings than anyone waits for. Patterns have 1 to 12
 * variables in 1 to 3 sets, none of them group variables, all, or some; blocks 10 to 4,096 records; windows from 5
 * records to all. A family's patterns are drawn one after another from a seed of its own: the same in every run of one
 * build.
 */
#ifndef FAMILIES_H
#define FAMILIES_H

#include <stdbool.h>
#include <stdio.h>

#include "workloads.h"

enum { FAMILIES = 13, PATTERNS_A_FAMILY = 300, DESCRIPTION_BYTES = 96 };

struct wide {
  bool joins;
  char description[DESCRIPTION_BYTES]; /* its sets, a group variable with a +, and the records of window and block */
  struct workload workload;
};

const char *family_name(unsigned family);

/* Before the first pattern of a family; then its patterns in turn. */
void begin_family(unsigned family);
void next_pattern(unsigned family, struct wide *out);

/* The conditions of a pattern, each after a comma. */
void print_conditions(FILE *to, const struct workload *w);

#endif
