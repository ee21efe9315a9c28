/*
 * count lines                      what there is to count, a line each: PASS WORKLOAD ASKED, then the names of both
 * count stack PASS WORKLOAD ASKED  the bytes of stack that a call takes
 * count call PASS WORKLOAD ASKED   makes one call of the library and no other, for a tool that counts its instructions
 * PASS is forward, start-by-start, check, make-index or search, WORKLOAD and ASKED are numbers of workloads.h.
 * bench/run --no-inline makes a table of them. The last three have the way BY_CLASS alone: the check of a block and the
 * maker of its index take the same in each, and a search that goes on takes what the forward pass does. By its own
 * index the workload where nothing fires cannot match; the others can.
 */
#include <stdio.h>
#include <stdlib.h>
#include <string.h>

#include "passes.h"
#include "yardstick.h"

static struct workload w;

static const struct counted {
  const char *name;
  pass run;
  enum asked last; /* the last way to ask that it has */
} all_counted[] = {{"forward", library_forward, WAYS_TO_ASK - 1},
                   {"start-by-start", library_starts, WAYS_TO_ASK - 1},
                   {"check", library_check_block, BY_CLASS},
                   {"make-index", library_make_index, BY_CLASS},
                   {"search", library_search, BY_CLASS}};
enum { COUNTED = sizeof all_counted / sizeof all_counted[0] };

static void print_lines(const struct counted *c) {
  for (enum asked asked = BY_CLASS; asked <= c->last; asked++)
    for (unsigned i = 0; i <= WORKLOADS; i++) {
      if (!has_way(i, asked)) continue;
      make_workload(i, asked, &w);
      printf("%s %u %u %s by %s\n", c->name, i, (unsigned)asked, w.name, way_names[asked]);
    }
}

/* Null where there is none of that name. */
static const struct counted *counted_of(const char *name) {
  for (unsigned i = 0; i < COUNTED; i++)
    if (strcmp(all_counted[i].name, name) == 0) return &all_counted[i];
  return NULL;
}

/* The number that a word is, or 99 where it is none of one or two digits. */
static unsigned number_of(const char *word) {
  size_t digits = strspn(word, "0123456789");
  if (digits == 0 || digits > 2 || word[digits] != 0) return 99;
  return (unsigned)atoi(word);
}

int main(int count, char **words) {
  static uint8_t result[SPALDEP_RESULT_BYTES_MAX];
  if (count == 2 && strcmp(words[1], "lines") == 0) {
    for (unsigned i = 0; i < COUNTED; i++) print_lines(&all_counted[i]);
    return 0;
  }
  if (count != 5) return 2;
  unsigned number = number_of(words[3]), asked = number_of(words[4]);
  const struct counted *c = counted_of(words[2]);
  if (c == NULL || asked > c->last || !has_way(number, asked)) return 2;
  make_workload(number, asked, &w);
  yardstick_make_index(w.block, w.block_len, w.index, sizeof w.index);
  if (strcmp(words[1], "call") == 0) {
    c->run(&w, result);
    return 0;
  }
  if (strcmp(words[1], "stack") != 0) return 2;
  painted(c->run, &w); /* the first call of a function of the C library takes stack to find it */
  printf("%zu\n", painted(c->run, &w) - painted(NULL, &w));
  return 0;
}
