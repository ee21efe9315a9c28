/*
 * Random texts. A making is what a text is to say: sets, conditions and a duration, with names of its own. From it come
 * the text, the pattern's bytes and what a reader must refuse it with, each by its own way and none by the reference,
 * which is held against them too. A making may have too many variables, conditions or sets, or too long a duration; the
 * text that is written of it is always in the form.
 */
#ifndef TEXT_CASES_H
#define TEXT_CASES_H

#include <stdbool.h>
#include <stddef.h>
#include <stdint.h>

#include "chance.h"
#include "rules.h"

enum {
  LETTERS = 26,
  MOST_SAID = 400, /* conditions of a making */
  DIGITS = 1000,   /* of the longest duration of a making */
  TEXT_ROOM = 1 << 15,
  SAID_PATTERN_ROOM = 8 + LETTERS + 8 * MOST_SAID + 64
};

struct making {
  unsigned variables, sets;
  unsigned set[LETTERS]; /* from 1 */
  bool group[LETTERS];
  char name[LETTERS];
  bool named_in_order; /* a, b, c */
  unsigned conditions;
  struct condition condition[MOST_SAID];
  char duration[DIGITS + 1];
  uint64_t cycles; /* the duration, where it has no more than 40 bits */
  bool too_long;   /* it has more */
};

struct text {
  size_t length;
  uint8_t bytes[TEXT_ROOM];
};

void make_making(struct random *r, struct making *m);

/* The same with the names a, b, c. */
void rename_making(struct making *m);

/* One when line of a making that has at least one variable, without its line feed. */
void make_condition(struct random *r, const struct making *m, struct condition *k);
size_t write_condition(const struct making *m, const struct condition *k, char *to);

void write_making(const struct making *m, struct text *t);

/* How many bytes a pattern has by its counts, and the bytes; also where the pattern is none that is accepted, with as
   much of a number as its field holds. */
size_t making_pattern_len(const struct making *m);
void write_making_pattern(const struct making *m, uint8_t *pattern);

/* Whether the making is to be refused with 2, and with 3 for the variable `place`. */
bool has_too_much(const struct making *m);
bool has_bad_set(const struct making *m, unsigned *place);

#endif
