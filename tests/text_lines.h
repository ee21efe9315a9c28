/* A line of a text by itself, for the reader of texts.c: which kind of line it is, and what it says. Whether its names
   are known, and whether it may stand where it stands, is not asked here. */
#ifndef TEXT_LINES_H
#define TEXT_LINES_H

#include <stdbool.h>
#include <stddef.h>
#include <stdint.h>

#include "rules.h"

enum { NAMES = 26 };

/* Some bytes of the text. */
struct span {
  const uint8_t *at;
  size_t length;
};

enum kind { NO_LINE, SET_LINE, WHEN_LINE, WITHIN_LINE };

struct line {
  enum kind kind;
  size_t names; /* of a set line: the names, and which of them have a plus */
  uint8_t name[NAMES];
  bool plus[NAMES];
  struct condition condition; /* of a when line, its variables as letters */
  struct span duration;       /* of a within line */
};

/* The line that the bytes are, without their line feed; NO_LINE where they are none. */
struct line line_of(struct span bytes);

/* Of decimals, digits without a 0 in front of others. */
bool at_most(struct span decimal, const char *largest);
uint64_t value_of_decimal(struct span decimal);

#endif
