/* Indexes to search the block of a case with: its own and others, in order and not. */
#ifndef INDEX_CASES_H
#define INDEX_CASES_H

#include <stddef.h>
#include <stdint.h>

#include "cases.h"

enum { INDEX_ROOM = 64 };

struct index {
  size_t length;
  uint8_t bytes[INDEX_ROOM];
};

enum {
  INDEX_OWN,
  INDEX_BIT,       /* its own with a bit changed, */
  INDEX_NO_CLASS,  /* or with no events of a class that has some, */
  INDEX_NO_CORE,   /* or without a core, */
  INDEX_ZERO_BITS, /* or with a zero bit set or both, */
  INDEX_LENGTH,    /* or with another length */
  INDEX_PART,      /* of a part of the block */
  INDEX_OTHER,     /* of another block */
  INDEX_EMPTY,     /* by which there are no events, */
  INDEX_FULL,      /* and by which there are events of all classes and cores */
  INDEX_KINDS
};

/* What is said of a search with such an index. */
extern const char *const search_names[INDEX_KINDS];

/* A length that an index does not have. */
size_t any_other_length(struct random *r);

/* An index of that kind, by the block of the case and its own index. Where the block is refused it has no own index,
   and one by which there are no events stands for it. */
void put_index(struct random *r, int kind, const struct test_case *c, const struct index *own, struct index *out);

#endif
