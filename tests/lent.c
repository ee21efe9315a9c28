/* Lent memory for the tests: see lent.h. */
#define _DEFAULT_SOURCE
#include "lent.h"

#include <stdlib.h>
#include <string.h>
#include <sys/mman.h>
#include <unistd.h>

enum { GUARD_BYTES = 64, GUARD = 0xa5 };

void lent_make(struct lent *l, size_t room) {
  size_t page = (size_t)sysconf(_SC_PAGESIZE);
  size_t whole = (room + GUARD_BYTES + page - 1) / page * page;
  uint8_t *start = mmap(NULL, whole + page, PROT_READ | PROT_WRITE, MAP_PRIVATE | MAP_ANONYMOUS, -1, 0);
  if (start == MAP_FAILED || mprotect(start + whole, page, PROT_NONE) != 0) abort();
  *l = (struct lent){.end = start + whole, .room = room, .bytes = start + whole, .length = 0};
}

uint8_t *lent_out(struct lent *l, const uint8_t *from, uint8_t filled, size_t length) {
  if (length > l->room) abort();
  l->bytes = l->end - length;
  l->length = length;
  if (from != NULL)
    memcpy(l->bytes, from, length);
  else
    memset(l->bytes, filled, length);
  memset(l->bytes - GUARD_BYTES, GUARD, GUARD_BYTES);
  return l->bytes;
}

bool lent_whole(const struct lent *l) {
  for (size_t i = 1; i <= GUARD_BYTES; i++)
    if (*(l->bytes - i) != GUARD) return false;
  return true;
}
