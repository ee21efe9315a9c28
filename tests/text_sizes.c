/* Large texts: see text_sizes.h. */
#define _GNU_SOURCE
#include "text_sizes.h"

#include <stdio.h>
#include <stdlib.h>
#include <string.h>
#include <sys/mman.h>
#include <unistd.h>

#include "rules.h"
#include "spaldep.h"
#include "text_calls.h"
#include "text_tally.h"

/* What comes before, what is repeated and how often, what comes behind, and what is refused. */
static const struct large {
  const char *name, *before, *unit;
  size_t times;
  const char *behind;
  unsigned code;
  size_t place;
} large_texts[] = {
    {"65,536 conditions", "set a\n", "when a.core = 0\n", 65536, "within 1\n", 2, 0},
    {"65,536 conditions, the last line bad", "set a\n", "when a.core = 0\n", 65536, "within 01\n", 14, 65537},
    {"65,536 conditions, the last line feed missing", "set a\n", "when a.core = 0\n", 65536, "within 1", 14, 65537},
    {"65,536 conditions, the last line missing", "set a\n", "when a.core = 0\n", 65536, "", 14, 65537},
    {"65,536 conditions, and a byte behind them", "set a\n", "when a.core = 0\n", 65536, "within 1\nx", 14, 65538},
    {"65,536 conditions, the first line bad", "set A\n", "when a.core = 0\n", 65536, "within 1\n", 14, 0},
    {"a duration of a million digits", "set a\nwithin ", "7", 1000000, "\n", 2, 0},
    {"a duration of a million digits, no line feed", "set a\nwithin ", "7", 1000000, "", 14, 1},
    {"a duration of a million digits, then a letter", "set a\nwithin ", "7", 1000000, "x\n", 14, 1},
    {"a duration of a million zeros", "set a\nwithin ", "0", 1000000, "\n", 14, 1},
    {"a constant of a million digits", "set a\nwhen a.core = ", "7", 1000000, "\nwithin 1\n", 14, 1},
    {"an amount of a million digits", "set a\nwhen a.amount = -", "4", 1000000, "\nwithin 1\n", 14, 1},
    {"an amount of a million zeros", "set a\nwhen a.amount = -", "0", 1000000, "\nwithin 1\n", 14, 1},
    {"half a million names", "set", " a", 500000, "\nwithin 1\n", 14, 0},
    {"a name of a million letters", "set a\nset ", "b", 1000000, "\nwithin 1\n", 14, 1},
    {"a million plus signs", "set a", "+", 1000000, "\nwithin 1\n", 14, 0},
    {"a million spaces", "set a\nset b", " ", 1000000, "\nwithin 1\n", 14, 1},
    {"an attribute of a million letters", "set a\nwhen a.", "core", 250000, " = 1\nwithin 1\n", 14, 1},
    {"an operator of a million bytes", "set a\nwhen a.core ", "<=", 500000, " 1\nwithin 1\n", 14, 1},
    {"!= half a million times", "set a\nwhen a.core ", "!=", 500000, " 1\nwithin 1\n", 14, 1},
    {"60,000 conditions of !=", "set a\n", "when a.core != 0\n", 60000, "within 1\n", 2, 0},
    {"a million words", "set a\nwhen a.core = 1", " 1", 500000, "\nwithin 1\n", 14, 1},
    {"a first word of a million letters", "", "s", 1000000, " a\nwithin 1\n", 14, 0},
    {"a million line feeds", "", "\n", 1000000, "", 14, 0},
    {"a million line feeds behind the last line", "set a\nwithin 1\n", "\n", 1000000, "", 14, 2},
    {"a million carriage returns", "set a\n", "\r\n", 500000, "", 14, 1},
    {"a megabyte in one line", "", "set a when a.core = 0 within 1 ", 33000, "", 14, 0},
};

static size_t put(uint8_t *text, size_t at, const char *words) {
  memcpy(text + at, words, strlen(words));
  return at + strlen(words);
}

static void run_large(const struct large *l) {
  static uint8_t text[LARGE_TEXT];
  size_t length = put(text, 0, l->before);
  begin_text_case(l->name, 0);
  for (size_t i = 0; i < l->times; i++) length = put(text, length, l->unit);
  length = put(text, length, l->behind);
  if (compare_read_text(text, length, SPALDEP_PATTERN_BYTES_MAX) != refusal(l->code, l->place))
    fail_text("answers something else than is known");
  text_tally.met[TEXT_LARGE]++;
  end_text_case();
}

void run_large_texts(void) {
  for (size_t i = 0; i < sizeof large_texts / sizeof *large_texts; i++) run_large(&large_texts[i]);
}

/* The same megabyte of lines in one place behind the other, so that no more than that is taken up. */
void run_last_place(void) {
  static const char first[] = "set a\n", line[] = "when a.core = 0\n";
  enum { PART = 1 << 20, PARTS = 256, LINE = sizeof line - 1 };
  size_t page = (size_t)sysconf(_SC_PAGESIZE), whole = page + (size_t)PART * PARTS;
  begin_text_case("more lines than a place can tell", 0);
  int file = memfd_create("lines", 0);
  uint8_t *at = mmap(NULL, whole + page, PROT_NONE, MAP_PRIVATE | MAP_ANONYMOUS, -1, 0);
  if (file < 0 || ftruncate(file, PART) != 0 || at == MAP_FAILED) abort();
  if (mprotect(at, page, PROT_READ | PROT_WRITE) != 0) abort();
  memcpy(at + page - strlen(first), first, strlen(first));
  uint8_t *part = mmap(NULL, PART, PROT_READ | PROT_WRITE, MAP_SHARED, file, 0);
  if (part == MAP_FAILED) abort();
  for (size_t i = 0; i < PART; i += LINE) memcpy(part + i, line, LINE);
  for (size_t i = 0; i < PARTS; i++)
    if (mmap(at + page + i * PART, PART, PROT_READ, MAP_SHARED | MAP_FIXED, file, 0) == MAP_FAILED) abort();
  expect_read_refused(at + page - strlen(first), whole - page + strlen(first), SPALDEP_PATTERN_BYTES_MAX,
                      refusal(SPALDEP_REFUSED_TEXT, 0xffffff));
  munmap(at, whole + page);
  munmap(part, PART);
  close(file);
  text_tally.met[TEXT_LAST_PLACE]++;
  end_text_case();
}
