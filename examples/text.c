/*
 * text read < TEXT > PATTERN    makes the bytes of a pattern of its text
 * text write < PATTERN > TEXT   makes the text of a pattern of its bytes
 *
 * A refusal is told on standard error, by number, place and in words, and of a text with the line that it is about.
 * Exit status: 0 where it is made, 1 with a refusal, 2 for wrong use or input or output that fails.
 *
 *     cc -Iinclude examples/text.c target/staticlib/libspaldep.a -o text
 *     ./text read < examples/bench.txt > my.pattern
 */
#include <stdbool.h>
#include <stdio.h>
#include <string.h>

#include "spaldep.h"

static uint8_t given[1 << 20];
static uint8_t made[SPALDEP_TEXT_BYTES_MAX]; /* a pattern is shorter than the longest text */

static const char *reason(unsigned code) {
  switch (code) {
  case SPALDEP_REFUSED_PATTERN_LENGTH:
    return "the pattern's length is not what its header says";
  case SPALDEP_REFUSED_HEADER:
    return "more variables, conditions or cycles than a pattern has fields for, or a bad header";
  case SPALDEP_REFUSED_VARIABLE:
    return "too many sets, too many variables in a set, or a bad variable byte";
  case SPALDEP_REFUSED_CONDITION:
    return "a condition of the pattern breaks its rules";
  case SPALDEP_REFUSED_TEXT:
    return "a line that is bad or missing";
  default:
    return "see include/spaldep.h";
  }
}

/* The line of a number, as it stands in the text; nothing where the text does not have it. */
static void show_line(size_t length, uint32_t number) {
  size_t at = 0, end;
  for (; number > 0 && at < length; number--) {
    while (at < length && given[at] != '\n') at++;
    at++;
  }
  for (end = at; end < length && given[end] != '\n'; end++) continue;
  if (at < length) fprintf(stderr, "    %.*s\n", (int)(end - at), (const char *)given + at);
}

int main(int count, char **words) {
  bool reads = count == 2 && strcmp(words[1], "read") == 0;
  if (!reads && (count != 2 || strcmp(words[1], "write") != 0)) {
    fprintf(stderr, "usage: text read < TEXT > PATTERN, or text write < PATTERN > TEXT\n");
    return 2;
  }
  size_t length = fread(given, 1, sizeof given, stdin);
  if (ferror(stdin) || length == sizeof given) {
    fprintf(stderr, "text: the input cannot be read, or is a megabyte or longer\n");
    return 2;
  }
  uint64_t answer = reads ? spaldep_read_text(given, length, made, sizeof made)
                          : spaldep_write_text(given, length, made, sizeof made);
  unsigned code = spaldep_code(answer);
  if (code != SPALDEP_DONE) {
    fprintf(stderr, "refused %u %lu: %s\n", code, (unsigned long)spaldep_place(answer), reason(code));
    if (code == SPALDEP_REFUSED_TEXT) show_line(length, spaldep_place(answer));
    return 1;
  }
  if (fwrite(made, 1, spaldep_used(answer), stdout) != spaldep_used(answer) || fflush(stdout) != 0) {
    fprintf(stderr, "text: the output cannot be written\n");
    return 2;
  }
  return 0;
}
