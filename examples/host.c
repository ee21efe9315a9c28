/*
 * host PATTERN BLOCK [LIMIT]: a complete host. It loads a pattern and a block from files, lends memory, runs the
 * forward pass and, where that did not refuse, the other pass, compares them and prints the spans: a line a reading,
 * its mark and then variable@record for each binding, and a line 'ok READINGS USED PEAK' at the end. A refusal is one
 * line, 'refused NUMBER PLACE', and is told in words on standard error. Exit status: 0 with spans or none, 1 with a
 * refusal, 2 for wrong use or a file that cannot be read, 3 where the passes differ.
 *
 *     cc -Iinclude examples/host.c target/staticlib/libspaldep.a -o host
 *     ./host examples/bench.pattern examples/bench.block
 */
#include <errno.h>
#include <stdio.h>
#include <stdlib.h>
#include <string.h>

#include "spaldep.h"

static void fail(const char *what) {
  fprintf(stderr, "host: %s: %s\n", what, strerror(errno));
  exit(2);
}

/* All bytes of a file. The pointer is never null, also where the file is empty. */
static uint8_t *load(const char *name, size_t *length) {
  size_t room = 1 << 16;
  uint8_t *bytes = malloc(room);
  FILE *file = fopen(name, "rb");
  *length = 0;
  if (file == NULL || bytes == NULL) fail(name);
  for (size_t got; (got = fread(bytes + *length, 1, room - *length, file)) > 0;) {
    *length += got;
    if (*length < room) continue;
    room *= 2;
    bytes = realloc(bytes, room);
    if (bytes == NULL) fail(name);
  }
  if (ferror(file)) fail(name); /* a folder is opened, and cannot be read */
  fclose(file);
  return bytes;
}

/* A limit in decimal digits; whether it is in order is for the call to say. */
static uint32_t limit_of(const char *digits) {
  char *end;
  errno = 0;
  unsigned long long limit = strtoull(digits, &end, 10);
  if (*digits < '0' || *digits > '9' || *end != '\0' || errno != 0 || limit > UINT32_MAX) {
    fprintf(stderr, "host: the limit %s is no number of 32 bits\n", digits);
    exit(2);
  }
  return (uint32_t)limit;
}

static const char *reason(unsigned code) {
  static const char *const reasons[] = {
      "done",
      "the pattern's length is not what its header says",
      "a field of the pattern's header is outside its values",
      "a variable of the pattern breaks its rules",
      "a condition of the pattern breaks its rules",
      "the block is not whole records, or has too many",
      "a record is broken",
      "a record's time is not above the one before",
      "the limit or the lent memory is out of order",
      "a reading of 32 bindings must take one more",
      "more readings are live than the limit",
      "the result slice is too short",
      "the listing slice is too short",
      "a record is bound twice",
  };
  return code < sizeof reasons / sizeof *reasons ? reasons[code] : "unknown";
}

static int refused(const char *pass, uint64_t answer) {
  printf("refused %u %u\n", spaldep_code(answer), spaldep_place(answer));
  fprintf(stderr, "host: %s: %s (place %u)\n", pass, reason(spaldep_code(answer)), spaldep_place(answer));
  return 1;
}

static void print_spans(const uint8_t *result, uint32_t used) {
  for (uint32_t at = 0; at < used;) {
    uint16_t head = spaldep_number(result, at++);
    printf("%u", spaldep_mark(head));
    for (unsigned i = 0; i < spaldep_bindings(head); i++, at++) {
      uint16_t binding = spaldep_number(result, at);
      printf(" %u@%u", spaldep_variable(binding), spaldep_record(binding));
    }
    printf("\n");
  }
}

int main(int argc, char **argv) {
  static uint8_t work[SPALDEP_WORK_BYTES(SPALDEP_LIMIT_MAX)];
  static uint8_t result[SPALDEP_RESULT_BYTES_MAX], again[SPALDEP_RESULT_BYTES_MAX];
  size_t pattern_len, block_len;
  if (argc != 3 && argc != 4) return fprintf(stderr, "usage: host PATTERN BLOCK [LIMIT]\n"), 2;
  uint32_t limit = argc == 4 ? limit_of(argv[3]) : SPALDEP_LIMIT_MAX;
  uint8_t *pattern = load(argv[1], &pattern_len), *block = load(argv[2], &block_len);

  uint64_t forward =
      spaldep_forward(pattern, pattern_len, block, block_len, limit, work, sizeof work, result, sizeof result);
  if (spaldep_code(forward) != SPALDEP_DONE) return refused("forward pass", forward);

  /* The other pass has no limit: on a pattern that the forward pass refuses it could go on for years. */
  uint64_t starts = spaldep_start_by_start(pattern, pattern_len, block, block_len, again, sizeof again);
  if (spaldep_code(starts) != SPALDEP_DONE) return refused("start-by-start pass", starts);
  free(pattern);
  free(block);
  if (spaldep_used(forward) != spaldep_used(starts) || memcmp(result, again, sizeof result) != 0)
    return fprintf(stderr, "host: the passes differ\n"), 3;
  print_spans(result, spaldep_used(forward));
  printf("ok %u %u %u\n", spaldep_readings(forward), spaldep_used(forward), spaldep_peak(forward));
  return 0;
}
