/* Every bit of an index: see index_bits.h. */
#include "index_bits.h"

#include <inttypes.h>
#include <stdio.h>
#include <string.h>

#include "calls.h"
#include "cases.h"
#include "index_calls.h"
#include "indexes.h"
#include "tally.h"

/* ---- the maker ---- */

/* The first type of each class. */
static const unsigned first_types[CLASSES] = {0, 16, 32, 64, 96, 128};

/* Events of one core and one type, all in one cycle. */
static void put_events(size_t events, unsigned core, unsigned type) {
  now.block_len = RECORD_BYTES * events;
  memset(now.block, 0, now.block_len);
  for (size_t i = 0; i < events; i++) {
    set_field(now.block + RECORD_BYTES * i, 2, 6, core);
    set_field(now.block + RECORD_BYTES * i, 8, 8, type);
  }
}

/* 2^power events of a type of the class: the index has one bit of the count, and one of the core. */
static void run_events(unsigned power, unsigned core, unsigned class, unsigned type) {
  uint8_t expected[INDEX_BYTES] = {0};
  struct index made;
  begin_case(0);
  now.shape = "events of one core and one type";
  now.pattern_len = 0;
  put_events((size_t)1 << power, core, type);
  set_field(expected, COUNT_BITS * (class + 1) - 1 - power, 1, 1);
  set_field(expected, CORES_AT + core, 1, 1);
  compare_make_index(INDEX_BYTES, &made);
  if (memcmp(made.bytes, expected, INDEX_BYTES) != 0) fail("sets other bits");
  end_case();
}

static void run_maker(void) {
  for (unsigned core = 0; core < CORES; core++) run_events(0, core, 0, 0);
  for (unsigned type = 0, class = 0; type < 256; type++) {
    if (class + 1 < CLASSES && type == first_types[class + 1]) class++;
    run_events(0, 0, class, type);
  }
  for (unsigned class = 0; class < CLASSES; class++)
    for (unsigned power = 0; power < COUNT_BITS; power++) run_events(power, CORES - 1, class, first_types[class]);
}

/* ---- the search ---- */

/* Sets {0} and {1}, of which only 1 asks something, and one event: where the pass is run, it has a peak of 1. */
static void put_asked(unsigned attribute, uint32_t constant) {
  memset(now.pattern, 0, PATTERN_ROOM);
  memcpy(now.pattern, (const uint8_t[]){0x12, 1, 0, 0, 0, 0, 0, 0, 0x10, 0x20}, 10);
  put_is(now.pattern + 10, 1, attribute, constant);
  now.pattern_len = 18;
  put_events(1, 0, 0);
}

static void run_search(const struct index *index, bool can_match) {
  uint64_t search = compare_search(index, 1, SPALDEP_WORK_BYTES(1), 8);
  if (search != can_match) fail_answers(search, "where the bits of the index say", can_match);
}

/* A class or a core, whose field begins `from` bits into an index: each bit alone, and all bits with and without the
   field. Where it is above all that an index has, its field has no bits. */
static void run_asked(unsigned attribute, uint32_t constant, size_t from, size_t width) {
  struct index index = {.length = INDEX_BYTES};
  begin_case(0);
  now.shape = "a class or a core, by each bit of an index";
  put_asked(attribute, constant);
  for (size_t bit = 0; bit < ZERO_AT; bit++) {
    memset(index.bytes, 0, INDEX_BYTES);
    set_field(index.bytes, bit, 1, 1);
    run_search(&index, bit >= from && bit < from + width);
  }
  memset(index.bytes, 0xff, INDEX_BYTES);
  set_field(index.bytes, ZERO_AT, 2, 0);
  run_search(&index, width > 0);
  set_field(index.bytes, from, width, 0);
  run_search(&index, false);
  end_case();
}

static void run_asked_all(void) {
  static const uint32_t above[] = {64,     65,     66,      127,     128,        255,        256,        257,
                                   0x2000, 0xffff, 0x10000, 0x10001, 0x7fffffff, 0x80000000, 0x80000001, 0xffffffff};
  for (unsigned class = 0; class < CLASSES; class++) run_asked(CLASS, class, COUNT_BITS * class, COUNT_BITS);
  for (unsigned class = CLASSES; class < CORES; class++) run_asked(CLASS, class, 0, 0);
  for (unsigned core = 0; core < CORES; core++) run_asked(CORE, core, CORES_AT + core, 1);
  for (size_t i = 0; i < sizeof above / sizeof *above; i++) {
    run_asked(CLASS, above[i], 0, 0);
    run_asked(CORE, above[i], 0, 0);
  }
}

void index_bits_run(void) {
  uint64_t passed_before = tally.passed, failed_before = tally.failed;
  run_maker();
  run_asked_all();
  printf("each bit of an index, as it is made and as it is asked: %" PRIu64 " hold, %" PRIu64 " do not\n",
         tally.passed - passed_before, tally.failed - failed_before);
}
