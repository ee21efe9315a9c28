/* Inputs with causes to refuse: see refusal_inputs.h. */
#include "refusal_inputs.h"

#include <string.h>

#include "calls.h"
#include "cases.h"
#include "indexes.h"
#include "reference.h"

/* Causes of which only one can be there: a length and a limit are one number each, no memory is too little for a limit
   of 0, the longest slice has room for the report, and a limit that is too high is not passed. */
static const unsigned apart[] = {1u << SHORT_PATTERN | 1u << BAD_LENGTH, 1u << LOW_LIMIT | 1u << HIGH_LIMIT,
                                 1u << LOW_LIMIT | 1u << SHORT_WORK, 1u << LONG_RESULT | 1u << NO_ROOM,
                                 1u << HIGH_LIMIT | 1u << MANY_LIVE};

bool can_hold(unsigned set) {
  for (size_t i = 0; i < sizeof apart / sizeof *apart; i++)
    if ((set & apart[i]) == apart[i]) return false;
  return true;
}

/* The class and the core of all events, the duration, and the limit where it is in order. */
enum { EVENT_CLASS = 3, EVENT_TYPE = 70, EVENT_CORE = 5, DURATION = 100, SOME_LIMIT = 4 };

/* What an event can be bound to: its slot tells. */
enum { TO_FIRST, TO_SECOND, TO_BOTH };

struct made made;

/* The time of the last record. */
static uint64_t time_now;

static bool has(unsigned cause) { return (made.set >> cause & 1) == 1; }

/* Sets {0+} and {1+}: 0.slot != 1 and 1.slot != 0, 0.wave = 1.wave, 1.class = 3, 1.core = 5. */
static void make_pattern(void) {
  uint8_t *at = now.pattern + 10;
  memset(now.pattern, 0, PATTERN_ROOM);
  memcpy(now.pattern, (const uint8_t[]){0x12, 5, 0, 0, 0, 0, 0, DURATION, 0x18, 0x28}, 10);
  put_condition(at, 0, SLOT, NOT_EQUAL, WITH_CONSTANT, 0, 0, TO_SECOND);
  put_condition(at + 8, 1, SLOT, NOT_EQUAL, WITH_CONSTANT, 0, 0, TO_FIRST);
  put_condition(at + 16, 0, WAVE, EQUAL, WITH_ATTRIBUTE, 1, WAVE, 0);
  put_is(at + 24, 1, CLASS, EVENT_CLASS);
  put_is(at + 32, 1, CORE, EVENT_CORE);
  now.pattern_len = 10 + 5 * 8;
}

static void damage_condition_6(void) {
  uint8_t *at = now.pattern + now.pattern_len;
  put_condition(at, 1, SLOT, LESS, WITH_CONSTANT, 0, 0, 7);
  if (made.way == 0) set_field(at, 7, 3, OPERATORS);
  if (made.way == 1) set_field(at, 31, 1, 1);
  if (made.way == 2) set_field(at, 0, 4, 2);
  now.pattern[1]++;
  now.pattern_len += 8;
  made.at[BAD_CONDITION] = 5;
}

static void damage_the_pattern(void) {
  if (has(BAD_CONDITION)) damage_condition_6();
  if (has(BAD_VARIABLE)) {
    now.pattern[9] = (uint8_t)(made.way == 0 ? 0x29 : made.way == 1 ? 0x38 : 0x08);
    made.at[BAD_VARIABLE] = 1;
  }
  if (has(BAD_LENGTH)) now.pattern_len = made.way == 0 ? now.pattern_len + 1 : made.way == 1 ? now.pattern_len - 1 : 8;
  if (has(BAD_HEADER)) now.pattern[made.way == 0 ? 0 : made.way] = (uint8_t)(made.way == 0 ? 0x22 : 33);
  if (has(SHORT_PATTERN)) now.pattern_len = made.way == 0 ? 7 : made.way == 1 ? 0 : 1;
}

static uint8_t *record_at(size_t record) { return now.block + RECORD_BYTES * record; }

/* The next record, one cycle behind the one before; gives its number. */
static size_t put_record(void) {
  size_t record = now.block_len / RECORD_BYTES;
  memset(record_at(record), 0, RECORD_BYTES);
  set_field(record_at(record), 16, 40, ++time_now);
  now.block_len += RECORD_BYTES;
  return record;
}

static size_t put_event(unsigned to, unsigned wave) {
  size_t record = put_record();
  set_field(record_at(record), 2, 6, EVENT_CORE);
  set_field(record_at(record), 8, 8, EVENT_TYPE);
  set_field(record_at(record), 56, 32, to);
  set_field(record_at(record), 120, 8, wave);
  return record;
}

static size_t put_gap(void) {
  size_t record = put_record();
  set_field(record_at(record), 0, 2, GAP);
  set_field(record_at(record), 56, 32, 1);
  return record;
}

/* A reading with both variables bound, which no event of another wave prolongs. */
static void put_full(unsigned wave) {
  put_event(TO_FIRST, wave);
  put_event(TO_SECOND, wave);
}

/* Parts of a block between gaps, each with one cause, at the record that is noted. */

static void put_report(void) {
  put_full(0);
  made.at[NO_ROOM] = put_gap();
}

static void put_bindings(void) {
  put_event(TO_FIRST, 0);
  for (unsigned i = 0; i < BINDINGS; i++) made.at[MANY_BINDINGS] = put_event(TO_SECOND, 0);
  put_gap();
}

static void put_live(void) {
  for (unsigned i = 0; i <= SOME_LIMIT; i++) made.at[MANY_LIVE] = put_event(TO_FIRST, 0);
  put_gap();
}

/* Parts with two causes, both at the record that is noted. The first reading closes there, by an event past its window
   in which the last one still is. That event is the last one's 33rd binding; or it is bound to the last one in two ways
   and begins a reading, so that the limit, which was met, is passed. */

static void note(size_t record) {
  made.at[NO_ROOM] = made.at[MANY_BINDINGS] = made.at[MANY_LIVE] = record;
  put_gap();
}

static void put_report_with_bindings(void) {
  uint64_t first = time_now + 1;
  put_full(1);
  put_event(TO_FIRST, 2);
  for (unsigned i = 0; i + 1 < BINDINGS; i++) put_event(TO_SECOND, 2);
  time_now = first + DURATION;
  note(put_event(TO_SECOND, 2));
}

static void put_report_with_live(void) {
  uint64_t first = time_now + 1;
  for (unsigned wave = 1; wave < SOME_LIMIT; wave++) put_full(wave);
  put_event(TO_FIRST, SOME_LIMIT);
  time_now = first + DURATION;
  note(put_event(TO_BOTH, SOME_LIMIT));
}

static void put_bindings_with_live(void) {
  for (unsigned wave = 1; wave < SOME_LIMIT; wave++) put_full(wave);
  put_event(TO_FIRST, SOME_LIMIT);
  for (unsigned i = 0; i + 1 < BINDINGS; i++) put_event(TO_SECOND, SOME_LIMIT);
  note(put_event(TO_BOTH, SOME_LIMIT));
}

static void put_part(unsigned cause) {
  if (!has(cause)) return;
  if (cause == NO_ROOM) put_report();
  if (cause == MANY_BINDINGS) put_bindings();
  if (cause == MANY_LIVE) put_live();
}

static void put_parts(void) {
  static const unsigned orders[2][3] = {{NO_ROOM, MANY_BINDINGS, MANY_LIVE}, {MANY_LIVE, MANY_BINDINGS, NO_ROOM}};
  if (made.way == 2 && has(NO_ROOM) && has(MANY_BINDINGS))
    put_report_with_bindings();
  else if (made.way == 2 && has(NO_ROOM) && has(MANY_LIVE))
    put_report_with_live();
  else if (made.way == 2 && has(MANY_BINDINGS) && has(MANY_LIVE))
    put_bindings_with_live();
  else
    for (unsigned i = 0; i < 3; i++) put_part(orders[made.way % 2][i]);
}

/* At least six records that are in order, the last two of which have a reading that the end closes. */
static void make_block(void) {
  now.block_len = 0;
  time_now = 10;
  put_parts();
  put_gap();
  put_event(TO_FIRST, 7);
  put_gap();
  put_gap();
  put_full(7);
}

/* By the way the record that is no record comes first, or the time that goes down, or both are one record. */
static void damage_records(void) {
  static const size_t records[] = {2, 5, 4}, times[] = {5, 2, 4};
  size_t record = made.at[BAD_RECORD] = records[made.way], time = made.at[BAD_TIME] = times[made.way];
  if (has(BAD_TIME)) set_field(record_at(time), 16, 40, time_of(&now, time - 1) - 1);
  if (has(BAD_RECORD)) set_field(record_at(record), 0, 2, made.way == 0 ? 2 : 3);
}

static void damage_the_block(void) {
  damage_records();
  while (has(LONG_BLOCK) && now.block_len <= RECORDS * RECORD_BYTES) put_gap();
  if (!has(ODD_BLOCK)) return;
  memset(now.block + now.block_len, 0, RECORD_BYTES - 1);
  now.block_len += made.way == 0 ? 1 : made.way == 1 ? RECORD_BYTES / 2 : RECORD_BYTES - 1;
}

/* That a pattern cannot match: by an index that is not the block's, or by its constants where no event has to be bound
   to the second variable. */
static void rule_out(unsigned cause, size_t condition, size_t from, size_t width, uint32_t absent, uint32_t above) {
  if (!has(cause)) return;
  if (made.way == 0 || has(NO_ROOM) || has(MANY_BINDINGS))
    set_field(made.index.bytes, from, width, 0);
  else
    set_field(now.pattern + 10 + 8 * condition, 32, 32, made.way == 1 ? absent : above);
}

static void damage_the_index(void) {
  static const size_t lengths[] = {INDEX_BYTES - 1, INDEX_BYTES + 1, 0};
  rule_out(NO_CLASS, 3, COUNT_BITS * EVENT_CLASS, COUNT_BITS, EVENT_CLASS + 1, CLASSES);
  rule_out(NO_CORE, 4, CORES_AT + EVENT_CORE, 1, EVENT_CORE + 1, CORES);
  if (has(BAD_INDEX_BITS)) set_field(made.index.bytes, ZERO_AT, 2, made.way + 1);
  if (has(BAD_INDEX_LENGTH)) made.index.length = lengths[made.way];
}

static void make_memory(void) {
  static const uint32_t high[] = {LIMIT + 1, 0x10004, 0xffffffff};
  made.limit = has(LOW_LIMIT) ? 0 : has(HIGH_LIMIT) ? high[made.way] : SOME_LIMIT;
  made.work_len = WORK_BYTES * (size_t)(made.limit <= LIMIT ? made.limit : LIMIT + 1);
  if (has(SHORT_WORK)) made.work_len = made.way == 2 ? 0 : made.work_len - 1 - made.way;
  made.result_len = has(LONG_RESULT) ? RESULT_BYTES + 2 : has(NO_ROOM) ? 2 * made.way : 128;
  if (has(ODD_RESULT)) made.result_len++;
}

void make_input(unsigned set, unsigned way) {
  made = (struct made){.set = set, .way = way};
  make_pattern();
  make_block();
  made.index.length = INDEX_BYTES;
  reference_make_index(now.block, now.block_len, made.index.bytes, INDEX_BYTES);
  damage_the_pattern();
  damage_the_block();
  damage_the_index();
  make_memory();
}
