/* The rows of the example: see rows.h. */
#include "rows.h"

#include <inttypes.h>
#include <stdbool.h>
#include <stdio.h>
#include <string.h>

#include "cases.h"
#include "reference.h"
#include "spaldep.h"

struct implementation {
  const char *name;
  uint64_t (*list_automaton)(const uint8_t *, size_t, uint8_t *, size_t);
  uint64_t (*forward)(const uint8_t *, size_t, const uint8_t *, size_t, uint32_t, uint8_t *, size_t, uint8_t *, size_t);
  uint64_t (*start_by_start)(const uint8_t *, size_t, const uint8_t *, size_t, uint8_t *, size_t);
};

static const struct implementation implementations[] = {
    {"library", spaldep_list_automaton, spaldep_forward, spaldep_start_by_start},
    {"reference", reference_list_automaton, reference_forward, reference_start_by_start},
};

/* A record. */
struct entry {
  unsigned kind, core, type, slot;
  uint64_t time;
  int32_t amount;
  unsigned wave;
};

/* A condition. */
struct asked {
  unsigned variable, attribute, operator, form, second_variable, second_attribute;
  uint32_t constant;
};

struct row {
  const char *name;
  const char *pattern; /* hex */
  const struct entry *entries;
  size_t records;
  uint32_t limit;
  size_t numbers; /* 16-bit numbers lent */
  unsigned code;
  uint32_t place; /* of a refusal */
  uint32_t readings, peak;
  const uint16_t *result;
  size_t used;
  const struct asked *asked; /* conditions behind the hex */
  size_t asked_count;
};

#define COUNT(table) (sizeof(table) / sizeof *(table))

#define BENCH \
  "13050000 00000064 101820 0400000000000000 1400000000000001 2400000000000002 0022000000000000 0024000000000000"

static const struct entry bench[] = {
    {0, 1, 3, 0, 10, 0, 0},  {0, 2, 17, 0, 20, 0, 0}, {0, 1, 17, 0, 30, 0, 0},  {0, 1, 17, 0, 40, 0, 0},
    {0, 1, 33, 0, 50, 0, 0}, {0, 2, 3, 0, 60, 0, 0},  {1, 0, 0, 9, 70, 0, 0},   {0, 2, 33, 0, 80, 0, 0},
    {0, 2, 17, 0, 90, 0, 0}, {0, 2, 3, 0, 100, 0, 0}, {0, 2, 17, 0, 110, 0, 0}, {0, 2, 33, 0, 120, 0, 0},
};
static const uint16_t bench_result[] = {16388, 0, 4098, 4099, 8196, 8196, 4104, 9, 4106, 8203, 8195, 9, 4106, 8203};

static const struct entry one[] = {{0, 0, 0, 0, 5, 0, 0}};
static const uint16_t one_result[] = {0x2001, 0x0000};
static const struct entry at_100[] = {{0, 0, 0, 0, 10, 0, 0}, {0, 0, 0, 0, 110, 0, 0}};
static const uint16_t at_100_result[] = {0x2002, 0x0000, 0x1001};
static const struct entry at_101[] = {{0, 0, 0, 0, 10, 0, 0}, {0, 0, 0, 0, 111, 0, 0}};

/* c p d p with {c, d, p}, told apart by class: c@0 p@1 d@2 and nothing that passes over the first p. */
static const struct entry cpdp[] = {
    {0, 0, 0, 0, 1, 0, 0}, {0, 0, 32, 0, 2, 0, 0}, {0, 0, 16, 0, 3, 0, 0}, {0, 0, 32, 0, 4, 0, 0}};
static const uint16_t cpdp_result[] = {0x2003, 0x0000, 0x2001, 0x1002};

/* ---- waves ---- */

#define WAVE_AT(time, wave) \
  { 0, 0, 0, 0, time, 0, wave }
#define HOLDS(variable, attribute, operator, constant) \
  { variable, SPALDEP_ATTRIBUTE_##attribute, SPALDEP_OPERATOR_##operator, SPALDEP_FORM_CONSTANT, 0, 0, constant }
#define HOLDS_OF(variable, attribute, operator, second, second_attribute)                                 \
  {                                                                                                       \
    variable, SPALDEP_ATTRIBUTE_##attribute, SPALDEP_OPERATOR_##operator, SPALDEP_FORM_ATTRIBUTE, second, \
        SPALDEP_ATTRIBUTE_##second_attribute, 0                                                           \
  }

static const struct entry wave_255[] = {WAVE_AT(5, 255)};
static const struct entry gap_wave[] = {WAVE_AT(5, 1), {1, 0, 0, 9, 6, 0, 1}};
static const struct entry kind_2[] = {WAVE_AT(5, 1), {2, 0, 0, 0, 6, 0, 0}};
static const struct entry kind_3_wave[] = {WAVE_AT(5, 1), {3, 0, 0, 0, 6, 0, 1}};

/* Two events that differ in wave alone, either way round. */
static const struct asked apart[] = {HOLDS(0, WAVE, EQUAL, 7), HOLDS(1, WAVE, EQUAL, 255)};
static const struct entry waves_7_255[] = {WAVE_AT(1, 7), WAVE_AT(2, 255)};
static const uint16_t waves_7_255_result[] = {0x2002, 0x0000, 0x1001};
static const struct entry waves_255_7[] = {WAVE_AT(1, 255), WAVE_AT(2, 7)};
static const uint16_t waves_255_7_result[] = {0x2002, 0x1000, 0x0001};

/* No constant beside wave is negative, and those above 255 are above every wave. */
static const struct asked above[] = {HOLDS(0, WAVE, LESS, 0xffffffff), HOLDS(0, WAVE, LESS, 0x80000000),
                                     HOLDS(0, WAVE, LESS, 256), HOLDS(0, WAVE, GREATER, 254)};

/* Amount -1 is below every wave: it is not wave 255. */
static const struct asked is_amount[] = {HOLDS_OF(0, WAVE, EQUAL, 0, AMOUNT)};
static const struct entry amounts[] = {{0, 0, 0, 0, 1, -1, 255}, {0, 0, 0, 0, 2, 255, 255}};
static const uint16_t amounts_result[] = {0x2001, 0x0001};
static const struct asked amount_below[] = {HOLDS_OF(0, AMOUNT, LESS, 1, WAVE)};
static const struct entry amount_then_wave[] = {{0, 0, 0, 0, 1, -1, 9}, {0, 0, 0, 0, 2, 0, 0}};

/* Wave 255 is not below slot 255, and below slot 256. */
static const struct asked slot_at_most[] = {HOLDS_OF(0, WAVE, GREATER_EQUAL, 1, SLOT)};
static const struct entry wave_then_slots[] = {WAVE_AT(1, 255), {0, 0, 0, 256, 2, 0, 0}, {0, 0, 0, 255, 3, 0, 0}};
static const uint16_t wave_then_slots_result[] = {0x2002, 0x0000, 0x1002};

/* The loop of Rule 5.3, by wave: uploads of another wave than the bind's are not taken. */
static const struct asked same_wave[] = {HOLDS(0, CLASS, EQUAL, 0), HOLDS(1, CLASS, EQUAL, 1),
                                         HOLDS_OF(0, WAVE, EQUAL, 1, WAVE)};
static const struct entry loop[] = {
    {0, 0, 0, 0, 1, 0, 2}, {0, 0, 16, 0, 2, 0, 2}, {0, 0, 16, 0, 3, 0, 3}, {0, 0, 16, 0, 4, 0, 2}};
static const uint16_t loop_result[] = {0x2003, 0x0000, 0x1001, 0x1003};

/* The attribute behind wave, on either side. */
static const struct asked first_6[] = {
    HOLDS(0, WAVE, EQUAL, 0), {0, SPALDEP_ATTRIBUTE_WAVE + 1, SPALDEP_OPERATOR_EQUAL, SPALDEP_FORM_CONSTANT, 0, 0, 0}};
static const struct asked second_6[] = {
    HOLDS_OF(0, WAVE, EQUAL, 0, WAVE),
    {0, SPALDEP_ATTRIBUTE_WAVE, SPALDEP_OPERATOR_EQUAL, SPALDEP_FORM_ATTRIBUTE, 0, SPALDEP_ATTRIBUTE_WAVE + 1, 0}};

/* ---- not equal ---- */

#define SLOT_AT(time, slot) \
  { 0, 0, 0, slot, time, 0, 0 }
#define AMOUNT_AT(time, amount) \
  { 0, 0, 0, 0, time, amount, 0 }
#define UPLOAD_AMOUNT(time, amount) \
  { 0, 0, 16, 0, time, amount, 0 }
#define BIND(time, core) \
  { 0, core, 0, 0, time, 0, 0 }
#define UPLOAD(time, core) \
  { 0, core, 16, 0, time, 0, 0 }
#define DRAW(time, core) \
  { 0, core, 32, 0, time, 0, 0 }

/* Patterns of one variable; of a bind and an upload behind it; of a bind, uploads and a draw, one behind the other. */
#define ANY_EVENT "1101000000000064 10"
#define BIND_UPLOAD "1203000000000064 10 20"
#define BIND_UPLOADS_DRAW "1304000000000064 10 28 30"
#define BIND_AND_UPLOAD HOLDS(0, CLASS, EQUAL, 0), HOLDS(1, CLASS, EQUAL, 1)

/* One below, equal, one above; and where there is nothing below or above, the other end. */
static const struct asked slot_not_7[] = {HOLDS(0, SLOT, NOT_EQUAL, 7)};
static const struct entry slots_6_7_8[] = {SLOT_AT(1, 6), SLOT_AT(2, 7), SLOT_AT(3, 8)};
static const struct asked slot_not_greatest[] = {HOLDS(0, SLOT, NOT_EQUAL, 0xffffffff)};
static const struct entry slots_at_end[] = {SLOT_AT(1, 0xfffffffe), SLOT_AT(2, 0xffffffff), SLOT_AT(3, 0)};
static const uint16_t events_0_and_2_result[] = {0x2001, 0x0000, 0x2001, 0x0002};
static const struct asked amount_not_least[] = {HOLDS(0, AMOUNT, NOT_EQUAL, 0x80000000)};
static const struct entry amounts_at_end[] = {AMOUNT_AT(1, INT32_MIN), AMOUNT_AT(2, INT32_MIN + 1),
                                              AMOUNT_AT(3, INT32_MAX)};
static const uint16_t events_1_and_2_result[] = {0x2001, 0x0001, 0x2001, 0x0002};
static const struct asked wave_not_256[] = {HOLDS(0, WAVE, NOT_EQUAL, 256), HOLDS(0, WAVE, NOT_EQUAL, 0xffffffff),
                                            HOLDS(0, WAVE, NOT_EQUAL, 254)};

/* A bind and the first upload of another core, whichever of the two the condition names first. */
static const struct asked other_core[] = {BIND_AND_UPLOAD, HOLDS_OF(1, CORE, NOT_EQUAL, 0, CORE)};
static const struct asked other_core_turned[] = {BIND_AND_UPLOAD, HOLDS_OF(0, CORE, NOT_EQUAL, 1, CORE)};
static const struct entry core_above[] = {BIND(1, 5), UPLOAD(2, 5), UPLOAD(3, 6)};
static const struct entry core_below[] = {BIND(1, 5), UPLOAD(2, 5), UPLOAD(3, 4)};
static const uint16_t first_and_third_result[] = {0x2002, 0x0000, 0x1002};

/* Slot and amount of the same 32 bits: from 2^31 on they are different numbers. */
static const struct asked slot_not_amount[] = {BIND_AND_UPLOAD, HOLDS_OF(0, SLOT, NOT_EQUAL, 1, AMOUNT)};
static const struct asked amount_not_slot[] = {BIND_AND_UPLOAD, HOLDS_OF(1, AMOUNT, NOT_EQUAL, 0, SLOT)};
static const struct entry bits_of_minus_1[] = {SLOT_AT(1, 0xffffffff), UPLOAD_AMOUNT(2, -1)};
static const struct entry bits_of_least[] = {SLOT_AT(1, 0x80000000), UPLOAD_AMOUNT(2, INT32_MIN)};
static const struct entry bits_of_greatest[] = {SLOT_AT(1, 0x7fffffff), UPLOAD_AMOUNT(2, INT32_MAX),
                                                UPLOAD_AMOUNT(3, INT32_MAX - 1)};
static const uint16_t first_and_second_result[] = {0x2002, 0x0000, 0x1001};

/* One variable on both sides: each event's own slot and amount, and none of another event. */
static const struct asked own_not_equal[] = {HOLDS_OF(0, SLOT, NOT_EQUAL, 0, AMOUNT)};
static const struct entry own_edges[] = {{0, 0, 0, 0x7fffffff, 1, INT32_MAX, 0},
                                         {0, 0, 0, 0xffffffff, 2, -1, 0},
                                         {0, 0, 0, 0x80000000, 3, INT32_MIN, 0},
                                         {0, 0, 0, 0, 4, 0, 0}};
static const struct entry crosswise[] = {{0, 0, 0, 1, 1, 2, 0}, {0, 0, 0, 2, 2, 1, 0}};
static const uint16_t crosswise_result[] = {0x2002, 0x0000, 0x0001, 0x2001, 0x0001};

/* Uploads of cores 1 and 2, and a draw of core 2: it is not of the core of both, nor of another core than both. A draw
   of core 3 is of another. */
static const struct asked draw_of_other_core[] = {BIND_AND_UPLOAD, HOLDS(2, CLASS, EQUAL, 2),
                                                  HOLDS_OF(2, CORE, NOT_EQUAL, 1, CORE)};
static const struct asked draw_of_same_core[] = {BIND_AND_UPLOAD, HOLDS(2, CLASS, EQUAL, 2),
                                                 HOLDS_OF(2, CORE, EQUAL, 1, CORE)};
static const struct entry draw_of_2[] = {BIND(1, 0), UPLOAD(2, 1), UPLOAD(3, 2), DRAW(4, 2)};
static const struct entry draws_of_2_and_3[] = {BIND(1, 0), UPLOAD(2, 1), UPLOAD(3, 2), DRAW(4, 2), DRAW(5, 3)};
static const uint16_t draw_of_3_result[] = {0x2004, 0x0000, 0x1001, 0x1002, 0x2004};

/* Uploads of cores 2 and 3 before the binds of cores 2 and 4: the first bind is of the first upload's core. */
static const struct entry uploads_then_binds[] = {UPLOAD(1, 2), UPLOAD(2, 3), BIND(3, 2), BIND(4, 4)};
static const uint16_t uploads_then_binds_result[] = {0x2003, 0x1000, 0x1001, 0x0003, 0x2002, 0x1001, 0x0002};

/* The operators behind !=, with either form. */
static const struct asked operator_6[] = {
    HOLDS(0, CORE, NOT_EQUAL, 0),
    {0, SPALDEP_ATTRIBUTE_CORE, SPALDEP_OPERATOR_NOT_EQUAL + 1, SPALDEP_FORM_CONSTANT, 0, 0, 0}};
static const struct asked operator_7[] = {
    HOLDS(0, CORE, NOT_EQUAL, 0),
    {0, SPALDEP_ATTRIBUTE_CORE, SPALDEP_OPERATOR_NOT_EQUAL + 2, SPALDEP_FORM_ATTRIBUTE, 0, SPALDEP_ATTRIBUTE_WAVE, 0}};

#define REPORTS(name, pattern, asked, entries, readings, peak, result)                                      \
  {                                                                                                         \
    name, pattern, entries, COUNT(entries), 256, 32768, 0, 0, readings, peak, result, COUNT(result), asked, \
        COUNT(asked)                                                                                        \
  }
#define REPORTED(name, pattern, asked, entries, peak, result) REPORTS(name, pattern, asked, entries, 1, peak, result)
#define NOTHING(name, pattern, asked, entries, peak) \
  { name, pattern, entries, COUNT(entries), 256, 32768, 0, 0, 0, peak, NULL, 0, asked, COUNT(asked) }
#define REFUSED(name, pattern, asked, entries, code, place) \
  { name, pattern, entries, COUNT(entries), 256, 32768, code, place, 0, 0, NULL, 0, asked, COUNT(asked) }

static const struct row rows[] = {
    {"the bench, P1", BENCH, bench, 12, 256, 32768, 0, 0, 3, 5, bench_result, 14, NULL, 0},
    {"P3", BENCH, bench, 12, 5, 32768, 0, 0, 3, 5, bench_result, 14, NULL, 0},
    {"P4", BENCH, bench, 12, 4, 32768, 10, 5, 3, 0, bench_result, 14, NULL, 0},
    {"P5", BENCH, bench, 12, 256, 14, 0, 0, 3, 5, bench_result, 14, NULL, 0},
    {"P6", BENCH, bench, 12, 256, 13, 11, 0, 0, 0, NULL, 0, NULL, 0},
    {"P7", BENCH, bench, 0, 256, 32768, 0, 0, 0, 0, NULL, 0, NULL, 0},
    {"P8", "1100000000000000 10", one, 1, 256, 32768, 0, 0, 1, 1, one_result, 2, NULL, 0},
    {"P9", "1200000000000064 10 20", at_100, 2, 256, 32768, 0, 0, 1, 2, at_100_result, 3, NULL, 0},
    {"P10", "1200000000000064 10 20", at_101, 2, 256, 32768, 0, 0, 0, 1, NULL, 0, NULL, 0},
    {"c p d p", "1303000000000064 10 10 10 0400000000000000 1400000000000001 2400000000000002", cpdp, 4, 256, 32768, 0,
     0, 1, 4, cpdp_result, 4, NULL, 0},
    {"an event of wave 255", "1100000000000064 10", wave_255, 1, 256, 32768, 0, 0, 1, 1, one_result, 2, NULL, 0},
    {"a gap of wave 1", "1100000000000064 10", gap_wave, 2, 256, 32768, 6, 1, 0, 0, NULL, 0, NULL, 0},
    {"kind 2", "1100000000000064 10", kind_2, 2, 256, 32768, 6, 1, 0, 0, NULL, 0, NULL, 0},
    {"kind 3 with a last byte", "1100000000000064 10", kind_3_wave, 2, 256, 32768, 6, 1, 0, 0, NULL, 0, NULL, 0},
    REPORTED("waves 7 and 255", "1202000000000064 10 10", apart, waves_7_255, 2, waves_7_255_result),
    REPORTED("waves 255 and 7", "1202000000000064 10 10", apart, waves_255_7, 2, waves_255_7_result),
    REPORTED("wave below constants", "1104000000000064 10", above, wave_255, 1, one_result),
    REPORTED("wave is amount", "1101000000000064 10", is_amount, amounts, 1, amounts_result),
    REPORTED("amount below wave", "1201000000000064 10 20", amount_below, amount_then_wave, 2, waves_7_255_result),
    REPORTED("wave and slots", "1201000000000064 10 20", slot_at_most, wave_then_slots, 3, wave_then_slots_result),
    REPORTED("a loop by wave", "1203000000000064 10 18", same_wave, loop, 4, loop_result),
    REFUSED("attribute 6, first side", "1102000000000064 10", first_6, wave_255, 4, 1),
    REFUSED("attribute 6, second side", "1102000000000064 10", second_6, wave_255, 4, 1),
    REPORTS("slot not 7", ANY_EVENT, slot_not_7, slots_6_7_8, 2, 2, events_0_and_2_result),
    REPORTS("slot not 4294967295", ANY_EVENT, slot_not_greatest, slots_at_end, 2, 2, events_0_and_2_result),
    REPORTS("amount not -2147483648", ANY_EVENT, amount_not_least, amounts_at_end, 2, 2, events_1_and_2_result),
    REPORTED("wave not 256", "1103000000000064 10", wave_not_256, wave_255, 1, one_result),
    REPORTED("a core above", BIND_UPLOAD, other_core, core_above, 1, first_and_third_result),
    REPORTED("a core below", BIND_UPLOAD, other_core, core_below, 1, first_and_third_result),
    REPORTED("a core above, turned", BIND_UPLOAD, other_core_turned, core_above, 1, first_and_third_result),
    REPORTED("a core below, turned", BIND_UPLOAD, other_core_turned, core_below, 1, first_and_third_result),
    REPORTED("slot 4294967295, amount -1", BIND_UPLOAD, slot_not_amount, bits_of_minus_1, 1, first_and_second_result),
    REPORTED("amount -1, slot 4294967295", BIND_UPLOAD, amount_not_slot, bits_of_minus_1, 1, first_and_second_result),
    REPORTED("slot 2147483648, amount -2147483648", BIND_UPLOAD, slot_not_amount, bits_of_least, 1,
             first_and_second_result),
    REPORTED("amount -2147483648, slot 2147483648", BIND_UPLOAD, amount_not_slot, bits_of_least, 1,
             first_and_second_result),
    REPORTED("slot 2147483647, amount 2147483647", BIND_UPLOAD, slot_not_amount, bits_of_greatest, 1,
             first_and_third_result),
    REPORTED("amount 2147483647, slot 2147483647", BIND_UPLOAD, amount_not_slot, bits_of_greatest, 1,
             first_and_third_result),
    REPORTS("slot and amount of one event", ANY_EVENT, own_not_equal, own_edges, 2, 2, events_1_and_2_result),
    REPORTS("slot and amount crosswise", "1101000000000064 18", own_not_equal, crosswise, 2, 2, crosswise_result),
    NOTHING("another core than both", BIND_UPLOADS_DRAW, draw_of_other_core, draw_of_2, 1),
    NOTHING("the core of both", BIND_UPLOADS_DRAW, draw_of_same_core, draw_of_2, 1),
    REPORTED("another core than both, later", BIND_UPLOADS_DRAW, draw_of_other_core, draws_of_2_and_3, 1,
             draw_of_3_result),
    NOTHING("the core of both, later", BIND_UPLOADS_DRAW, draw_of_same_core, draws_of_2_and_3, 1),
    REPORTS("another core than all before", "1203000000000064 10 18", other_core, uploads_then_binds, 2, 4,
            uploads_then_binds_result),
    REFUSED("operator 6", "1102000000000064 10", operator_6, wave_255, 4, 1),
    REFUSED("operator 7", "1102000000000064 10", operator_7, wave_255, 4, 1),
};

static size_t from_hex(const char *text, uint8_t *bytes) {
  size_t digits = 0;
  for (; *text != 0; text++) {
    const char *place = strchr("0123456789abcdef", *text);
    if (*text == ' ' || place == NULL) continue;
    unsigned digit = (unsigned)(place - "0123456789abcdef");
    bytes[digits / 2] = (uint8_t)(digits % 2 == 0 ? digit << 4 : bytes[digits / 2] | digit);
    digits++;
  }
  return digits / 2;
}

static size_t to_block(const struct entry *entries, size_t records, uint8_t *block) {
  for (size_t i = 0; i < records; i++) {
    uint8_t *at = block + 16 * i;
    set_field(at, 0, 2, entries[i].kind);
    set_field(at, 2, 6, entries[i].core);
    set_field(at, 8, 8, entries[i].type);
    set_field(at, 16, 40, entries[i].time);
    set_field(at, 56, 32, entries[i].slot);
    set_field(at, 88, 32, (uint32_t)entries[i].amount);
    set_field(at, 120, 8, entries[i].wave);
  }
  return 16 * records;
}

static size_t to_pattern(const struct row *row, uint8_t *pattern) {
  size_t length = from_hex(row->pattern, pattern);
  for (size_t i = 0; i < row->asked_count; i++, length += 8) {
    const struct asked *k = &row->asked[i];
    put_condition(pattern + length, k->variable, k->attribute, k->operator, k->form, k->second_variable,
                  k->second_attribute, k->constant);
  }
  return length;
}

size_t bench_pattern(uint8_t *pattern) { return from_hex(BENCH, pattern); }

size_t bench_block(uint8_t *block) { return to_block(bench, COUNT(bench), block); }

static bool result_is(const uint8_t *result, size_t numbers, const uint16_t *expected, size_t used) {
  for (size_t i = 0; i < numbers; i++)
    if (spaldep_number(result, i) != (i < used ? expected[i] : 0)) return false;
  return true;
}

static bool answer_is(uint64_t answer, unsigned code, uint32_t place, uint32_t used, uint32_t readings, uint32_t peak) {
  return spaldep_code(answer) == code && spaldep_place(answer) == place && spaldep_used(answer) == used &&
         spaldep_readings(answer) == readings && spaldep_peak(answer) == peak;
}

/* The start-by-start pass has no limit: where the row is about it, that pass accepts. */
static bool row_holds(const struct implementation *i, const struct row *row) {
  static uint8_t pattern[512], block[16 * 16], work[SPALDEP_WORK_BYTES(SPALDEP_LIMIT_MAX)];
  static uint8_t result[SPALDEP_RESULT_BYTES_MAX];
  size_t pattern_len = to_pattern(row, pattern), block_len = to_block(row->entries, row->records, block);
  bool accepted = row->code == 0, by_starts = accepted || row->code == SPALDEP_REFUSED_LIVE;
  uint32_t used = (uint32_t)row->used;
  memset(result, 0xff, sizeof result);
  uint64_t forward = i->forward(pattern, pattern_len, block, block_len, row->limit, work,
                                SPALDEP_WORK_BYTES(row->limit), result, 2 * row->numbers);
  if (!answer_is(forward, row->code, row->place, accepted ? used : 0, accepted ? row->readings : 0, row->peak) ||
      !result_is(result, row->numbers, row->result, accepted ? used : 0))
    return false;
  memset(result, 0xff, sizeof result);
  uint64_t starts = i->start_by_start(pattern, pattern_len, block, block_len, result, 2 * row->numbers);
  return answer_is(starts, by_starts ? 0 : row->code, by_starts ? 0 : row->place, by_starts ? used : 0,
                   by_starts ? row->readings : 0, 0) &&
         result_is(result, row->numbers, row->result, by_starts ? used : 0);
}

/* P2, and Example 2 of the paper, whose first set is {c, p+, d} and whose second is {b}: Rule 4.7. */
static bool listing_holds(const struct implementation *i, const char *hex, uint32_t steps, uint64_t last) {
  uint8_t pattern[512], listing[8 * SPALDEP_STEPS_MAX];
  size_t pattern_len = from_hex(hex, pattern);
  uint64_t answer = i->list_automaton(pattern, pattern_len, listing, sizeof listing);
  return answer_is(answer, 0, 0, steps, 0, 0) && spaldep_step(listing, steps - 1) == last &&
         spaldep_step(listing, steps) == 0;
}

static void count(const struct implementation *i, const char *name, bool holds, uint64_t *passed, uint64_t *failed) {
  if (holds) {
    ++*passed;
    return;
  }
  printf("FAILED: %s of the rules, by the %s\n", name, i->name);
  ++*failed;
}

void rows_run(uint64_t *passed, uint64_t *failed) {
  for (size_t k = 0; k < COUNT(implementations); k++) {
    const struct implementation *i = &implementations[k];
    for (size_t row = 0; row < COUNT(rows); row++) count(i, rows[row].name, row_holds(i, &rows[row]), passed, failed);
    count(i, "P2", listing_holds(i, BENCH, 7, 0x0032800000000014), passed, failed);
    count(i, "the example of 17 steps", listing_holds(i, "1400000000000108 10 18 10 20", 17, 0x0073800000000000),
          passed, failed);
  }
  printf("rows of the rules, by the library and by the reference: %" PRIu64 " hold, %" PRIu64 " do not\n", *passed,
         *failed);
}
