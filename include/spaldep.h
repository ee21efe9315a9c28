/*
 * Spaldep: picks replay spans from the records of a block. The C calls of libspaldep.a.
 *
 * A pattern is a sequence of sets of variables that stand for events: the events of one set may come in any order,
 * those of a later set come later, and all lie within a number of cycles. A block is 0 to 4,096 records of 16 bytes,
 * with marked gaps. A reading binds the pattern's variables to records; a full reading that closes is reported. Two
 * passes report the same readings: the forward pass goes through the records once with a limit of live readings, the
 * start-by-start pass goes on from each record in turn and has no limit.
 *
 * Link with libspaldep.a (x86-64). No call needs another first, and none has anything to set up or to free.
 *
 * What holds of every call
 *
 *   Memory      All memory is the caller's, lent for the length of the call: the library allocates none, frees none
 *               and keeps no pointer. A slice is a pointer and its length in bytes. `const` slices are only read.
 *               No slice needs to be aligned.
 *   Pointers    must not be null, also where the length is 0; any address in the program serves for length 0.
 *   Overlap     Slices that are written (listing, work, result, the pattern of spaldep_read_text, the text of
 *               spaldep_write_text, the index of spaldep_make_index) must not overlap any other slice of the same
 *               call. Slices that are only read may overlap each other.
 *   State       There is none: the same bytes get the same answer. Calls may run side by side, in threads or from
 *               several cores, as long as no slice that one of them writes overlaps a slice of another.
 *   Input       Any bytes at all get an answer, and every call ends: nothing has to be checked first. The readings of
 *               a pattern decide how long a pass takes. The forward pass has a limit to them; the start-by-start pass
 *               looks no further than its answer needs, which with conditions between variables can still be far.
 *   Stack       SPALDEP_STACK_FORWARD bytes do for every call but spaldep_start_by_start, which needs up to
 *               SPALDEP_STACK_START_BY_START.
 *
 * The answer is one 64-bit number, taken apart by the functions below:
 *
 *   spaldep_code      0: done. Else the number of a refusal, SPALDEP_REFUSED_..
 *   spaldep_place     of a refusal: the variable, condition, record or line that it is about, from 0; otherwise 0. A
 *                     line beyond 16,777,215 is given as that
 *   spaldep_used      of success: how many numbers, steps, records or bytes, as each call says; 0 with a refusal
 *   spaldep_readings  of a pass that succeeded: the readings reported; 0 otherwise
 *   spaldep_peak      of a forward pass that succeeded: how many readings were live at once, at most; 0 otherwise
 *
 * Where several refusals hold, the one that comes first in this order is given: the first bad line of a text; a pattern
 * under 8 bytes, its header, its length, its first bad variable, its first bad condition; the block's length, its first
 * bad record; limit and lent memory; then what the pass itself meets. A slice too short for a listing, a text or the
 * pattern of a text comes behind all that is refused of the pattern. An index comes between the pattern and the block.
 */
#ifndef SPALDEP_H
#define SPALDEP_H

#include <stddef.h>
#include <stdint.h>

#ifdef __cplusplus
extern "C" {
#endif

/* The refusals, each with what its place is. */
enum {
  SPALDEP_DONE = 0,
  SPALDEP_REFUSED_PATTERN_LENGTH = 1,  /* no whole header, or not as long as its header says; place 0 */
  SPALDEP_REFUSED_HEADER = 2,          /* edition not 1, n not 1 to 12, c over 32, or zero bits set; of a text over 12
                                          names, over 32 conditions or a duration over 40 bits; place 0 */
  SPALDEP_REFUSED_VARIABLE = 3,        /* a variable's byte breaks its rules, or a text has more than 8 sets or 6 names
                                          in a set; place: the first such variable */
  SPALDEP_REFUSED_CONDITION = 4,       /* on either side a variable not under n or an attribute over 5, an operator
                                          over 5, or zero bits set; place: the first such condition */
  SPALDEP_REFUSED_BLOCK_LENGTH = 5,    /* block not whole records, or over 4,096 of them; place 0 */
  SPALDEP_REFUSED_RECORD = 6,          /* neither event nor gap, or a gap with a core, type, amount or wave, or that
                                          tells of no loss; place: the record */
  SPALDEP_REFUSED_TIME = 7,            /* a time below that of the record before, or the same where one of the two is
                                          a gap; place: the record */
  SPALDEP_REFUSED_LIMIT_OR_MEMORY = 8, /* limit not 1 to 256, work under 160 bytes a reading of it, or a result
                                          slice that is odd or longer than 65,536 bytes; place 0 */
  SPALDEP_REFUSED_BINDINGS = 9,        /* a reading of 32 bindings must take one more; place: the first such record */
  SPALDEP_REFUSED_LIVE = 10,           /* more readings live than the limit; place: the record after which */
  SPALDEP_REFUSED_RESULT_ROOM = 11,    /* the report needs more numbers than the result slice has; place 0 */
  SPALDEP_REFUSED_LISTING_ROOM = 12,   /* the slice is too short: for the automaton's steps, for a pattern as text, or
                                          for the pattern of a text; place 0 */
  SPALDEP_REFUSED_BOUND_TWICE = 13,    /* a reading binds a record twice; place: the record. It has a number and
                                          does not arise. */
  SPALDEP_REFUSED_TEXT = 14,           /* a text outside the form; place: the first bad or missing line */
  SPALDEP_REFUSED_INDEX = 15           /* an index, or the slice for one, not of 18 bytes, or an index with zero bits
                                          set; place 0 */
};

/* How a reported reading was closed: spaldep_mark. */
enum {
  SPALDEP_MARK_WINDOW = 1,      /* by an event that is later than its first one by more than the duration */
  SPALDEP_MARK_END = 2,         /* by the block's end */
  SPALDEP_MARK_GAP = 3,         /* by a gap, near or far; the last set has a group variable, so that events which were
                                   lost may have belonged to the reading */
  SPALDEP_MARK_GAP_COMPLETE = 4 /* by a gap, near or far; the last set has none, so that no lost event did */
};

/* What a condition compares: its attribute, and with SPALDEP_FORM_ATTRIBUTE its second attribute. Each is a field of
   an event's record but for the class, which the type gives: see spaldep_check_block. */
enum {
  SPALDEP_ATTRIBUTE_CORE = 0,
  SPALDEP_ATTRIBUTE_TYPE = 1,
  SPALDEP_ATTRIBUTE_CLASS = 2,
  SPALDEP_ATTRIBUTE_SLOT = 3,
  SPALDEP_ATTRIBUTE_AMOUNT = 4, /* the only one that may be negative */
  SPALDEP_ATTRIBUTE_WAVE = 5    /* the wave slot, 0 to 255 */
};

/* How the left side of a condition must stand to the right one, as whole numbers. Of a group variable every event that
   is bound to it is asked, so where NOT_EQUAL rejects an event, EQUAL may reject it too. */
enum {
  SPALDEP_OPERATOR_EQUAL = 0,
  SPALDEP_OPERATOR_LESS = 1,
  SPALDEP_OPERATOR_LESS_EQUAL = 2,
  SPALDEP_OPERATOR_GREATER = 3,
  SPALDEP_OPERATOR_GREATER_EQUAL = 4,
  SPALDEP_OPERATOR_NOT_EQUAL = 5
};

/* What stands on the right side of a condition. */
enum {
  SPALDEP_FORM_CONSTANT = 0, /* its constant */
  SPALDEP_FORM_ATTRIBUTE = 1 /* the second attribute of its second variable */
};

/* Sizes. Slices may be shorter or longer than these; each call says what it then does. */
#define SPALDEP_RECORD_BYTES 16u                          /* one record of a block */
#define SPALDEP_BLOCK_RECORDS 4096u                       /* the most records of a block */
#define SPALDEP_PATTERN_BYTES_MAX 276u                    /* the longest pattern: 8 + 12 + 8 * 32 */
#define SPALDEP_LIMIT_MAX 256u                            /* the highest limit of the forward pass */
#define SPALDEP_WORK_BYTES(limit) ((size_t)160 * (limit)) /* working memory that a limit needs */
#define SPALDEP_RESULT_BYTES_MAX 65536u                   /* the longest result slice: 32,768 numbers */
#define SPALDEP_STEP_BYTES 8u                             /* one step of a listing */
#define SPALDEP_STEPS_MAX 768u                            /* the most steps that an automaton has */
#define SPALDEP_BINDINGS_MAX 32u                          /* the most bindings of a reading */
#define SPALDEP_TEXT_BYTES_MAX 1017u                      /* the longest text of a pattern, as the writer writes it */
#define SPALDEP_INDEX_BYTES 18u                           /* the index of a block */

/* Stack that a call needs at most, in bytes: what bench/run measured, rounded up; tests/run holds the library to it. */
#define SPALDEP_STACK_FORWARD 4096u
#define SPALDEP_STACK_START_BY_START 45056u

/*
 * Checks a pattern of pattern_len bytes. Its fields, from the most significant bit on:
 *
 *   Header         4 bits  edition: 1
 *   8 bytes        4       n, the number of variables: 1 to 12
 *                  8       c, the number of conditions: 32 at most
 *                  8       zero
 *                 40       duration in cycles
 *
 *   Variables      4       set: 1 for the first variable; for each other one the set of the one before it, or the next.
 *   n bytes                There are 8 sets at most, and 6 variables in a set.
 *                  1       group flag: 1 where it may be bound more than once
 *                  3       zero
 *
 *   Conditions     4       variable
 *   8c bytes       3       attribute: core 0, type 1, class 2, slot 3, amount 4, wave 5; SPALDEP_ATTRIBUTE_..
 *                  3       operator: = 0, < 1, <= 2, > 3, >= 4, != 5; SPALDEP_OPERATOR_..
 *                  1       form: the right side is the constant (0) or the second variable's attribute (1);
 *                          SPALDEP_FORM_..
 *                  4       second variable; zero in form 0
 *                  3       second attribute, as the attribute; zero in form 0
 *                 14       zero
 *                 32       constant: two's complement where the attribute is amount, else unsigned; zero in form 1
 *
 * These lines write the condition 1.wave >= 16, say, from pattern[at] on. For 1.wave = 0.wave the operator is
 * SPALDEP_OPERATOR_EQUAL, the form SPALDEP_FORM_ATTRIBUTE, the second attribute SPALDEP_ATTRIBUTE_WAVE and the constant
 * 0. A constant below 0 is cast to uint32_t first.
 *
 *   uint64_t variable = 1, attribute = SPALDEP_ATTRIBUTE_WAVE, compared = SPALDEP_OPERATOR_GREATER_EQUAL;
 *   uint64_t form = SPALDEP_FORM_CONSTANT, second_variable = 0, second_attribute = 0, constant = 16;
 *   uint64_t bits = variable << 60 | attribute << 57 | compared << 54 | form << 53 | second_variable << 49 |
 *                   second_attribute << 46 | constant;
 *   for (size_t i = 0; i < 8; i++) pattern[at + i] = (uint8_t)(bits >> (56 - 8 * i));
 *
 * Answers  0 where the pattern is in order; else a refusal 1 to 4. No counts: used, readings, peak are 0.
 */
uint64_t spaldep_check_pattern(const uint8_t *pattern, size_t pattern_len);

/*
 * Checks a block of block_len bytes: up to 4,096 records of 16 bytes. The fields of a record, from the most significant
 * bit on:
 *
 *                  2 bits  kind: 0 an event, 1 a gap, where entries were lost
 *                  6       core; zero in a gap
 *                  8       type; zero in a gap. It gives an event its class: 0 up to type 15, 1 up to 31, 2 up to 63,
 *                          3 up to 95, 4 up to 127, 5 above
 *                 40       time in cycles, never below that of the record before: events may have one time, and then
 *                          their order is that of the block; a gap has a time to itself
 *                 32       slot, unsigned; in a gap how many entries were lost, 1 or more
 *                 32       amount, two's complement; zero in a gap
 *                  8       wave, the wave slot, unsigned; zero in a gap
 *
 * Answers  used: the count of records; or a refusal 5 to 7. readings and peak are 0.
 */
uint64_t spaldep_check_block(const uint8_t *block, size_t block_len);

/*
 * Lists the automaton of a pattern into `listing`, which holds listing_len / 8 steps: 8 bytes a step, high byte
 * first, in the order of state, then variable. SPALDEP_STEPS_MAX steps are enough for every pattern.
 *
 * Answers  used: the count of steps; or a refusal 1 to 4 of the pattern, or 12. readings and peak are 0.
 * Memory   After success every byte behind the steps is 0; after a refusal the whole slice is.
 */
uint64_t spaldep_list_automaton(const uint8_t *pattern, size_t pattern_len, uint8_t *listing, size_t listing_len);

/*
 * Reads a pattern from text, as people type it, and writes its bytes into `pattern`. The form, line by line:
 *
 *   set a b+               one line or more, one a set: its variables, a plus behind a group variable. A name is a
 *                          small letter and stands once in all these lines; variables are numbered in that order.
 *   when a.core = b.core   none or more, one a condition: an attribute (core, type, class, slot, amount, wave), an
 *   when a.amount >= -4    operator (=, <, <=, >, >=, !=), and another attribute or a constant. Beside amount a
 *                          constant is -2147483648 to 2147483647, beside any other attribute 0 to 4294967295.
 *   within 100             the last line, always there: the duration in cycles
 *
 * One space stands between two words and none elsewhere, a line feed (byte 10) behind every line, the last one too,
 * and nothing behind the last line. Numbers are decimal, without leading zeros and without a minus before 0. All else
 * is outside the form: tabs, carriage returns, capitals, empty lines, comments.
 *
 *   pattern   SPALDEP_PATTERN_BYTES_MAX bytes are enough for every text
 *
 * Answers  used: the bytes written, which pass spaldep_check_pattern. Or a refusal: 14, whose place is the first line,
 *          from 0, that is bad where it stands or that is missing; then 2 for more than 12 variables, more than 32
 *          conditions or a duration of 2^40 or more; then 3 for a variable in a set beyond the eighth, or the seventh
 *          of its set; then 12. readings and peak are 0.
 * Memory   After success every byte of pattern behind the bytes written is 0; after a refusal the whole slice is.
 */
uint64_t spaldep_read_text(const uint8_t *text, size_t text_len, uint8_t *pattern, size_t pattern_len);

/*
 * Writes a pattern as text in the form of spaldep_read_text, its variables named a, b, c by their number. Reading what
 * was written gives the same pattern bytes. A text that fills its slice has no zero byte behind it.
 *
 *   text     SPALDEP_TEXT_BYTES_MAX bytes are enough for every pattern
 *
 * Answers  used: the bytes written; or a refusal 1 to 4 of the pattern, or 12. readings and peak are 0.
 * Memory   After success every byte of text behind the bytes written is 0; after a refusal the whole slice is.
 */
uint64_t spaldep_write_text(const uint8_t *pattern, size_t pattern_len, uint8_t *text, size_t text_len);

/*
 * The forward pass: one way through the block, with at most `limit` readings live after a record.
 *
 *   limit    1 to 256
 *   work     working memory, at least SPALDEP_WORK_BYTES(limit) bytes. What it holds before does not matter.
 *   result   takes the report as 16-bit numbers, two bytes each, high byte first: of even length, at most
 *            SPALDEP_RESULT_BYTES_MAX bytes. For each reading reported, in the order of first record and then of
 *            the smaller variable where two first differ: a head (spaldep_mark, spaldep_bindings), then each binding
 *            (spaldep_variable, spaldep_record), records rising.
 *
 * Answers  used: the 16-bit numbers written; readings: the readings reported; peak: how many readings were live after
 *          a record, at most. Or a refusal 1 to 8; or 9, 10 or 11, of the earliest record that brings one.
 * Memory   work is all 0 after every answer, whatever its length. After success every byte of result behind the
 *          numbers written is 0; after a refusal the whole slice is, whatever its length.
 */
uint64_t spaldep_forward(const uint8_t *pattern, size_t pattern_len, const uint8_t *block, size_t block_len,
                         uint32_t limit, uint8_t *work, size_t work_len, uint8_t *result, size_t result_len);

/*
 * The start-by-start pass: all readings that begin at a record, then those of the next. It reports the same readings
 * as the forward pass, in the same numbers. It has no limit of live readings, and stops looking where nothing that it
 * could find changes its answer. A pattern whose steps branch often, and which has conditions between variables, can
 * still make it take very long: docs/MANUAL.md, "What a pass costs", has an example and what to do.
 *
 *   result   as for spaldep_forward
 *
 * Answers  used: the 16-bit numbers written; readings: the readings reported; peak 0. Or a refusal 1 to 8 (8 for the
 *          result slice alone); or 9, with the least record of the whole block; or 11.
 * Memory   After success every byte of result behind the numbers written is 0; after a refusal the whole slice is.
 */
uint64_t spaldep_start_by_start(const uint8_t *pattern, size_t pattern_len, const uint8_t *block, size_t block_len,
                                uint8_t *result, size_t result_len);

/*
 * Makes the index of a block, 18 bytes to be kept with it, by which spaldep_search passes over blocks in which a
 * pattern has nothing to find. Its fields, from the most significant bit on:
 *
 *             6 x 13 bits  for each class, 0 first, how many events the block has of it
 *                 64       for each core, 0 first, 1 where the block has an event of it
 *                  2       zero
 *
 *   index    SPALDEP_INDEX_BYTES bytes, no more and no fewer
 *
 * Answers  used: 18, the bytes written; or 15 where index_len is not 18; or a refusal 5 to 7 of the block. readings
 *          and peak are 0.
 * Memory   After a refusal the whole index slice is 0, whatever its length.
 */
uint64_t spaldep_make_index(const uint8_t *block, size_t block_len, uint8_t *index, size_t index_len);

/*
 * The forward pass, but for blocks that cannot match by their index: where a condition says that the class or the core
 * of an event equals a constant, and the index has no event of that class or core. Such a block costs no more than its
 * check: the answer is success with used, readings and peak 0, even where the pass would refuse with 9, 10 or 11.
 *
 *   index    of the block, as spaldep_make_index writes it. With it the report is always that of spaldep_forward. An
 *            index that is not the block's own is not noticed, and readings may then be left out.
 *   limit, work, result   as for spaldep_forward
 *
 * Answers  as spaldep_forward, but that peak is 0 where the block cannot match; and 15, behind 1 to 4 and ahead of 5.
 * Memory   as for spaldep_forward.
 */
uint64_t spaldep_search(const uint8_t *pattern, size_t pattern_len, const uint8_t *index, size_t index_len,
                        const uint8_t *block, size_t block_len, uint32_t limit, uint8_t *work, size_t work_len,
                        uint8_t *result, size_t result_len);

/* The answer's fields: code in the high 8 bits, then 24 bits of place or used, 16 of readings and 16 of peak. */
static inline unsigned spaldep_code(uint64_t answer) { return (unsigned)(answer >> 56); }
static inline uint32_t spaldep_place(uint64_t answer) {
  return answer >> 56 == 0 ? 0 : (uint32_t)(answer >> 32 & 0xffffff);
}
static inline uint32_t spaldep_used(uint64_t answer) {
  return answer >> 56 == 0 ? (uint32_t)(answer >> 32 & 0xffffff) : 0;
}
static inline uint32_t spaldep_readings(uint64_t answer) { return (uint32_t)(answer >> 16 & 0xffff); }
static inline uint32_t spaldep_peak(uint64_t answer) { return (uint32_t)(answer & 0xffff); }

/* The 16-bit number `at`, from 0, of a result slice. */
static inline uint16_t spaldep_number(const uint8_t *result, size_t at) {
  return (uint16_t)(result[2 * at] << 8 | result[2 * at + 1]);
}

/* A head: how the reading was closed (SPALDEP_MARK_..), and how many bindings follow, 1 to 32. */
static inline unsigned spaldep_mark(uint16_t head) { return (unsigned)head >> 12; }
static inline unsigned spaldep_bindings(uint16_t head) { return head & 0x3fu; }

/* A binding: the variable, and the number of the record bound to it. */
static inline unsigned spaldep_variable(uint16_t binding) { return (unsigned)binding >> 12; }
static inline unsigned spaldep_record(uint16_t binding) { return binding & 0xfffu; }

/* The step `at`, from 0, of a listing slice. */
static inline uint64_t spaldep_step(const uint8_t *listing, size_t at) {
  uint64_t step = 0;
  for (size_t i = 0; i < SPALDEP_STEP_BYTES; i++) step = step << 8 | listing[SPALDEP_STEP_BYTES * at + i];
  return step;
}

/* A step: the state that it leaves (bit j: variable j is bound), the variable it binds, 1 where the event must come
   later than everything bound, and the conditions it tests (bit i: condition i). */
static inline unsigned spaldep_step_state(uint64_t step) { return (unsigned)(step >> 52); }
static inline unsigned spaldep_step_variable(uint64_t step) { return (unsigned)(step >> 48 & 15); }
static inline unsigned spaldep_step_order_mark(uint64_t step) { return (unsigned)(step >> 47 & 1); }
static inline uint32_t spaldep_step_conditions(uint64_t step) { return (uint32_t)step; }

#ifdef __cplusplus
}
#endif

#endif
