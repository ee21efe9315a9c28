/*
 * Each call of the library beside the reference's, on the case at hand: the answer, every byte of the slices lent for
 * writing, and that the others are unchanged. What differs is printed and makes the case a failed one. The calls on
 * indexes are in index_calls.h.
 */
#ifndef CALLS_H
#define CALLS_H

#include <stdbool.h>
#include <stddef.h>
#include <stdint.h>

#include "cases.h"
#include "lent.h"
#include "spaldep.h"

enum { RESULT_ROOM = SPALDEP_RESULT_BYTES_MAX + 64, WORK_ROOM = SPALDEP_WORK_BYTES(SPALDEP_LIMIT_MAX) + 4096 };

/* Not in the header: compared where the library has it. */
extern uint64_t spaldep_measure(const uint8_t *pattern, size_t pattern_len, const uint8_t *block, size_t block_len)
    __attribute__((weak));

/* The case at hand: the caller fills it in between begin_case and the first call. */
extern struct test_case now;

/* What runs a case again, before its seed. */
extern const char *case_command;

/* Once, before all else: makes the memory that is lent, and has a crash or a call that does not end reported. */
void calls_ready(void);

void begin_case(uint64_t seed);
void end_case(void); /* counts the case */
void fail(const char *what);

/* Each gives the reference's answer. Of a wide case measure is not compared: it has every reading to count. */
uint64_t compare_check_pattern(void);
uint64_t compare_check_block(void);
uint64_t compare_listing(size_t listing_len);
uint64_t compare_measure(void);

/* Both passes, and demand 3 between them. The reference's start-by-start pass of a wide case is the merged one. */
void compare_passes(uint32_t limit, size_t work_len, size_t result_len);

/* Both passes of the library once more on the block with waves of 0, right after compare_passes with the same
   arguments: where the pattern asks no wave, they answer as before and leave the same bytes. */
void compare_without_waves(uint32_t limit, size_t work_len, size_t result_len);

/* The forward pass of the library once more, with the highest limit and the longest result, on the block with a gap
   that closed one of the readings made an event, right after compare_passes: what the gap closed with mark 4 is reported
   of that block too, and what it closed with mark 3 as it was or with more bindings. */
void compare_filled(void);

/* The forward pass of the library once more on two parts of the block, as the manual says to cut it, right after
   compare_passes with the highest limit and the longest result: what they report together is what was reported. */
void compare_cut(void);

/* The reference's forward pass against every list of bindings, where there are few enough. */
void compare_by_rule(uint32_t limit, size_t work_len, size_t result_len);

/* The reference's start-by-start pass against its merged readings. Not for wide cases. */
void compare_merged(size_t result_len);

/* ---- for further calls ---- */

/* What both passes of the library answered last, the bytes that they left, and with what they were called. */
struct passed {
  uint32_t limit;
  size_t work_len, result_len;
  uint64_t forward, starts;
  uint8_t forward_result[RESULT_ROOM], starts_result[RESULT_ROOM], work[WORK_ROOM];
};
extern struct passed passed;

/* What is said to have failed. */
extern const char *now_call;
void fail_answers(uint64_t answer, const char *where, uint64_t other);

/* Pattern and block of the case as lent, and memory to write to, which holds a byte that differs from case to case. */
extern struct lent lent_pattern, lent_block, lent_work, lent_result;
void lend_input(int call);
void lend_output(size_t work_len, size_t result_len);
uint8_t filled(void);

void same_bytes(const char *what, const struct lent *library, const uint8_t *reference);
/* The two answers, and pattern and block. */
void same_answer(int call, uint64_t library, uint64_t reference);

#endif
