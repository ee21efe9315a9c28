/* Calls of the library on a workload: see passes.h. */
#define _DEFAULT_SOURCE
#include "passes.h"

#include <stdlib.h>
#include <string.h>
#include <sys/mman.h>
#include <ucontext.h>

enum { STACK_BYTES = 4 << 20, PAINT = 0xa5 };

uint8_t work[SPALDEP_WORK_BYTES(LIMIT)];

uint64_t library_forward(const struct workload *w, uint8_t *result) {
  return spaldep_forward(w->pattern, w->pattern_len, w->block, w->block_len, LIMIT, work, sizeof work, result,
                         SPALDEP_RESULT_BYTES_MAX);
}

uint64_t library_starts(const struct workload *w, uint8_t *result) {
  return spaldep_start_by_start(w->pattern, w->pattern_len, w->block, w->block_len, result, SPALDEP_RESULT_BYTES_MAX);
}

uint64_t library_search(const struct workload *w, uint8_t *result) {
  return spaldep_search(w->pattern, w->pattern_len, w->index, sizeof w->index, w->block, w->block_len, LIMIT, work,
                        sizeof work, result, SPALDEP_RESULT_BYTES_MAX);
}

uint64_t library_check_pattern(const struct workload *w, uint8_t *result) {
  (void)result;
  return spaldep_check_pattern(w->pattern, w->pattern_len);
}

uint64_t library_check_block(const struct workload *w, uint8_t *result) {
  (void)result;
  return spaldep_check_block(w->block, w->block_len);
}

uint64_t library_make_index(const struct workload *w, uint8_t *result) {
  return spaldep_make_index(w->block, w->block_len, result, SPALDEP_INDEX_BYTES);
}

/* ---- stack ---- */

static ucontext_t outside, inside;
static pass painted_pass;
static const struct workload *painted_workload;

static void on_painted_stack(void) {
  static uint8_t result[SPALDEP_RESULT_BYTES_MAX];
  if (painted_pass != NULL) painted_pass(painted_workload, result);
}

size_t painted(pass run, const struct workload *w) {
  static uint8_t *stack;
  if (stack == NULL) stack = mmap(NULL, STACK_BYTES, PROT_READ | PROT_WRITE, MAP_PRIVATE | MAP_ANONYMOUS, -1, 0);
  if (stack == MAP_FAILED) abort();
  memset(stack, PAINT, STACK_BYTES);
  painted_pass = run;
  painted_workload = w;
  getcontext(&inside);
  inside.uc_stack.ss_sp = stack;
  inside.uc_stack.ss_size = STACK_BYTES;
  inside.uc_link = &outside;
  makecontext(&inside, on_painted_stack, 0);
  swapcontext(&outside, &inside);
  size_t clean = 0;
  while (clean < STACK_BYTES && stack[clean] == PAINT) clean++;
  return STACK_BYTES - clean;
}
