/* Calls of the library on a workload, and the stack of a call. */
#ifndef PASSES_H
#define PASSES_H

#include <stddef.h>
#include <stdint.h>

#include "spaldep.h"
#include "workloads.h"

enum { LIMIT = SPALDEP_LIMIT_MAX };

/* A call on a workload; `result` has SPALDEP_RESULT_BYTES_MAX bytes. */
typedef uint64_t (*pass)(const struct workload *w, uint8_t *result);

/* Working memory for LIMIT live readings. */
extern uint8_t work[SPALDEP_WORK_BYTES(LIMIT)];

/* The passes, and the search by the workload's index: with all the memory that a call has use for. */
uint64_t library_forward(const struct workload *w, uint8_t *result);
uint64_t library_starts(const struct workload *w, uint8_t *result);
uint64_t library_search(const struct workload *w, uint8_t *result);

/* The checks, which write nothing. */
uint64_t library_check_pattern(const struct workload *w, uint8_t *result);
uint64_t library_check_block(const struct workload *w, uint8_t *result);

/* Writes the index into `result`. */
uint64_t library_make_index(const struct workload *w, uint8_t *result);

/* Bytes of a fresh stack that a call, or no call where `run` is null, overwrites: the stack is painted before it. */
size_t painted(pass run, const struct workload *w);

#endif
