/* The rows of Rule 10.2, and more that the rules settle, most of it on waves and on !=, run on the library and the
   reference. */
#ifndef ROWS_H
#define ROWS_H

#include <stddef.h>
#include <stdint.h>

/* The bytes of Rule 10.1. */
size_t bench_pattern(uint8_t *pattern);
size_t bench_block(uint8_t *block);

/* Adds one to *passed or *failed for each row and implementation; prints the rows that fail. */
void rows_run(uint64_t *passed, uint64_t *failed);

#endif
