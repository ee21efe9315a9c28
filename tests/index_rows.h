/* The examples of Rules 12.2 and 12.3, run on the library and the reference. */
#ifndef INDEX_ROWS_H
#define INDEX_ROWS_H

#include <stdint.h>

/* Adds one to *passed or *failed for each row and implementation; prints the rows that fail. */
void index_rows_run(uint64_t *passed, uint64_t *failed);

#endif
