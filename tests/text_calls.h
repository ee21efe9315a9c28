/*
 * The library's reader and writer of texts beside the reference's: the answer, every byte of the slice lent for
 * writing, and that the other is unchanged. What differs is printed and makes the case a failed one.
 */
#ifndef TEXT_CALLS_H
#define TEXT_CALLS_H

#include <stddef.h>
#include <stdint.h>

/* Room for a text and for what is written: the pattern that the reader writes, or the writer's text. */
enum { LARGE_TEXT = 1100000, WRITTEN_ROOM = 4096 };

/* Once, before all else: makes the memory that is lent, and has a crash or a call that does not end reported. */
void text_calls_ready(void);

/* A failure names the case by these words and, where it is not 0, by its seed. */
void begin_text_case(const char *name, uint64_t seed);
void end_text_case(void); /* counts the case */
void fail_text(const char *what);

/* Each gives the library's answer, and leaves what the library wrote in `written`, whole. */
extern uint8_t written[WRITTEN_ROOM];
uint64_t compare_read_text(const uint8_t *text, size_t text_len, size_t pattern_len);
uint64_t compare_write_text(const uint8_t *pattern, size_t pattern_len, size_t text_len);

/* The library alone, on a text that is lent as it is: the answer must be the one given, and the slice all 0. */
void expect_read_refused(const uint8_t *text, size_t text_len, size_t pattern_len, uint64_t expected);

/* What the library's check says of a pattern that it wrote. */
void expect_checked(const uint8_t *pattern, size_t pattern_len);

#endif
