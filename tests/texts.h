/*
 * The text form of patterns in plain C, to hold the library against: written from the form's sentences alone, without
 * looking at the library's code. The calls are those of include/spaldep.h under other names: the same arguments, the
 * same answers, the same bytes in lent memory.
 *
 *     set a b+                one line or more
 *     when a.core = b.core    none or more, or with a constant: when a.amount >= -4
 *     within 100              one line, the last
 */
#ifndef TEXTS_H
#define TEXTS_H

#include <stddef.h>
#include <stdint.h>

#include "rules.h"

/* How attributes and operators are written, by their numbers. */
extern const char *const attribute_words[ATTRIBUTES];
extern const char *const operator_words[OPERATORS];

uint64_t reference_read_text(const uint8_t *text, size_t text_len, uint8_t *pattern, size_t pattern_len);
uint64_t reference_write_text(const uint8_t *pattern, size_t pattern_len, uint8_t *text, size_t text_len);

#endif
