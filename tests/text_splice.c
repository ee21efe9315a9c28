/* Lines and words of a text, and changing them: see text_damage.h. */
#include <stdlib.h>
#include <string.h>

#include "text_damage.h"

void splice(struct text *t, size_t at, size_t removed, const void *bytes, size_t count) {
  if (at + removed > t->length || t->length - removed + count > TEXT_ROOM) abort();
  memmove(t->bytes + at + count, t->bytes + at + removed, t->length - at - removed);
  memcpy(t->bytes + at, bytes, count);
  t->length = t->length - removed + count;
}

size_t line_at(const struct text *t, size_t line, size_t *length) {
  size_t at = 0, end;
  for (; line > 0; at++) line -= t->bytes[at] == '\n';
  for (end = at; end < t->length && t->bytes[end] != '\n'; end++) continue;
  *length = end - at;
  return at;
}

size_t word_at(const struct text *t, size_t line, size_t word, size_t *length) {
  size_t line_length, at = line_at(t, line, &line_length), line_end = at + line_length, end;
  for (; word > 0; at++) word -= t->bytes[at] == ' ';
  for (end = at; end < line_end && t->bytes[end] != ' '; end++) continue;
  *length = end - at;
  return at;
}

size_t count_lines(const struct text *t) {
  size_t count = 0;
  for (size_t i = 0; i < t->length; i++) count += t->bytes[i] == '\n';
  return count;
}

size_t count_words(const struct text *t, size_t line) {
  size_t length, at = line_at(t, line, &length), count = 1;
  for (size_t i = 0; i < length; i++) count += t->bytes[at + i] == ' ';
  return count;
}

size_t any_line(struct random *r, const struct text *t) { return below(r, (unsigned)count_lines(t)); }

size_t any_byte(struct random *r, const struct text *t) { return below(r, (unsigned)t->length); }

void insert_line(struct text *t, size_t line, const char *words) {
  size_t length, at = line_at(t, line, &length);
  splice(t, at, 0, "\n", 1);
  splice(t, at, 0, words, strlen(words));
}

void replace_line(struct text *t, size_t line, const char *words) {
  size_t length, at = line_at(t, line, &length);
  splice(t, at, length, words, strlen(words));
}

void replace_word(struct text *t, size_t line, size_t word, const char *words) {
  size_t length, at = word_at(t, line, word, &length);
  splice(t, at, length, words, strlen(words));
}

size_t damage_count(void) { return byte_damage_count + line_damage_count + word_damage_count + condition_damage_count; }

const struct damage *damage_at(size_t at) {
  if (at < byte_damage_count) return &byte_damages[at];
  at -= byte_damage_count;
  if (at < line_damage_count) return &line_damages[at];
  at -= line_damage_count;
  return at < word_damage_count ? &word_damages[at] : &condition_damages[at - word_damage_count];
}
