/* Damage to the lines of a text: see text_damage.h. */
#include <stdio.h>
#include <string.h>

#include "text_damage.h"

HARM(line_dropped) {
  UNUSED(m);
  size_t length, at = line_at(t, any_line(r, t), &length);
  splice(t, at, length + 1, "", 0);
  return NO_PLACE;
}

HARM(line_doubled) {
  size_t line = any_line(r, t), length, at = line_at(t, line, &length);
  struct text before = *t;
  splice(t, at, 0, before.bytes + at, length + 1);
  return line < m->sets || line == m->sets + m->conditions ? line + 1 : NO_PLACE;
}

HARM(lines_swapped) {
  struct text before = *t;
  size_t line = any_line(r, t), other = any_line(r, t), lines = count_lines(t), length;
  UNUSED(m);
  t->length = 0;
  for (size_t i = 0; i < lines; i++) {
    size_t at = line_at(&before, i == line ? other : i == other ? line : i, &length);
    splice(t, t->length, 0, before.bytes + at, length + 1);
  }
  return NO_PLACE;
}

HARM(feed_missing) {
  UNUSED(m);
  size_t line = chance(r, 50) ? count_lines(t) - 1 : any_line(r, t), length, at = line_at(t, line, &length);
  splice(t, at + length, 1, "", 0);
  return line;
}

HARM(last_feed_missing) {
  UNUSED(m), UNUSED(r);
  t->length--;
  return count_lines(t);
}

HARM(feed_inside) {
  UNUSED(m);
  splice(t, any_byte(r, t), 0, "\n", 1);
  return NO_PLACE;
}

HARM(empty_line) {
  UNUSED(m);
  size_t line = below(r, (unsigned)count_lines(t) + 1), length;
  splice(t, line_at(t, line, &length), 0, "\n", 1);
  return line;
}

HARM(cut_short) {
  UNUSED(m);
  t->length = any_byte(r, t);
  return count_lines(t);
}

HARM(no_text) {
  UNUSED(m), UNUSED(r);
  t->length = 0;
  return 0;
}

HARM(no_within) {
  UNUSED(m), UNUSED(r);
  size_t line = count_lines(t) - 1, length;
  t->length = line_at(t, line, &length);
  return line;
}

HARM(behind_within) {
  UNUSED(m);
  static const char *const behind[] = {"\n",     "x",    "within 1\n",       "set q\n", "when a.core = 0\n",
                                       "\r\n",   " ",    "-- comment\n",     "#\n",     "within 1",
                                       "\n\n\n", "\x1a", "set a\nwithin 1\n"};
  const char *words = ANY_OF(r, behind);
  size_t lines = count_lines(t);
  splice(t, t->length, 0, words, strlen(words));
  return lines;
}

HARM(set_behind_when) {
  char words[24];
  size_t line = m->sets + between(r, 1, m->conditions + (m->conditions == 0));
  sprintf(words, "when %c.core = 0", m->name[0]);
  if (m->conditions == 0) insert_line(t, m->sets, words);
  sprintf(words, "set %c", m->name[below(r, LETTERS)]);
  insert_line(t, line, words);
  return line;
}

/* A when or within line at the very beginning is bad itself; behind a set line it makes the next one bad. */
HARM(when_before_set) {
  char words[80];
  size_t line = below(r, m->sets);
  sprintf(words, "when %c.wave < 5", m->name[0]);
  insert_line(t, line, words);
  return line == 0 ? 0 : line + 1;
}

HARM(within_early) {
  size_t line = below(r, m->sets + m->conditions + 1);
  insert_line(t, line, "within 5");
  return line == 0 ? 0 : line + 1;
}

HARM(set_without_names) {
  size_t line = below(r, m->sets), length, at = line_at(t, line, &length);
  const char *words = chance(r, 60) ? "set" : chance(r, 50) ? "set " : "set +";
  if (chance(r, 50))
    insert_line(t, line, words);
  else
    splice(t, at, length, words, strlen(words));
  return line;
}

const struct damage line_damages[] = {
    {"a line dropped", line_dropped},
    {"a line doubled", line_doubled},
    {"two lines swapped", lines_swapped},
    {"a line feed missing", feed_missing},
    {"the last line feed missing", last_feed_missing},
    {"a line feed inside a line", feed_inside},
    {"an empty line", empty_line},
    {"a text cut short", cut_short},
    {"no text", no_text},
    {"no within line", no_within},
    {"text behind the within line", behind_within},
    {"a set line behind a when line", set_behind_when},
    {"a when line before a set line", when_before_set},
    {"a within line before another line", within_early},
    {"set without names", set_without_names},
};
const size_t line_damage_count = sizeof line_damages / sizeof *line_damages;
