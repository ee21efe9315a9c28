/* Damage to the words and names of a text: see text_damage.h. */
#include <stdio.h>
#include <string.h>

#include "text_damage.h"

/* ---- any words ---- */

HARM(word_dropped) {
  UNUSED(m);
  size_t line = any_line(r, t), word = below(r, (unsigned)count_words(t, line)), length;
  size_t at = word_at(t, line, word, &length);
  if (word == 0)
    splice(t, at, length + 1, "", 0);
  else
    splice(t, at - 1, length + 1, "", 0);
  return NO_PLACE;
}

HARM(word_doubled) {
  UNUSED(m);
  struct text before = *t;
  size_t line = any_line(r, t), length, at = word_at(t, line, below(r, (unsigned)count_words(t, line)), &length);
  splice(t, at + length, 0, " ", 1);
  splice(t, at + length + 1, 0, before.bytes + at, length);
  return line;
}

HARM(words_swapped) {
  UNUSED(m);
  char word[TEXT_ROOM], other[TEXT_ROOM];
  size_t line = any_line(r, t), words = count_words(t, line), a = below(r, (unsigned)words),
         b = below(r, (unsigned)words), length, at = word_at(t, line, a, &length);
  sprintf(word, "%.*s", (int)length, (const char *)t->bytes + at);
  at = word_at(t, line, b, &length);
  sprintf(other, "%.*s", (int)length, (const char *)t->bytes + at);
  replace_word(t, line, a, other);
  replace_word(t, line, b, word);
  return NO_PLACE;
}

HARM(wrong_first_word) {
  static const char *const wrong[] = {"sets", "se",      "where", "whenever", "whe",  "with", "withins",
                                      "if",   "within:", "set:",  "SET",      "When", "a",    ""};
  UNUSED(m);
  size_t line = any_line(r, t);
  replace_word(t, line, 0, ANY_OF(r, wrong));
  return line;
}

/* ---- names ---- */

/* Puts a word behind any word of a line. */
static void add_word(struct random *r, struct text *t, size_t line, const char *word) {
  size_t length, at = word_at(t, line, below(r, (unsigned)count_words(t, line)), &length);
  splice(t, at + length, 0, word, strlen(word));
  splice(t, at + length, 0, " ", 1);
}

static const char *name_word(struct random *r, char name) {
  static char word[3];
  word[0] = name;
  word[1] = chance(r, 50) ? '+' : '\0';
  return word;
}

HARM(name_twice_in_a_line) {
  unsigned v = below(r, m->variables);
  add_word(r, t, m->set[v] - 1, name_word(r, m->name[v]));
  return m->set[v] - 1;
}

HARM(name_twice_in_two_lines) {
  unsigned v = below(r, m->variables), line = m->sets;
  if (m->set[v] == m->sets)
    insert_line(t, line, "set");
  else
    line = between(r, m->set[v], m->sets - 1);
  add_word(r, t, line, name_word(r, m->name[v]));
  return line;
}

HARM(wrong_name) {
  static const char *const wrong[] = {"ab", "1", "a1", "_", "a-", "aa", ".", "a.", "a.core", "B", "a,", "`", "{"};
  size_t line = below(r, m->sets);
  replace_word(t, line, between(r, 1, (unsigned)count_words(t, line) - 1), ANY_OF(r, wrong));
  return line;
}

HARM(wrong_plus) {
  size_t line = below(r, m->sets), word = between(r, 1, (unsigned)count_words(t, line) - 1), length;
  size_t at = word_at(t, line, word, &length);
  switch (below(r, 4)) {
    case 0: splice(t, at + 1, length - 1, "++", 2); break;
    case 1: splice(t, at, 0, "+", 1); break;
    case 2: splice(t, at + 1, length - 1, " +", 2); break;
    default: splice(t, at, length, "+", 1); break;
  }
  return line;
}

const struct damage word_damages[] = {
    {"a word dropped", word_dropped},
    {"a word doubled", word_doubled},
    {"two words swapped", words_swapped},
    {"a wrong first word", wrong_first_word},
    {"a name twice in a line", name_twice_in_a_line},
    {"a name twice in two lines", name_twice_in_two_lines},
    {"a name that is no small letter", wrong_name},
    {"a plus that is out of place", wrong_plus},
};
const size_t word_damage_count = sizeof word_damages / sizeof *word_damages;
