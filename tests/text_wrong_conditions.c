/* Damage to the conditions and the numbers of a text: see text_damage.h. */
#include <stdio.h>
#include <string.h>

#include "text_damage.h"
#include "texts.h"

/* ---- conditions ---- */

/* A when line that the text has, or one that is put in. */
static size_t any_when(struct random *r, const struct making *m, struct text *t) {
  char words[80];
  struct condition k;
  if (m->conditions > 0) return m->sets + below(r, m->conditions);
  make_condition(r, m, &k);
  write_condition(m, &k, words);
  insert_line(t, m->sets, words);
  return m->sets;
}

/* Makes a when line that holds the attribute against a number. */
static size_t wrong_constant(struct random *r, const struct making *m, struct text *t, unsigned attribute,
                             const char *number) {
  char words[DIGITS + 80];
  size_t line = any_when(r, m, t);
  sprintf(words, "when %c.%s %s %s", m->name[below(r, m->variables)], attribute_words[attribute],
          operator_words[below(r, OPERATORS)], number);
  replace_line(t, line, words);
  return line;
}

static unsigned attribute_but_amount(struct random *r) {
  unsigned attribute = below(r, ATTRIBUTES - 1);
  return attribute < AMOUNT ? attribute : attribute + 1;
}

HARM(unknown_left) {
  if (m->variables == LETTERS) return NOT_DONE;
  size_t line = any_when(r, m, t), length;
  t->bytes[word_at(t, line, 1, &length)] = (uint8_t)m->name[between(r, m->variables, LETTERS - 1)];
  return line;
}

HARM(unknown_right) {
  char word[20];
  if (m->variables == LETTERS) return NOT_DONE;
  size_t line = any_when(r, m, t);
  sprintf(word, "%c.%s", m->name[between(r, m->variables, LETTERS - 1)], attribute_words[below(r, ATTRIBUTES)]);
  replace_word(t, line, 3, word);
  return line;
}

/* Operators that there are not. */
HARM(wrong_operator) {
  static const char *const wrong[] = {"==", "=>", "=<", "><", "<<", ">>", "<==", ">==", "===", "~", "is", "not", ""};
  size_t line = any_when(r, m, t);
  replace_word(t, line, 2, ANY_OF(r, wrong));
  return line;
}

/* Ways to write != that there are not, and words that begin or end as it does. */
HARM(near_not_equal) {
  static const char *const wrong[] = {"!",  "=!", "<>", "! =", "!==", "!!=", "=!=", "!=!", "!=<", "<!=",
                                      "~=", "/=", "^=", "!<",  "!>",  "!>=", "ne",  "!-",  "!=-", "\xe2\x89\xa0"};
  size_t line = any_when(r, m, t);
  replace_word(t, line, 2, ANY_OF(r, wrong));
  return line;
}

/* Attributes that there are not. */
HARM(wrong_attribute) {
  static const char *const wrong[] = {"%c.time",  "%c.kind", "%c.cor", "%c.cores", "%c.coret", "%c.amounts", "%c.wav",
                                      "%c.waves", "%c.0",    "%c.5",   "%c.Core",  "%c.",      "%c..core",   "%c.core.",
                                      "%ccore",   "%c:core", "%c",     "%c.co re", "%c.a.core"};
  char word[20];
  size_t line = any_when(r, m, t);
  snprintf(word, sizeof word, ANY_OF(r, wrong), m->name[below(r, m->variables)]);
  replace_word(t, line, PICK(r, 1, 3), word);
  return line;
}

HARM(wrong_when) {
  static const char *const wrong[] = {"when",
                                      "when ",
                                      "when %c.core",
                                      "when %c.core =",
                                      "when %c = 5",
                                      "when %c.core = %c",
                                      "when 5 = %c.core",
                                      "when %c.core = %c.core + 1",
                                      "when 5 = 5",
                                      "when %c.core = 1 %c.core = 1",
                                      "when %c,core = 1",
                                      "when %c+.core = 1",
                                      "when not %c.core = 1",
                                      "when %c.core = 1;"};
  char words[80];
  size_t line = any_when(r, m, t);
  char name = m->name[below(r, m->variables)];
  snprintf(words, sizeof words, ANY_OF(r, wrong), name, name);
  replace_line(t, line, words);
  return line;
}

/* ---- numbers ---- */

/* Puts a number that is none in the place of a constant or of the duration. */
static size_t wrong_number(struct random *r, const struct making *m, struct text *t, const char *number) {
  if (chance(r, 50)) return wrong_constant(r, m, t, chance(r, 50) ? AMOUNT : attribute_but_amount(r), number);
  replace_word(t, m->sets + m->conditions, 1, number);
  return m->sets + m->conditions;
}

HARM(minus_zero) { return wrong_number(r, m, t, chance(r, 80) ? "-0" : "-00"); }

HARM(leading_zero) {
  static const char *const wrong[] = {
      "007", "00", "01", "000", "-07", "-01", "02147483647", "04294967295", "0000000000000000000000001"};
  return wrong_number(r, m, t, ANY_OF(r, wrong));
}

HARM(plus_before) {
  static const char *const wrong[] = {"+5", "+0", "+", "-+5", "+-5", "5+"};
  return wrong_number(r, m, t, ANY_OF(r, wrong));
}

HARM(wrong_digits) {
  static const char *const wrong[] = {"0x10",  "1e3", "1.0", "1_000", "1,000", "ten", "--5", "5-",  "-",  "",
                                      "1 000", "/",   ":",   "1a",    "5:",    "5/",  "1.",  "- 5", "0b1"};
  return wrong_number(r, m, t, ANY_OF(r, wrong));
}

HARM(minus_unsigned) {
  static const char *const wrong[] = {"-1", "-5", "-10", "-2147483648", "-4294967295", "-4294967296"};
  return wrong_constant(r, m, t, attribute_but_amount(r), ANY_OF(r, wrong));
}

HARM(beyond_signed) {
  static const char *const wrong[] = {"2147483648",           "-2147483649",          "4294967295",
                                      "4294967296",           "-4294967295",          "-4294967296",
                                      "9999999999",           "-9223372036854775808", "-9223372036854775809",
                                      "18446744073709551615", "18446744073709551617"};
  return wrong_constant(r, m, t, AMOUNT, ANY_OF(r, wrong));
}

HARM(beyond_unsigned) {
  static const char *const wrong[] = {"4294967296",          "4294967297",           "9999999999",
                                      "10000000000",         "18446744073709551615", "18446744073709551616",
                                      "18446744073709551621"};
  return wrong_constant(r, m, t, attribute_but_amount(r), ANY_OF(r, wrong));
}

HARM(thousand_digits) {
  char number[DIGITS + 2], *at = number;
  bool amount = chance(r, 50);
  if (amount && chance(r, 50)) *at++ = '-';
  for (unsigned i = 0; i < DIGITS; i++) *at++ = (char)(i == 0 ? '1' : '0' + below(r, 10));
  *at = '\0';
  return wrong_constant(r, m, t, amount ? AMOUNT : attribute_but_amount(r), number);
}

HARM(minus_duration) {
  static const char *const wrong[] = {"-1", "-5", "-100", "-1099511627775"};
  replace_word(t, m->sets + m->conditions, 1, ANY_OF(r, wrong));
  return m->sets + m->conditions;
}

const struct damage condition_damages[] = {
    {"an unknown name on the left", unknown_left},
    {"an unknown name on the right", unknown_right},
    {"an operator that there is not", wrong_operator},
    {"an operator near !=", near_not_equal},
    {"an attribute that there is not", wrong_attribute},
    {"a when line of another shape", wrong_when},
    {"-0", minus_zero},
    {"a leading zero", leading_zero},
    {"a plus before a number", plus_before},
    {"a number that is no decimal", wrong_digits},
    {"a minus beside an attribute without sign", minus_unsigned},
    {"a constant beyond 32 bits with a sign", beyond_signed},
    {"a constant beyond 32 bits without a sign", beyond_unsigned},
    {"a constant of a thousand digits", thousand_digits},
    {"a minus before the duration", minus_duration},
};
const size_t condition_damage_count = sizeof condition_damages / sizeof *condition_damages;
