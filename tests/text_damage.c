/* Damage to the bytes of a text: see text_damage.h. */
#include "text_damage.h"

/* A place in a line, behind its last byte too. */
static size_t any_place(struct random *r, const struct text *t, size_t line) {
  size_t length, at = line_at(t, line, &length);
  return at + below(r, (unsigned)length + 1);
}

HARM(byte_dropped) {
  UNUSED(m);
  splice(t, any_byte(r, t), 1, "", 0);
  return NO_PLACE;
}

HARM(byte_doubled) {
  UNUSED(m);
  size_t at = any_byte(r, t);
  uint8_t byte = t->bytes[at];
  splice(t, at, 0, &byte, 1);
  return NO_PLACE;
}

HARM(bytes_swapped) {
  UNUSED(m);
  size_t at = below(r, (unsigned)t->length - 1);
  uint8_t swapped[2] = {t->bytes[at + 1], t->bytes[at]};
  splice(t, at, 2, swapped, 2);
  return NO_PLACE;
}

HARM(byte_changed) {
  UNUSED(m);
  static const char likely[] = "0123456789abcdefghijklmnopqrstuvwxyz+-.=<>! \n";
  uint8_t *byte = &t->bytes[any_byte(r, t)];
  *byte = chance(r, 70) ? (uint8_t)likely[below(r, sizeof likely - 1)] : (uint8_t)(*byte + 1 + below(r, 255));
  return NO_PLACE;
}

/* Puts a byte that no text has anywhere into a line, or over a byte of it. */
static size_t strange_byte(struct random *r, struct text *t, uint8_t byte) {
  size_t line = any_line(r, t), length, at = line_at(t, line, &length);
  if (chance(r, 50))
    t->bytes[at + below(r, (unsigned)length)] = byte;
  else
    splice(t, any_place(r, t, line), 0, &byte, 1);
  return line;
}

HARM(tab) {
  UNUSED(m);
  size_t line = any_line(r, t), length, at = word_at(t, line, 0, &length);
  if (chance(r, 50)) return strange_byte(r, t, (uint8_t)PICK(r, '\t', '\t', '\v', '\f'));
  t->bytes[at + length] = '\t';
  return line;
}

HARM(carriage_return) {
  UNUSED(m);
  size_t line = any_line(r, t), length, at = line_at(t, line, &length);
  if (chance(r, 20)) return strange_byte(r, t, '\r');
  splice(t, at + length, chance(r, 50), "\r", 1);
  return line;
}

HARM(carriage_returns_everywhere) {
  UNUSED(m), UNUSED(r);
  size_t lines = count_lines(t), length;
  for (size_t line = 0; line < lines; line++) splice(t, line_at(t, line, &length) + length, 0, "\r", 1);
  return 0;
}

HARM(over_127) {
  UNUSED(m);
  size_t line = any_line(r, t), length, at = word_at(t, line, 0, &length);
  switch (below(r, 4)) {
    case 0: splice(t, at + length, 1, "\xc2\xa0", 2); return line; /* a space that does not break */
    case 1: splice(t, 0, 0, "\xef\xbb\xbf", 3); return 0;          /* a mark of the byte order */
    default: return strange_byte(r, t, (uint8_t)between(r, 128, 255));
  }
}

HARM(zero_byte) {
  UNUSED(m);
  size_t lines = count_lines(t);
  if (chance(r, 70)) return strange_byte(r, t, 0);
  splice(t, t->length, 0, "\0\0\0", between(r, 1, 3));
  return lines;
}

HARM(space_doubled) {
  UNUSED(m);
  size_t line = any_line(r, t), length, at = word_at(t, line, below(r, (unsigned)count_words(t, line) - 1), &length);
  splice(t, at + length, 0, " ", 1);
  return line;
}

HARM(space_dropped) {
  UNUSED(m);
  size_t line = any_line(r, t), length, at = word_at(t, line, below(r, (unsigned)count_words(t, line) - 1), &length);
  splice(t, at + length, 1, "", 0);
  return line;
}

HARM(space_before) {
  UNUSED(m);
  size_t line = any_line(r, t), length;
  splice(t, line_at(t, line, &length), 0, "  ", between(r, 1, 2));
  return line;
}

HARM(space_behind) {
  UNUSED(m);
  size_t line = any_line(r, t), length, at = line_at(t, line, &length);
  splice(t, at + length, 0, "  ", between(r, 1, 2));
  return line;
}

HARM(capital) {
  UNUSED(m);
  size_t line = any_line(r, t), length, at = line_at(t, line, &length), i;
  do i = at + below(r, (unsigned)length);
  while (t->bytes[i] < 'a' || t->bytes[i] > 'z');
  t->bytes[i] = (uint8_t)(t->bytes[i] - 'a' + 'A');
  return line;
}

HARM(scribble) {
  static const char likely[] = "set when within ab+.core=<>!-01\n\n";
  UNUSED(m);
  t->length = below(r, 60);
  for (size_t i = 0; i < t->length; i++)
    t->bytes[i] = chance(r, 90) ? (uint8_t)likely[below(r, sizeof likely - 1)] : (uint8_t)random_next(r);
  return NO_PLACE;
}

const struct damage byte_damages[] = {
    {"a byte dropped", byte_dropped},
    {"a byte doubled", byte_doubled},
    {"two bytes swapped", bytes_swapped},
    {"a byte changed", byte_changed},
    {"a tab", tab},
    {"a carriage return", carriage_return},
    {"carriage returns in all lines", carriage_returns_everywhere},
    {"a byte over 127", over_127},
    {"a zero byte", zero_byte},
    {"a space doubled", space_doubled},
    {"a space dropped", space_dropped},
    {"a space before a line", space_before},
    {"a space behind a line", space_behind},
    {"a capital letter", capital},
    {"bytes by chance", scribble},
};
const size_t byte_damage_count = sizeof byte_damages / sizeof *byte_damages;
