/* A line of a text by itself: see text_lines.h. */
#include "text_lines.h"

#include <string.h>

#include "texts.h"

const char *const attribute_words[ATTRIBUTES] = {"core", "type", "class", "slot", "amount", "wave"};
const char *const operator_words[OPERATORS] = {"=", "<", "<=", ">", ">=", "!="};

/* ---- words and numbers ---- */

static bool is_word(struct span s, const char *word) {
  return s.length == strlen(word) && memcmp(s.at, word, s.length) == 0;
}

/* The number of the word in the table, or `count` where it is none of them. */
static unsigned number_of(struct span s, const char *const *table, unsigned count) {
  unsigned at = 0;
  while (at < count && !is_word(s, table[at])) at++;
  return at;
}

static bool is_name(uint8_t byte) { return byte >= 'a' && byte <= 'z'; }

/* Digits alone, and no 0 in front of others. */
static bool is_decimal(struct span s) {
  for (size_t i = 0; i < s.length; i++)
    if (s.at[i] < '0' || s.at[i] > '9') return false;
  return s.length == 1 || (s.length > 1 && s.at[0] != '0');
}

/* Of decimals: the longer one is larger, and of two of one length the first digit that differs says which is. */
bool at_most(struct span decimal, const char *largest) {
  size_t length = strlen(largest);
  return decimal.length < length || (decimal.length == length && memcmp(decimal.at, largest, length) <= 0);
}

uint64_t value_of_decimal(struct span decimal) {
  uint64_t n = 0;
  for (size_t i = 0; i < decimal.length; i++) n = 10 * n + (uint64_t)(decimal.at[i] - '0');
  return n;
}

/* ---- a line by itself ---- */

/* Cuts a line at its spaces and gives the count of the pieces, of which some may be empty. It keeps the first `most`.
 */
static size_t cut(struct span line, struct span *piece, size_t most) {
  size_t count = 0, from = 0;
  for (size_t i = 0; i <= line.length; i++) {
    if (i < line.length && line.at[i] != ' ') continue;
    if (count < most) piece[count] = (struct span){line.at + from, i - from};
    count++;
    from = i + 1;
  }
  return count;
}

static bool take_names(const struct span *piece, size_t count, struct line *out) {
  out->names = count;
  for (size_t i = 0; i < count; i++) {
    if (piece[i].length == 0 || !is_name(piece[i].at[0])) return false;
    out->name[i] = piece[i].at[0];
    out->plus[i] = piece[i].length == 2 && piece[i].at[1] == '+';
    if (piece[i].length != 1 && !out->plus[i]) return false;
  }
  return count > 0;
}

/* a.core */
static bool take_side(struct span piece, unsigned *letter, unsigned *attribute) {
  if (piece.length < 2 || !is_name(piece.at[0]) || piece.at[1] != '.') return false;
  *letter = piece.at[0];
  *attribute = number_of((struct span){piece.at + 2, piece.length - 2}, attribute_words, ATTRIBUTES);
  return *attribute < ATTRIBUTES;
}

/* Beside amount there are 32 bits with a sign, elsewhere 32 bits without. */
static bool take_constant(struct span piece, unsigned attribute, int64_t *constant) {
  bool minus = piece.length > 0 && piece.at[0] == '-';
  struct span digits = {piece.at + minus, piece.length - minus};
  if (!is_decimal(digits) || (minus && (attribute != AMOUNT || is_word(digits, "0")))) return false;
  if (!at_most(digits, attribute != AMOUNT ? "4294967295" : minus ? "2147483648" : "2147483647")) return false;
  *constant = (int64_t)value_of_decimal(digits);
  if (minus) *constant = -*constant;
  return true;
}

static bool take_condition(const struct span *piece, struct condition *k) {
  *k = (struct condition){.form = WITH_ATTRIBUTE};
  k->operator= number_of(piece[1], operator_words, OPERATORS);
  if (!take_side(piece[0], &k->variable, &k->attribute) || k->operator== OPERATORS) return false;
  if (take_side(piece[2], &k->second_variable, &k->second_attribute)) return true;
  *k = (struct condition){k->variable, k->attribute, k->operator, WITH_CONSTANT, 0, 0, 0};
  return take_constant(piece[2], k->attribute, &k->constant);
}

struct line line_of(struct span bytes) {
  struct line line = {.kind = NO_LINE};
  struct span piece[1 + NAMES];
  size_t count = cut(bytes, piece, 1 + NAMES);
  if (is_word(piece[0], "set") && count <= 1 + NAMES && take_names(piece + 1, count - 1, &line)) line.kind = SET_LINE;
  if (is_word(piece[0], "when") && count == 4 && take_condition(piece + 1, &line.condition)) line.kind = WHEN_LINE;
  if (is_word(piece[0], "within") && count == 2 && is_decimal(piece[1])) {
    line.kind = WITHIN_LINE;
    line.duration = piece[1];
  }
  return line;
}
