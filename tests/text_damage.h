/*
 * Damage to a text that was written of a making. Each kind is a row with a name; most of them put the text outside the
 * form for sure, and know the line that is then the first bad or missing one.
 */
#ifndef TEXT_DAMAGE_H
#define TEXT_DAMAGE_H

#include "text_cases.h"

/* Of a damage whose place is not known beforehand, or that may leave the text in the form; and of one that this making
   is not for: the text is then as before. */
#define NO_PLACE ((size_t)-1)
#define NOT_DONE ((size_t)-2)

struct damage {
  const char *name;
  /* Does it, and gives the line that is bad from then on, NO_PLACE or NOT_DONE. */
  size_t (*harm)(struct random *r, const struct making *m, struct text *t);
};

/* The rows: text_damage.c, text_wrong_lines.c, text_wrong_words.c and text_wrong_conditions.c. */
extern const struct damage byte_damages[], line_damages[], word_damages[], condition_damages[];
extern const size_t byte_damage_count, line_damage_count, word_damage_count, condition_damage_count;

/* All of them, one behind the other. The first SAFE_DAMAGES are for any text of two bytes or more, also for one that is
   damaged already; the others are for the text as it was written of the making. */
enum { SAFE_DAMAGES = 4 };
size_t damage_count(void);
const struct damage *damage_at(size_t at);

/* ---- for these files ---- */

#define HARM(name) static size_t name(struct random *r, const struct making *m, struct text *t)
#define UNUSED(x) (void)(x)
#define ANY_OF(r, table) table[below(r, sizeof table / sizeof *table)]

/* Takes `removed` bytes out from `at` on, and puts others there. */
void splice(struct text *t, size_t at, size_t removed, const void *bytes, size_t count);
void insert_line(struct text *t, size_t line, const char *words);
void replace_line(struct text *t, size_t line, const char *words);
void replace_word(struct text *t, size_t line, size_t word, const char *words);

/* Where the line, or the word of it, begins; `length` becomes its length, for a line without the line feed. */
size_t line_at(const struct text *t, size_t line, size_t *length);
size_t word_at(const struct text *t, size_t line, size_t word, size_t *length);

size_t count_lines(const struct text *t);
size_t count_words(const struct text *t, size_t line);
size_t any_line(struct random *r, const struct text *t);
size_t any_byte(struct random *r, const struct text *t);

#endif
