/* What a run of the comparison of texts has met: answers by call and code, faults that came together, kinds of damage,
   and further things that its cases must have met. */
#ifndef TEXT_TALLY_H
#define TEXT_TALLY_H

#include <stdbool.h>
#include <stdint.h>

#include "text_cases.h"
#include "text_damage.h"

enum { READ_TEXT, WRITE_TEXT, TEXT_CALLS };
extern const char *const text_call_names[TEXT_CALLS];

/* What a call can be refused for, first what is given first. */
enum { READ_FORM, READ_COUNTS, READ_SETS, READ_ROOM, READ_FAULTS };
enum { WRITE_SHORT, WRITE_HEADER, WRITE_LENGTH, WRITE_VARIABLE, WRITE_CONDITION, WRITE_ROOM, WRITE_FAULTS };
enum { MOST_FAULTS = WRITE_FAULTS };
extern const unsigned fault_codes[TEXT_CALLS][MOST_FAULTS];

/* The first of the faults, which are bits, or the code 0 where there is none. */
unsigned code_of_faults(int call, unsigned faults);

enum {
  TEXT_OWN_NAMES,
  TEXT_ALL_LETTERS,
  TEXT_CHECKED,
  TEXT_AGAIN,
  TEXT_RENAMED,
  TEXT_PATTERN_AGAIN,
  TEXT_LONGEST,
  TEXT_NO_CONDITIONS,
  TEXT_MOST_VARIABLES,
  TEXT_MOST_CONDITIONS,
  TEXT_MOST_SETS,
  TEXT_MOST_IN_SET,
  TEXT_CONDITION_MORE,
  TEXT_CONDITIONS_256,
  TEXT_SET_MORE,
  TEXT_IN_SET_MORE,
  TEXT_ONE_VARIABLE,
  TEXT_LEAST_SIGNED,
  TEXT_GREATEST_SIGNED,
  TEXT_GREATEST_UNSIGNED,
  TEXT_ABOVE_SIGNED,
  TEXT_ZERO,
  TEXT_DURATION_0,
  TEXT_DURATION_GREATEST,
  TEXT_DURATION_MORE,
  TEXT_DURATION_64,
  TEXT_DURATION_LONG,
  TEXT_TWO_DAMAGES,
  TEXT_DAMAGED_ACCEPTED,
  TEXT_ROOM_JUST,
  TEXT_ROOM_ONE_LESS,
  TEXT_ROOM_MORE,
  TEXT_ROOM_NONE,
  WRITTEN_ROOM_JUST,
  WRITTEN_ROOM_ONE_LESS,
  WRITTEN_ROOM_MORE,
  WRITTEN_ROOM_NONE,
  TEXT_LARGE,
  TEXT_LAST_PLACE,
  TEXT_METS
};

enum { MOST_DAMAGES = 80 };

extern struct text_tally {
  uint64_t calls[TEXT_CALLS], codes[TEXT_CALLS][256], pairs[TEXT_CALLS][MOST_FAULTS][MOST_FAULTS];
  uint64_t damaged[MOST_DAMAGES]; /* by one kind alone, and refused with 14 */
  uint64_t met[TEXT_METS];
  uint64_t variables[LETTERS + 1];                                                      /* refused for so many */
  uint64_t attributes[ATTRIBUTES], second_attributes[ATTRIBUTES], operators[OPERATORS]; /* accepted texts with them */
  uint64_t passed, failed;                                                              /* cases */
} text_tally;

/* Counts the first fault with each other one. */
void count_pairs(int call, unsigned faults);

/* What an accepted making has, or what a making that is refused has too much of. */
void count_making(const struct making *m, uint64_t answer);

void print_text_answers(void);

/* Prints what was met, and counts as failed each thing that never was. */
void demand_all_texts_met(void);

#endif
