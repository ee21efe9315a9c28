/*
 * What docs/RULES.md says of bytes, automaton and readings, for the reference's passes: read_pattern and read_block
 * give the bytes their meaning, step_leaves to carries are the automaton, fires to closing the reading rule. Nothing
 * here goes through a block. `Rule 5.3` in a comment is the clause that the code beside it follows.
 */
#ifndef RULES_H
#define RULES_H

#include <stdbool.h>
#include <stddef.h>
#include <stdint.h>

enum {
  VARIABLES = 12,
  CONDITIONS = 32,
  SETS = 8,
  SET_VARIABLES = 6,
  RECORD_BYTES = 16,
  RECORDS = 4096,
  LIMIT = 256,
  WORK_BYTES = 160,
  RESULT_BYTES = 65536,
  BINDINGS = 32,
  STEP_BYTES = 8
};

enum { CORE, TYPE, CLASS, SLOT, AMOUNT, WAVE, ATTRIBUTES };
enum { EQUAL, LESS, LESS_EQUAL, GREATER, GREATER_EQUAL, NOT_EQUAL, OPERATORS };
enum { WITH_CONSTANT, WITH_ATTRIBUTE };
enum { EVENT, GAP };
enum { MARK_WINDOW = 1, MARK_END = 2, MARK_GAP = 3, MARK_GAP_COMPLETE = 4 };

struct condition {
  unsigned variable, attribute, operator, form, second_variable, second_attribute;
  int64_t constant;
};

struct pattern {
  unsigned n, c;
  uint64_t duration;
  unsigned set[VARIABLES];
  bool group[VARIABLES];
  struct condition condition[CONDITIONS];
};

struct record {
  unsigned kind, core, type, wave;
  uint64_t time;
  int64_t slot, amount;
};

struct block {
  size_t count;
  struct record record[RECORDS];
};

/* A list of bindings. `mark` is 0 until the reading is reported. */
struct reading {
  unsigned mark;
  size_t count;
  struct {
    unsigned variable;
    size_t record;
  } binding[BINDINGS];
};

struct list {
  size_t count, room;
  struct reading *reading;
};

void add(struct list *list, const struct reading *reading);
void drop(struct list *list);

/* Answers of the C calls, Rule 7.8. */
uint64_t answer(uint64_t code, uint64_t place_or_used, uint64_t readings, uint64_t peak);
uint64_t refusal(unsigned code, size_t place);
void clear(uint8_t *bytes, size_t length);

/* The field of `width` bits that begins `from` bits into the bytes, most significant bit first. */
uint64_t field(const uint8_t *bytes, size_t from, size_t width);

/* Each gives 0, or the refusal as an answer. read_all does both in turn. */
uint64_t read_pattern(const uint8_t *bytes, size_t length, struct pattern *p);
uint64_t read_block(const uint8_t *bytes, size_t length, struct block *b);
uint64_t read_all(const uint8_t *pattern, size_t pattern_len, const uint8_t *block, size_t block_len, struct pattern *p,
                  struct block *b);

/* Rule 8.8. */
bool result_in_order(size_t result_len);
bool limit_in_order(uint32_t limit, size_t work_len);

/* Rules 3.1, 3.2 and 3.3. */
int64_t value(const struct record *r, unsigned attribute);
bool compares(int64_t left, unsigned operator, int64_t right);
bool holds(const struct block *b, const struct condition *k, size_t first, size_t second);

/* Whether a condition is between two variables. */
bool is_join(const struct condition *k);

/* Of the step on v from a state, whose bit j says that variable j is bound. */
bool step_leaves(const struct pattern *p, unsigned state, unsigned v);
bool order_mark(const struct pattern *p, unsigned state, unsigned v);
bool carries(const struct condition *k, unsigned state, unsigned v);

/* Whether the event fires the step on v, or any step, from the state that the first `bindings` bindings of r hold. */
bool fires(const struct pattern *p, const struct block *b, const struct reading *r, size_t bindings, unsigned v,
           size_t event);
bool fires_any(const struct pattern *p, const struct block *b, const struct reading *r, size_t bindings, size_t event);

/* The reading with one binding more. */
struct reading bound(const struct reading *r, unsigned v, size_t event);

bool full(const struct pattern *p, const struct reading *r);

/* Whether record `at` comes more than the duration after the first of r. */
bool late(const struct pattern *p, const struct block *b, const struct reading *r, size_t at);

/* The mark with which a live reading closes at `at`, the count of records standing for the end; 0: it does not. */
unsigned closing(const struct pattern *p, const struct block *b, const struct reading *r, size_t at);

/* The numbers that a report needs. */
size_t numbers(const struct list *report);

/* Puts a report that fits in order, writes it and gives the answer of success. */
uint64_t write_report(struct list *report, size_t peak, uint8_t *result);

#endif
