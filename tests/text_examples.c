/* The texts under examples/: see text_examples.h. */
#include "text_examples.h"

#include <inttypes.h>
#include <stdio.h>
#include <stdlib.h>
#include <string.h>

#include "spaldep.h"
#include "text_calls.h"
#include "text_tally.h"

enum { FILE_ROOM = 2048 };

struct file {
  const char *name;
  size_t length;
  uint8_t bytes[FILE_ROOM];
};

static void load(const char *name, struct file *f) {
  FILE *file = fopen(name, "rb");
  f->name = name;
  f->length = file == NULL ? 0 : fread(f->bytes, 1, FILE_ROOM, file);
  if (f->length == 0 || f->length == FILE_ROOM) {
    fprintf(stderr, "texts: %s cannot be read, or is not of its size\n", name);
    exit(2);
  }
  fclose(file);
}

static void fill(const char *name, const void *bytes, size_t length, struct file *f) {
  memset(f, 0, sizeof *f);
  f->name = name;
  f->length = length;
  memcpy(f->bytes, bytes, length);
}

/* ---- texts and their patterns ---- */

static void load_bench(struct file *text, struct file *pattern) {
  load("examples/bench.txt", text);
  load("examples/bench.pattern", pattern);
}

/* A text with !=, beside an attribute and beside a constant, and the bytes that Rule 2.3 gives it. */
static void make_not_equal(struct file *text, struct file *pattern) {
  static const char words[] = "set a b+\nwhen a.core != b.core\nwhen b.slot != 7\nwithin 5\n";
  static const uint8_t bytes[] = {0x12, 2,    0, 0, 0, 0, 0, 5, 0x10, 0x18, /* then the conditions */
                                  0x01, 0x62, 0, 0, 0, 0, 0, 0, 0x17, 0x40, 0, 0, 0, 0, 0, 7};
  fill("a text with !=", words, strlen(words), text);
  fill("the pattern of a text with !=", bytes, sizeof bytes, pattern);
}

static uint64_t success(size_t used) { return (uint64_t)used << 32; }

static bool wrote(const struct file *f) { return memcmp(written, f->bytes, f->length) == 0; }

/* Each is made of the other. */
static void run_both(const struct file *text, const struct file *pattern) {
  begin_text_case(text->name, 0);
  if (compare_read_text(text->bytes, text->length, SPALDEP_PATTERN_BYTES_MAX) != success(pattern->length) ||
      !wrote(pattern))
    fail_text("does not give the pattern of the text");
  end_text_case();
  begin_text_case(pattern->name, 0);
  if (compare_write_text(pattern->bytes, pattern->length, SPALDEP_TEXT_BYTES_MAX) != success(text->length) ||
      !wrote(text))
    fail_text("does not give the text of the pattern");
  end_text_case();
}

/* The span that examples/upload.txt has in examples/upload.block: 2 1@0 0@1 2@2 2@4 3@7. */
static void find_upload_span(const struct file *pattern) {
  static const uint16_t span[] = {0x2005, 0x1000, 0x0001, 0x2002, 0x2004, 0x3007};
  static uint8_t work[SPALDEP_WORK_BYTES(SPALDEP_LIMIT_MAX)], result[SPALDEP_RESULT_BYTES_MAX];
  static struct file block;
  load("examples/upload.block", &block);
  uint64_t answer = spaldep_forward(pattern->bytes, pattern->length, block.bytes, block.length, SPALDEP_LIMIT_MAX, work,
                                    sizeof work, result, sizeof result);
  bool found = spaldep_code(answer) == 0 && spaldep_readings(answer) == 1 && spaldep_used(answer) == 6;
  for (size_t i = 0; i < 6; i++) found = found && spaldep_number(result, i) == span[i];
  if (!found) fail_text("gives a pattern that does not find its span");
}

/* A text with names of its own: written again it has others, and the same pattern. */
static void run_upload_text(void) {
  static struct file text, pattern, again;
  load("examples/upload.txt", &text);
  begin_text_case("examples/upload.txt", 0);
  uint64_t answer = compare_read_text(text.bytes, text.length, SPALDEP_PATTERN_BYTES_MAX);
  pattern.length = spaldep_used(answer);
  memcpy(pattern.bytes, written, pattern.length);
  if (spaldep_code(answer) != 0) fail_text("refuses the example");
  find_upload_span(&pattern);
  expect_checked(pattern.bytes, pattern.length);
  answer = compare_write_text(pattern.bytes, pattern.length, SPALDEP_TEXT_BYTES_MAX);
  again.length = spaldep_used(answer);
  memcpy(again.bytes, written, again.length);
  if (again.length != text.length) fail_text("writes another length");
  if (compare_read_text(again.bytes, again.length, SPALDEP_PATTERN_BYTES_MAX) != success(pattern.length) ||
      !wrote(&pattern))
    fail_text("gives another pattern of what was written");
  end_text_case();
}

void run_example_texts(void) {
  static struct file text, pattern;
  load_bench(&text, &pattern);
  run_both(&text, &pattern);
  make_not_equal(&text, &pattern);
  run_both(&text, &pattern);
  run_upload_text();
}

/* ---- every byte and every length ---- */

static void read_changed(const struct file *f, size_t length, size_t pattern_len) {
  begin_text_case(f->name, 0);
  compare_read_text(f->bytes, length, pattern_len);
  end_text_case();
}

static void write_changed(const struct file *f, size_t length, size_t text_len) {
  begin_text_case(f->name, 0);
  compare_write_text(f->bytes, length, text_len);
  end_text_case();
}

/* The text without the byte at `at`, and with it twice. */
static void drop_and_double(const struct file *text, size_t at) {
  static struct file changed;
  changed.name = text->name;
  memcpy(changed.bytes, text->bytes, at);
  memcpy(changed.bytes + at, text->bytes + at + 1, text->length - at - 1);
  read_changed(&changed, text->length - 1, SPALDEP_PATTERN_BYTES_MAX);
  changed.bytes[at] = text->bytes[at];
  memcpy(changed.bytes + at + 1, text->bytes + at, text->length - at);
  read_changed(&changed, text->length + 1, SPALDEP_PATTERN_BYTES_MAX);
}

static void change_text(struct file *text, size_t pattern_len) {
  for (size_t at = 0; at < text->length; at++) {
    uint8_t byte = text->bytes[at];
    drop_and_double(text, at);
    for (unsigned other = 0; other < 256; other++) {
      text->bytes[at] = (uint8_t)other;
      read_changed(text, text->length, SPALDEP_PATTERN_BYTES_MAX);
    }
    text->bytes[at] = byte;
  }
  for (size_t length = 0; length <= text->length + 8; length++) read_changed(text, length, SPALDEP_PATTERN_BYTES_MAX);
  for (size_t length = 0; length <= pattern_len + 16; length++) read_changed(text, text->length, length);
}

static void change_pattern(struct file *pattern, size_t text_len) {
  for (size_t at = 0; at < 8 * pattern->length; at++) {
    pattern->bytes[at / 8] = (uint8_t)(pattern->bytes[at / 8] ^ 0x80u >> at % 8);
    write_changed(pattern, pattern->length, SPALDEP_TEXT_BYTES_MAX);
    pattern->bytes[at / 8] = (uint8_t)(pattern->bytes[at / 8] ^ 0x80u >> at % 8);
  }
  for (size_t length = 0; length <= pattern->length + 16; length++)
    write_changed(pattern, length, SPALDEP_TEXT_BYTES_MAX);
  for (size_t length = 0; length <= text_len + 16; length++) write_changed(pattern, pattern->length, length);
}

void run_changed_texts(void) {
  static struct file text, pattern;
  uint64_t before = text_tally.failed;
  load_bench(&text, &pattern);
  text.name = "examples/bench.txt, changed";
  pattern.name = "examples/bench.pattern, changed";
  change_text(&text, pattern.length);
  change_pattern(&pattern, text.length);
  make_not_equal(&text, &pattern);
  text.name = "a text with !=, changed";
  pattern.name = "the pattern of a text with !=, changed";
  change_text(&text, pattern.length);
  change_pattern(&pattern, text.length);
  printf("the bench's text and pattern, and those with !=, with each byte and each length changed: %" PRIu64
         " differ\n",
         text_tally.failed - before);
}
