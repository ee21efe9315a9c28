/*
 * wide [PART [FILE]]: the families of wide patterns (families.h) through the library's start-by-start call, with the
 * largest result slice. Of each family: how many patterns, how many of them have their answer within a second, and the
 * slowest of these answers. With PART every PARTth pattern alone is asked, beginning with the first; without it all
 * are. FILE takes a line for each pattern that was asked.
 *
 * A call runs in a process of its own, which is killed after a second. Seconds are the processor's. Of an answer only
 * the code is looked at: a pattern and a block in order get 0, 9 or 11. What answers say is for the tests.
 */
#define _DEFAULT_SOURCE
#include <errno.h>
#include <signal.h>
#include <stdbool.h>
#include <stdint.h>
#include <stdio.h>
#include <stdlib.h>
#include <string.h>
#include <sys/wait.h>
#include <time.h>
#include <unistd.h>

#include "families.h"
#include "seconds.h"
#include "spaldep.h"

enum { MOST_SECONDS = 1 };

/* ---- a call ---- */

enum ending { ANSWERED, KILLED, BROKEN };

struct outcome {
  enum ending ending;
  uint64_t answer;
  double seconds;
};

static void give_up(const char *what) {
  perror(what);
  exit(3);
}

/* Has this process killed after MOST_SECONDS of the processor. The timer is that of its one thread: while a timer of
   the whole process runs, Linux moves the clock that seconds() reads only at each tick. */
static void limit_seconds(void) {
  struct sigevent kill_it = {.sigev_notify = SIGEV_SIGNAL, .sigev_signo = SIGKILL};
  struct itimerspec once = {.it_value = {.tv_sec = MOST_SECONDS}};
  timer_t timer;
  if (timer_create(CLOCK_THREAD_CPUTIME_ID, &kill_it, &timer) != 0 || timer_settime(timer, 0, &once, NULL) != 0)
    give_up("timer");
}

/* The process of one call. */
static void call(const struct workload *w, int to) {
  static uint8_t result[SPALDEP_RESULT_BYTES_MAX];
  struct outcome o;
  memset(&o, 0, sizeof o);
  limit_seconds();
  double from = seconds();
  o.answer = spaldep_start_by_start(w->pattern, w->pattern_len, w->block, w->block_len, result, sizeof result);
  o.seconds = seconds() - from;
  unsigned code = spaldep_code(o.answer);
  bool in_order = code == SPALDEP_DONE || code == SPALDEP_REFUSED_BINDINGS || code == SPALDEP_REFUSED_RESULT_ROOM;
  o.ending = !in_order ? BROKEN : o.seconds <= MOST_SECONDS ? ANSWERED : KILLED;
  _exit(write(to, &o, sizeof o) == (ssize_t)sizeof o ? 0 : 1);
}

static struct outcome run(const struct workload *w) {
  struct outcome o;
  int ends[2], status;
  fflush(NULL);
  if (pipe(ends) != 0) give_up("pipe");
  pid_t child = fork();
  if (child < 0) give_up("fork");
  if (child == 0) call(w, ends[1]);
  close(ends[1]);
  ssize_t bytes = read(ends[0], &o, sizeof o);
  close(ends[0]);
  while (waitpid(child, &status, 0) < 0)
    if (errno != EINTR) give_up("waitpid");
  if (bytes == (ssize_t)sizeof o) return o;
  bool killed = WIFSIGNALED(status) && WTERMSIG(status) == SIGKILL;
  return (struct outcome){.ending = killed ? KILLED : BROKEN};
}

/* ---- the table ---- */

struct tally {
  unsigned patterns, answered;
  double slowest;
  char description[DESCRIPTION_BYTES];
};

static void count(struct tally *t, const struct outcome *o, const char *description) {
  t->patterns++;
  if (o->ending != ANSWERED) return;
  t->answered++;
  if (t->answered > 1 && o->seconds <= t->slowest) return;
  t->slowest = o->seconds;
  snprintf(t->description, sizeof t->description, "%s", description);
}

static void print_heading(void) {
  printf("%-42s %8s %9s %7s %10s  %s\n", "family", "patterns", "answered", "share", "slowest ms",
         "the pattern of the slowest answer");
}

static void print_tally(const char *name, const struct tally *t) {
  printf("%-42s %8u %9u", name, t->patterns, t->answered);
  if (t->patterns > 0)
    printf(" %5.1f %%", 100.0 * t->answered / t->patterns);
  else
    printf(" %7s", "-");
  if (t->answered > 0)
    printf(" %10.1f  %s\n", 1e3 * t->slowest, t->description);
  else
    printf(" %10s\n", "-");
}

/* A pattern's line in FILE. */
static void print_line(FILE *to, unsigned family, unsigned number, const struct wide *p, const struct outcome *o) {
  fprintf(to, "%s, %u: ", family_name(family), number);
  if (o->ending == ANSWERED)
    fprintf(to, "code %u, %.3f ms", spaldep_code(o->answer), 1e3 * o->seconds);
  else
    fprintf(to, "%s", o->ending == KILLED ? "no answer" : "FAILED");
  fprintf(to, ": %s", p->description);
  print_conditions(to, &p->workload);
  fprintf(to, "\n");
}

static void print_failure(unsigned family, unsigned number, const struct wide *p, const struct outcome *o) {
  printf("%-42s FAILED: pattern %u, %s: ", family_name(family), number, p->description);
  if (spaldep_code(o->answer) != 0)
    printf("refused with %u at %u\n", spaldep_code(o->answer), spaldep_place(o->answer));
  else
    printf("the call broke off\n");
}

/* One line of the table, counted in the line of its kind as well; false where a call failed. */
static bool run_family(unsigned family, unsigned long part, FILE *lines, struct tally *without, struct tally *with) {
  static struct wide p;
  struct tally t = {0};
  bool all = true;
  begin_family(family);
  for (unsigned number = 0; number < PATTERNS_A_FAMILY; number++) {
    next_pattern(family, &p);
    if (number % part != 0) continue;
    struct outcome o = run(&p.workload);
    count(&t, &o, p.description);
    count(p.joins ? with : without, &o, p.description);
    if (lines != NULL) print_line(lines, family, number, &p, &o);
    if (o.ending != BROKEN) continue;
    print_failure(family, number, &p, &o);
    all = false;
  }
  print_tally(family_name(family), &t);
  return all;
}

int main(int words_given, char **words) {
  char *end = "";
  unsigned long part = words_given > 1 ? strtoul(words[1], &end, 10) : 1;
  if (words_given > 3 || *end != '\0' || part == 0) {
    fprintf(stderr, "usage: wide [PART [FILE]]   PART: every PARTth pattern only; all where none is given\n");
    return 2;
  }
  FILE *lines = words_given > 2 ? fopen(words[2], "w") : NULL;
  if (words_given > 2 && lines == NULL) give_up(words[2]);
  struct tally without = {0}, with = {0};
  bool all = true;
  print_heading();
  for (unsigned family = 0; family < FAMILIES; family++) all = run_family(family, part, lines, &without, &with) && all;
  printf("\n");
  print_tally("all without joins", &without);
  print_tally("all with joins", &with);
  if (lines != NULL && fclose(lines) != 0) give_up(words[2]);
  return all ? 0 : 1;
}
