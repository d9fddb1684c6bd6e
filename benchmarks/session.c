/* How many bytes of a change list cg_session reads and answers in a second of processor time. Each list has three changes of two actors and then one kind of line up to about
 * 1 MiB, so that reading and answering is all the work; `add` lines are refused because the hash is known. Prints a line a kind. */
#define _POSIX_C_SOURCE 199309L
#include "changegraph.h"

#include <stdio.h>
#include <string.h>
#include <time.h>

#define H1 "1111111111111111111111111111111111111111111111111111111111111111"
#define H2 "2222222222222222222222222222222222222222222222222222222222222222"
#define H3 "3333333333333333333333333333333333333333333333333333333333333333"
#define H4 "4444444444444444444444444444444444444444444444444444444444444444"

enum { ROOM = 1 << 20 };

static uint8_t input[ROOM];
static uint8_t answer[64 * ROOM];

static double seconds(void) {
  struct timespec t;
  clock_gettime(CLOCK_PROCESS_CPUTIME_ID, &t);
  return (double)t.tv_sec + 1e-9 * (double)t.tv_nsec;
}

static size_t put(size_t at, const char *text) {
  memcpy(input + at, text, strlen(text));
  return at + strlen(text);
}

static int measure(const char *name, const char *lines) {
  size_t at = put(0, "change list\t1\nactors\t2\n"
                     "add\t" H1 "\t0\t1\t3\t3\t-\n"
                     "add\t" H2 "\t1\t1\t5\t2\t" H1 "\n"
                     "add\t" H3 "\t0\t2\t5\t2\t" H1 "\n");
  while (at + strlen(lines) <= ROOM) {
    at = put(at, lines);
  }
  uint64_t length = 0;
  int rounds = 0;
  double start = seconds();
  double spent = 0;
  while (spent < 1) {
    if (cg_session(input, at, answer, sizeof answer, &length, 1) != CG_DONE) {
      printf("%s: the answer does not fit\n", name);
      return 1;
    }
    rounds++;
    spent = seconds() - start;
  }
  printf("%-28s %7.1f MB/s of input, %7.1f MB/s of answer\n", name, 1e-6 * rounds * (double)at / spent, 1e-6 * rounds * (double)length / spent);
  return 0;
}

int main(void) {
  int failed = 0;
  failed |= measure("heads", "heads\n");
  failed |= measure("clock of nothing", "clock\t-\n");
  failed |= measure("clock of a change", "clock\t" H2 "\n");
  failed |= measure("missing of a change", "missing\t" H2 "\n");
  failed |= measure("owner", "owner\t0\t4\n");
  failed |= measure("add, known hash", "add\t" H2 "\t1\t9\t9\t9\t" H4 "\n");
  failed |= measure("add, unknown dependency", "add\t" H4 "\t1\t9\t9\t9\t" H1 "," H4 "\n");
  failed |= measure("heads, clock, owner, add", "heads\nclock\t-\nowner\t0\t4\nadd\t" H2 "\t1\t9\t9\t9\t" H4 "\n");
  return failed;
}
