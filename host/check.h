/* Counts what a test checks, and says what failed. */
#ifndef CHECK_H
#define CHECK_H

#include <stdio.h>

static int failures = 0;
static int checks = 0;

static inline void expect(int right, const char *what) {
  checks++;
  if (!right) {
    failures++;
    printf("failed: %s\n", what);
  }
}

/* The test's last line, and its exit status. */
static inline int summed_up(const char *test) {
  printf("%s: %d checks, %d failed\n", test, checks, failures);
  return failures != 0;
}

#endif
