/* Tests cg_session from C: the worked example, answer buffers of the exact length, one short and longer, an empty input, bad lines, lines of
 * 2,400 and 2,401 bytes, and more changes, dependencies and actors than there is room. Input and answer end at a page that may not be touched.
 * Prints what failed; exit status 1 where anything did. */
#include "guarded.h"

#include "check.h"

#include "changegraph.h"

static int all(const uint8_t *bytes, size_t size, uint8_t value) {
  for (size_t i = 0; i < size; i++) {
    if (bytes[i] != value) {
      return 0;
    }
  }
  return 1;
}

/* The list with room for `room` answer bytes must give `number` and, where that is 0, `want`. */
static void run(const char *what, const char *list, size_t list_len, size_t room, uint32_t number, const char *want, size_t want_len) {
  uint8_t *input = guarded(list_len, 0);
  memcpy(input, list, list_len);
  uint8_t *answer = guarded(room, 0xEE);
  uint64_t told[2] = {12345, 67890};
  uint32_t got = cg_session(input, list_len, answer, room, told, 1);
  expect(got == number, what);
  expect(memcmp(input, list, list_len) == 0, what);
  if (number == CG_DONE) {
    expect(told[0] == want_len && memcmp(answer, want, want_len) == 0 && all(answer + want_len, room - want_len, 0xEE), what);
  } else {
    expect(told[0] == 0 && all(answer, room, 0), what);
  }
  expect(told[1] == 67890, what);
  unguard(input, list_len);
  unguard(answer, room);
}

static void run_all_rooms(const char *what, const char *list, const char *want) {
  size_t n = strlen(want);
  run(what, list, strlen(list), n, CG_DONE, want, n);
  run(what, list, strlen(list), n + 100, CG_DONE, want, n);
  if (n > 0) {
    run(what, list, strlen(list), n - 1, CG_SHORT_BUFFER, "", 0);
    run(what, list, strlen(list), 0, CG_SHORT_BUFFER, "", 0);
  }
}

#define H1 "1111111111111111111111111111111111111111111111111111111111111111"
#define H2 "2222222222222222222222222222222222222222222222222222222222222222"
#define H3 "3333333333333333333333333333333333333333333333333333333333333333"
#define H4 "4444444444444444444444444444444444444444444444444444444444444444"
#define H5 "5555555555555555555555555555555555555555555555555555555555555555"
#define START "change list\t1\nactors\t2\n"

/* A line `add` of exactly `size` bytes: the hash, numbers padded by digits, and 35 dependencies. */
static size_t long_line(char *out, size_t size) {
  size_t at = 0;
  at += (size_t)sprintf(out + at, "add\t" H1 "\t");
  size_t deps = 35 * 64 + 34;
  size_t digits = size - at - deps - 4; /* four tabs: between the numbers and before the list */
  size_t share[4] = {digits / 4, digits / 4, digits / 4, digits - 3 * (digits / 4)};
  for (int i = 0; i < 4; i++) {
    for (size_t d = 0; d < share[i]; d++) {
      out[at++] = '1';
    }
    out[at++] = '\t';
  }
  for (int i = 0; i < 35; i++) {
    if (i > 0) {
      out[at++] = ',';
    }
    memset(out + at, '4', 64);
    at += 64;
  }
  return at;
}

static void long_lines(void) {
  static char list[4096];
  for (size_t size = 2400; size <= 2401; size++) {
    size_t at = (size_t)sprintf(list, START);
    size_t n = long_line(list + at, size);
    expect(n == size, "the line has the length that is to be tried");
    list[at + n] = '\n';
    const char *want = size == 2400 ? "add\t4\t" H4 "\n" : "bad\t3\n";
    run(size == 2400 ? "a line of 2,400 bytes" : "a line of 2,401 bytes", list, at + n + 1, 1000, CG_DONE, want, strlen(want));
  }
}

/* 257 changes: the last finds no room. */
static void no_room(void) {
  static char list[1 << 15];
  static char want[1 << 12];
  size_t at = (size_t)sprintf(list, START);
  size_t size = 0;
  for (int k = 0; k <= CG_BENCH_CHANGES; k++) {
    at += (size_t)sprintf(list + at, "add\t%064x\t0\t%d\t%d\t1\t-\n", k, k + 1, k + 1);
    size += (size_t)sprintf(want + size, "add\t%d\n", k < CG_BENCH_CHANGES ? 0 : 9);
  }
  run("257 changes", list, at, size, CG_DONE, want, size);
}

/* Changes of 32 dependencies each until 1,024 are in: then one more finds no room. */
static void no_edge_room(void) {
  static char list[1 << 17];
  static char want[1 << 12];
  size_t at = (size_t)sprintf(list, START "add\t%064x\t0\t1\t1\t1\t-\n", 0);
  size_t size = (size_t)sprintf(want, "add\t0\n");
  for (int k = 1; k <= CG_BENCH_EDGES / CG_DEPENDENCIES; k++) {
    at += (size_t)sprintf(list + at, "add\t%064x\t0\t%d\t%d\t1\t", k, k + 1, k + 1);
    for (int d = 0; d < CG_DEPENDENCIES; d++) {
      at += (size_t)sprintf(list + at, "%s%064x", d > 0 ? "," : "", k - 1);
    }
    at += (size_t)sprintf(list + at, "\n");
    size += (size_t)sprintf(want + size, "add\t0\n");
  }
  at += (size_t)sprintf(list + at, "add\t%064x\t1\t1\t1\t1\t%064x\n", 999, 0);
  size += (size_t)sprintf(want + size, "add\t10\n");
  run("1,025 dependencies", list, at, size, CG_DONE, want, size);
}

/* As many actors as there is room for, and one more. */
static void no_actor_room(void) {
  char list[100];
  sprintf(list, "change list\t1\nactors\t%d\n", CG_BENCH_ACTORS);
  run_all_rooms("16 actors", list, "");
  sprintf(list, "change list\t1\nactors\t%d\n", CG_BENCH_ACTORS + 1);
  run_all_rooms("17 actors", list, "bad\t2\n");
}

int main(void) {
  run_all_rooms("worked example",
                START "add\t" H1 "\t0\t1\t3\t3\t-\n"
                      "add\t" H2 "\t1\t1\t5\t2\t" H1 "\n"
                      "add\t" H3 "\t0\t2\t5\t2\t" H1 "\n"
                      "heads\nclock\t" H2 "\nmissing\t" H2 "\nowner\t0\t4\n"
                      "add\t" H2 "\t1\t9\t9\t9\t" H4 "\n"
                      "add\t" H5 "\t0\t3\t6\t1\t" H4 "\n",
                "add\t0\nadd\t0\nadd\t0\nheads\t" H2 "," H3 "\nclock\t1,1\nmissing\t" H3 "\nowner\t" H3 "\nadd\t3\nadd\t4\t" H4 "\n");
  run_all_rooms("empty input", "", "bad\t1\n");
  run_all_rooms("no second line", "change list\t1\n", "bad\t2\n");
  run_all_rooms("nothing after the second line", START, "");
  run_all_rooms("answers before a bad line stand", START "heads\nx\nheads\n", "heads\t-\nbad\t4\n");
  run_all_rooms("a second actors line", START "actors\t2\n", "bad\t3\n");
  run_all_rooms("a blank line", START "heads\n\n", "heads\t-\nbad\t4\n");
  run_all_rooms("a last line without its end", START "heads\nheads", "heads\t-\nbad\t4\n");
  run_all_rooms("an entry for each actor", "change list\t1\nactors\t3\nclock\t-\n", "clock\t0,0,0\n");
  run_all_rooms("an unknown actor owns nothing", START "owner\t2\t1\n", "owner\t14\n");
  long_lines();
  no_room();
  no_edge_room();
  no_actor_room();
  return summed_up("session");
}
