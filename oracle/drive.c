/* Answers the lines of the oracle's `drive` over lent tables: one command a line in, one answer a line out (README.md has the commands).
 *
 *     drive CHANGES EDGES ACTORS WAITING < lines > answers
 *
 * The numbers are the room of the tables. Beside the answer every call is held against two rules: a number other than 0 leaves every lent
 * byte as it was, and so does a question; every eighth question is asked once more with a buffer one element short, which must
 * be refused with 15 and leave the buffer. Where a rule is broken the answer is a line that says so. */
#include <inttypes.h>
#include <stdio.h>
#include <stdlib.h>
#include <string.h>

#include "changegraph_hub.h"

enum { FIELDS = 16, HASHES = 4200, NUMBERS = 20000, LINE = 1 << 21, TEXT = 1 << 20 };

/* ---- the lent tables, and a copy of them as they are to be */

typedef struct Block {
  void *at, *kept;
  size_t size;
} Block;

static size_t N, E, A, Q;
static uint8_t *hashes;
static uint32_t *nodes;
static cg_edge *edges;
static uint32_t *clocks;
static uint32_t *counts;

typedef struct Waiting {
  uint8_t *hashes;
  uint64_t *numbers;
  uint8_t *deps;
  uint32_t *count;
} Waiting;

static Waiting queue, batch, given;
static Block blocks[5 + 3 * 4];
static int block_count = 0;

static void *lend(size_t size) {
  Block b = {calloc(1, size ? size : 1), calloc(1, size ? size : 1), size};
  blocks[block_count++] = b;
  return b.at;
}

static Waiting lend_waiting(void) {
  Waiting w;
  w.hashes = lend(32 * Q);
  w.numbers = lend(8 * 5 * Q);
  w.deps = lend(1024 * Q);
  w.count = lend(4);
  return w;
}

static void keep(void) {
  for (int i = 0; i < block_count; i++) {
    memcpy(blocks[i].kept, blocks[i].at, blocks[i].size);
  }
}

static int changed(void) {
  for (int i = 0; i < block_count; i++) {
    if (memcmp(blocks[i].kept, blocks[i].at, blocks[i].size) != 0) {
      return 1;
    }
  }
  return 0;
}

#define GRAPH hashes, 32 * N, nodes, 6 * N, edges, E, clocks, N * A, counts, 3
#define WAITING(w) (w).hashes, 32 * Q, (w).numbers, 5 * Q, (w).deps, 1024 * Q, (w).count, 1

/* ---- reading */

static char *field[FIELDS];
static int fields;
static const char *broken; /* what is wrong with the line, or a rule that was broken */

static uint64_t number_of(const char *s) {
  char *end;
  uint64_t n = strtoull(s, &end, 10);
  if (end == s || *end != 0) {
    broken = "a number is expected";
  }
  return n;
}

static int digit(char c) { return c >= '0' && c <= '9' ? c - '0' : c >= 'a' && c <= 'f' ? c - 'a' + 10 : -1; }

/* A hash from `s` on, up to a comma or the end: 64 digits, or H and a digit, or # and a number. */
static const char *hash_from(const char *s, uint8_t *out) {
  if (*s == '#') {
    char *end;
    uint64_t n = strtoull(s + 1, &end, 10);
    memset(out, 0, 32);
    out[0] = 0xff;
    for (int i = 0; i < 8; i++) {
      out[24 + i] = (uint8_t)(n >> (56 - 8 * i));
    }
    return end;
  }
  if (*s == 'H' && digit(s[1]) >= 0) {
    memset(out, 17 * digit(s[1]), 32);
    return s + 2;
  }
  for (int i = 0; i < 32; i++) {
    int a = digit(s[2 * i]), b = a < 0 ? -1 : digit(s[2 * i + 1]);
    if (b < 0) {
      broken = "a hash is expected";
      return "";
    }
    out[i] = (uint8_t)(16 * a + b);
  }
  return s + 64;
}

static uint8_t one_hash[32];
static uint8_t lists[2][32 * HASHES];

/* A list of hashes; its length in bytes. */
static size_t list_of(const char *s, int which) {
  size_t n = 0;
  if (strcmp(s, "-") == 0) {
    return 0;
  }
  for (;;) {
    s = hash_from(s, lists[which] + 32 * n++);
    if (*s != ',') {
      break;
    }
    s++;
  }
  if (*s != 0) {
    broken = "a list of hashes is expected";
  }
  return 32 * n;
}

static const uint8_t *hash_of(const char *s) {
  hash_from(s, one_hash);
  return one_hash;
}

/* Numbers joined by commas up to a colon or the end. */
static size_t numbers_of(const char *s, uint64_t *out) {
  size_t n = 0;
  if (*s == '-') {
    return 0;
  }
  for (;;) {
    char *end;
    out[n++] = strtoull(s, &end, 10);
    if (end == s) {
      broken = "a list of numbers is expected";
      return 0;
    }
    s = end;
    if (*s != ',') {
      return n;
    }
    s++;
  }
}

/* ---- writing */

static char text[TEXT * 16];
static size_t length;

static void put(const char *s) {
  size_t n = strlen(s);
  memcpy(text + length, s, n);
  length += n;
}

static void put_number(uint64_t n) { length += (size_t)sprintf(text + length, "%" PRIu64, n); }

static void put_hash(const uint8_t *h) {
  for (int i = 0; i < 32; i++) {
    text[length++] = "0123456789abcdef"[h[i] >> 4];
    text[length++] = "0123456789abcdef"[h[i] & 15];
  }
}

static void put_hashes(const uint8_t *h, size_t bytes) {
  for (size_t i = 0; i < bytes; i += 32) {
    if (i > 0) {
      put(",");
    }
    put_hash(h + i);
  }
  if (bytes == 0) {
    put("-");
  }
}

static void put_numbers(const uint32_t *v, size_t n) {
  for (size_t i = 0; i < n; i++) {
    if (i > 0) {
      put(",");
    }
    put_number(v[i]);
  }
  if (n == 0) {
    put("-");
  }
}

/* ---- one call, and the rules */

static uint8_t answer[32 * HASHES];
static uint32_t entries[HASHES];
static uint64_t told[2];
static uint64_t questions = 0;
static size_t room; /* elements of the buffer that are lent */

/* After an operation that may change tables. */
static uint32_t after(uint32_t r) {
  if (r == 0) {
    keep();
  } else if (changed()) {
    broken = "refused, and a byte was changed";
  }
  return r;
}

enum Shape { BYTES, ENTRIES, PLAIN };

/* A question: CALL uses `room` elements of the buffer. */
#define ASK(SHAPE, CALL)                                                                       \
  ({                                                                                            \
    room = (SHAPE) == BYTES ? sizeof answer : HASHES;                                           \
    memset(answer, 0xEE, 64);                                                                   \
    told[0] = told[1] = 77;                                                                     \
    uint32_t r = (CALL);                                                                        \
    if (r != 0 && (told[0] != 77 || answer[0] != 0xEE)) {                                       \
      broken = "refused, and an answer was written";                                            \
    }                                                                                           \
    if (told[1] != 77 || changed()) {                                                           \
      broken = "a question changed something";                                                  \
    }                                                                                           \
    if (r == 0 && (SHAPE) != PLAIN && told[0] > 0 && ++questions % 8 == 0) {                    \
      uint64_t is = told[0];                                                                    \
      room = is - 1;                                                                            \
      uint8_t *at = (SHAPE) == BYTES ? answer : (uint8_t *)entries;                             \
      size_t size = (SHAPE) == BYTES ? is : 4 * is;                                             \
      uint8_t *kept = malloc(size);                                                             \
      memcpy(kept, at, size);                                                                   \
      memset(at, 0xEE, size);                                                                   \
      uint32_t again = (CALL);                                                                  \
      if (again != CG_SHORT_BUFFER || at[0] != 0xEE || at[size - 1] != 0xEE) {                  \
        broken = "a buffer one short was not refused as it should be";                          \
      }                                                                                         \
      memcpy(at, kept, size);                                                                   \
      free(kept);                                                                               \
      told[0] = is;                                                                             \
    }                                                                                           \
    r;                                                                                          \
  })

static void say(uint32_t r) { put_number(r); }

static void say_yes(uint32_t r) {
  if (r != 0) {
    say(r);
  } else {
    put(told[0] ? "yes" : "no");
  }
}

static void say_told(uint32_t r) { put_number(r == 0 ? told[0] : r); }

static void say_hashes(uint32_t r) {
  if (r != 0) {
    say(r);
  } else {
    put_hashes(answer, told[0]);
  }
}

static void say_entries(uint32_t r) {
  if (r != 0) {
    say(r);
  } else {
    put_numbers(entries, told[0]);
  }
}

static int is(const char *word, int n) { return fields == n + 1 && strcmp(field[0], word) == 0; }

/* ---- the graph */

static void add(void) {
  size_t n = list_of(field[6], 0);
  uint64_t unknown[2] = {77, 77};
  uint32_t r = after(cg_add(GRAPH, hash_of(field[1]), 32, number_of(field[2]), number_of(field[3]), number_of(field[4]), number_of(field[5]), lists[0], n, unknown, 1));
  say(r);
  if (r == CG_UNKNOWN_DEPENDENCY) {
    put(" ");
    put_hash(lists[0] + 32 * unknown[0]);
  }
  if ((r == CG_UNKNOWN_DEPENDENCY) != (unknown[0] != 77) || unknown[1] != 77) {
    broken = "the place of the unknown dependency";
  }
}

static void missing(void) {
  size_t n = list_of(field[1], 0);
  uint32_t r = n > 0 ? ASK(BYTES, cg_missing(GRAPH, lists[0], n, answer, room, told, 1)) : ASK(PLAIN, cg_missing(GRAPH, lists[0], n, answer, 0, told, 1));
  if (r != 0) {
    say(r);
    return;
  }
  put(n > 0 ? "buffer " : "table ");
  put_hashes(cg_missing_shown(hashes, answer, n), told[0]);
}

static void cache(void) {
  size_t n = 0;
  for (uint32_t k = 0; k < counts[0]; k++) {
    const uint32_t *row = clocks + A * k;
    if (row[nodes[6 * k]] == 0) {
      continue;
    }
    if (n++ > 0) {
      put(";");
    }
    put_number(k);
    put(":");
    put_numbers(row, counts[2]);
  }
  if (n == 0) {
    put("-");
  }
}

static void tables(void) {
  put("nodes ");
  for (uint32_t k = 0; k < counts[0]; k++) {
    const uint32_t *v = nodes + 6 * k;
    length += (size_t)sprintf(text + length, "%s%u/%u/%u/%u/%u", k > 0 ? "," : "", v[0], v[1], v[2], v[3], v[4]);
  }
  put(" edges ");
  for (uint32_t e = 0; e < counts[1]; e++) {
    length += (size_t)sprintf(text + length, "%s%u/%u", e > 0 ? "," : "", edges[e].target, edges[e].next);
  }
}

static void load(void) {
  static uint64_t actors[NUMBERS], seqs[NUMBERS], maxes[NUMBERS], deps[NUMBERS], values[NUMBERS], ops[NUMBERS];
  uint64_t count = number_of(field[1]);
  size_t a = numbers_of(field[2], actors), s = numbers_of(field[3], seqs), m = numbers_of(field[4], maxes), d = numbers_of(field[5], deps),
         v = numbers_of(field[6], values), h = list_of(field[7], 0), o = numbers_of(field[8], ops), l = list_of(field[9], 1);
  say(after(cg_load(GRAPH, lists[0], h, actors, a, seqs, s, maxes, m, ops, o, deps, d, values, v, lists[1], l, count)));
}

/* One field damaged, or one table's length wrong, for the time of one operation: 1, and nothing changes. */
static void damaged(void) {
  size_t k = number_of(field[2]);
  size_t lh = 32 * N, ln = 6 * N, lc = N * A, lt = 3;
  uint8_t kept[32];
  uint32_t *at = NULL;
  uint32_t with = 0;
  const char *what = field[1];
  uint32_t *node = nodes + 6 * k;
  if (strcmp(what, "changes") == 0) {
    at = counts, with = (uint32_t)N + 1;
  } else if (strcmp(what, "edges") == 0) {
    at = counts + 1, with = counts[1] + 1;
  } else if (strcmp(what, "actors") == 0) {
    at = counts + 2, with = (uint32_t)A + 1;
  } else if (strcmp(what, "hashes-1") == 0) {
    lh--;
  } else if (strcmp(what, "nodes-1") == 0) {
    ln--;
  } else if (strcmp(what, "clocks-1") == 0) {
    lc--;
  } else if (strcmp(what, "counts-1") == 0) {
    lt = 2;
  } else if (strcmp(what, "counts-3") == 0) {
    lt = 0;
  } else if (strcmp(what, "actor") == 0) {
    at = node, with = counts[2];
  } else if (strcmp(what, "sequence") == 0) {
    at = node + 1, with = node[1] + 1;
  } else if (strcmp(what, "ops") == 0) {
    at = node + 3, with = node[2] + 1;
  } else if (strcmp(what, "first") == 0) {
    at = node + 4, with = node[4] + 1;
  } else if (strcmp(what, "head") == 0) {
    at = node + 5, with = 1 - node[5];
  } else if (strcmp(what, "flag") == 0) {
    at = node + 5, with = 2;
  } else if (strcmp(what, "row") == 0) {
    at = clocks + A * k + node[0], with = node[1] + 1;
  } else if (strcmp(what, "target") == 0) {
    at = &edges[k].target, with = counts[0];
  } else if (strcmp(what, "next") == 0) {
    at = &edges[k].next, with = edges[k].next + 1;
  } else if (strcmp(what, "hash") != 0) {
    broken = "no such field";
    return;
  }
  uint32_t was = 0;
  if (at != NULL) {
    was = *at;
    *at = with;
  }
  if (strcmp(what, "hash") == 0) {
    memcpy(kept, hashes + 32 * k, 32);
    memcpy(hashes + 32 * k, hashes + 32 * (k - 1), 32);
  }
  keep();
  uint64_t unknown[1] = {77};
  memset(one_hash, 0xAB, 32);
#define LENT hashes, lh, nodes, ln, edges, E, clocks, lc, counts, lt
  switch (questions++ % 6) {
  case 0:
    say(after(cg_add(LENT, one_hash, 32, 0, 1, 1, 1, one_hash, 0, unknown, 1)));
    break;
  case 1:
    say(ASK(BYTES, cg_heads(LENT, answer, room, told, 1)));
    break;
  case 2:
    say(ASK(BYTES, cg_missing(LENT, one_hash, 32, answer, room, told, 1)));
    break;
  case 3:
    say(ASK(ENTRIES, cg_clock_of(LENT, one_hash, 32, entries, room, told, 1)));
    break;
  case 4:
    say(after(cg_insert_actor(LENT, 0)));
    break;
  default:
    say(after(cg_forget(LENT)));
    break;
  }
  if (at != NULL) {
    *at = was;
  }
  if (strcmp(what, "hash") == 0) {
    memcpy(hashes + 32 * k, kept, 32);
  }
  keep();
}

static int graph(void) {
  if (is("new", 1)) {
    say(after(cg_open(GRAPH, number_of(field[1]))));
  } else if (is("add", 6)) {
    add();
  } else if (is("insactor", 1)) {
    say(after(cg_insert_actor(GRAPH, number_of(field[1]))));
  } else if (is("delactor", 1)) {
    say(after(cg_remove_actor(GRAPH, number_of(field[1]))));
  } else if (is("forget", 0)) {
    say(after(cg_forget(GRAPH)));
  } else if (is("load", 9)) {
    load();
  } else if (is("damaged", 2)) {
    damaged();
  } else if (is("cache", 0)) {
    cache();
  } else if (is("tables", 0)) {
    tables();
  } else {
    return 0;
  }
  return 1;
}

static int question(void) {
  if (is("heads", 0)) {
    say_hashes(ASK(BYTES, cg_heads(GRAPH, answer, room, told, 1)));
  } else if (is("headidx", 0)) {
    say_entries(ASK(ENTRIES, cg_head_indexes(GRAPH, entries, room, told, 1)));
  } else if (is("current", 1)) {
    size_t n = list_of(field[1], 0);
    say_yes(ASK(PLAIN, cg_heads_are_current(GRAPH, lists[0], n, told, 1)));
  } else if (is("seqclock", 1)) {
    size_t n = list_of(field[1], 0);
    say_entries(ASK(ENTRIES, cg_clock_of(GRAPH, lists[0], n, entries, room, told, 1)));
  } else if (is("opclock", 1)) {
    size_t n = list_of(field[1], 0);
    say_entries(ASK(ENTRIES, cg_clock_at(GRAPH, lists[0], n, entries, room, told, 1)));
  } else if (is("missing", 1)) {
    missing();
  } else if (is("owner", 2)) {
    uint64_t a = number_of(field[1]), c = number_of(field[2]);
    say_hashes(ASK(BYTES, cg_owner(GRAPH, a, c, answer, room, told, 1)));
  } else if (is("hashat", 2)) {
    uint64_t a = number_of(field[1]), s = number_of(field[2]);
    say_hashes(ASK(BYTES, cg_get_hash_for_actor_seq(GRAPH, a, s, answer, room, told, 1)));
  } else if (is("seqfor", 1)) {
    uint64_t a = number_of(field[1]);
    say_told(ASK(PLAIN, cg_seq_for_actor(GRAPH, a, told, 1)));
  } else if (is("maxopfor", 1)) {
    uint64_t a = number_of(field[1]);
    say_told(ASK(PLAIN, cg_max_op_for_actor(GRAPH, a, told, 1)));
  } else if (is("maxop", 0)) {
    say_told(ASK(PLAIN, cg_max_op(GRAPH, told, 1)));
  } else if (is("len", 0)) {
    say_told(ASK(PLAIN, cg_len(GRAPH, told, 1)));
  } else if (is("actors", 0)) {
    say_told(ASK(PLAIN, cg_num_actors(GRAPH, told, 1)));
  } else if (is("actids", 1)) {
    uint64_t which = number_of(field[1]);
    say_entries(ASK(ENTRIES, cg_actor_ids(GRAPH, which, entries, room, told, 1)));
  } else if (is("deps", 1)) {
    hash_of(field[1]);
    say_hashes(ASK(BYTES, cg_deps_for_hash(GRAPH, one_hash, 32, answer, room, told, 1)));
  } else if (is("has", 1)) {
    hash_of(field[1]);
    say_yes(ASK(PLAIN, cg_has_change(GRAPH, one_hash, 32, told, 1)));
  } else if (is("index", 1)) {
    hash_of(field[1]);
    say_told(ASK(PLAIN, cg_hash_to_index(GRAPH, one_hash, 32, told, 1)));
  } else if (is("hashof", 1)) {
    uint64_t k = number_of(field[1]);
    say_hashes(ASK(BYTES, cg_index_to_hash(GRAPH, k, answer, room, told, 1)));
  } else if (is("remanc", 2)) {
    size_t n = list_of(field[1], 0), m = list_of(field[2], 1);
    say_hashes(ASK(BYTES, cg_remove_ancestors(GRAPH, lists[0], n, lists[1], m, answer, room, told, 1)));
  } else if (is("chained", 0)) {
    say_yes(ASK(PLAIN, cg_chained(GRAPH, told, 1)));
  } else {
    return 0;
  }
  return 1;
}

/* ---- clocks, in lines of their own */

static cg_clock clock_of(const char *s) {
  static uint64_t v[NUMBERS];
  cg_clock c;
  memset(&c, 0, sizeof c);
  c.count = (uint32_t)numbers_of(s, v);
  for (uint32_t i = 0; i < c.count; i++) {
    c.entries[i] = (uint32_t)v[i];
  }
  return c;
}

/* none, cur:CLOCK or diff:CLOCK:CLOCK: the kind, and two clocks */
static uint32_t range_of(const char *s, cg_clock *before, cg_clock *now) {
  memset(before, 0, sizeof *before);
  memset(now, 0, sizeof *now);
  if (strncmp(s, "cur:", 4) == 0) {
    *now = clock_of(s + 4);
    return 1;
  }
  if (strncmp(s, "diff:", 5) == 0) {
    *before = clock_of(s + 5);
    *now = clock_of(strchr(s + 5, ':') + 1);
    return 2;
  }
  return 0;
}

static void say_clock(uint32_t r, const cg_clock *c) {
  if (r != 0) {
    say(r);
  } else {
    put_numbers(c->entries, c->count);
  }
}

static int of_clock(void) {
  if (is("sinclude", 3)) {
    cg_clock c = clock_of(field[1]);
    uint32_t r = cg_hub_clock_include(&c, number_of(field[2]), (uint32_t)number_of(field[3]), told);
    if (r == 0) {
      put(told[0] ? "yes " : "no ");
    }
    say_clock(r, &c);
  } else if (is("smerge", 2)) {
    cg_clock c = clock_of(field[1]), d = clock_of(field[2]);
    uint32_t r = cg_hub_clock_merge(&c, &d);
    say_clock(r, &c);
  } else if (is("scovers", 2)) {
    cg_clock c = clock_of(field[1]), d = clock_of(field[2]);
    say_yes(cg_hub_clock_covers(&c, &d, told));
  } else if (is("sget", 2)) {
    cg_clock c = clock_of(field[1]);
    say_told(cg_hub_clock_get(&c, number_of(field[2]), told));
  } else if (is("sinsert", 2)) {
    cg_clock c = clock_of(field[1]);
    uint32_t r = cg_hub_clock_rewrite_with_new_actor(&c, number_of(field[2]));
    say_clock(r, &c);
  } else if (is("sremove", 2)) {
    cg_clock c = clock_of(field[1]);
    uint32_t r = cg_hub_clock_remove_actor(&c, number_of(field[2]));
    say_clock(r, &c);
  } else if (is("oisolate", 2)) {
    cg_clock c = clock_of(field[1]);
    uint32_t r = cg_hub_clock_isolate(&c, number_of(field[2]));
    say_clock(r, &c);
  } else if (is("ocovers", 3)) {
    cg_clock c = clock_of(field[1]);
    say_yes(cg_hub_clock_op_covers(&c, number_of(field[2]), number_of(field[3]), told));
  } else if (is("rvisafter", 3) || is("rvisbefore", 3) || is("rpredates", 3)) {
    cg_clock before, now;
    uint32_t kind = range_of(field[1], &before, &now);
    uint64_t a = number_of(field[2]), c = number_of(field[3]);
    if (strcmp(field[0], "rvisafter") == 0) {
      say_yes(cg_hub_clock_visible_after(kind, &before, &now, a, c, told));
    } else {
      say_yes(cg_hub_clock_visible_before(kind, &before, &now, a, c, told));
    }
  } else {
    return 0;
  }
  return 1;
}

/* ---- the batch and the queue */

static void put_waiting(const Waiting *w, size_t n) { put_hashes(w->hashes, 32 * n); }

static int of_queue(void) {
  if (is("bnew", 0)) {
    say(after(cg_queue_open(WAITING(batch))));
  } else if (is("qnew", 0)) {
    say(after(cg_queue_open(WAITING(queue))));
  } else if (is("bpush", 4)) {
    size_t n = list_of(field[4], 0);
    say(after(cg_batch_push(WAITING(batch), hash_of(field[1]), 32, number_of(field[2]), number_of(field[3]), 0, 0, lists[0], n)));
  } else if (is("blist", 0)) {
    put_waiting(&batch, batch.count[0]);
  } else if (is("bgive", 0)) {
    say(after(cg_hand_over(WAITING(queue), WAITING(batch))));
  } else if (is("qlist", 0)) {
    uint32_t r = cg_queue_iter(WAITING(queue), given.hashes, 32 * Q, given.numbers, 5 * Q, given.deps, 1024 * Q, told, 1);
    keep();
    if (r != 0) {
      say(r);
    } else {
      put_waiting(&given, told[0]);
    }
  } else if (is("qempty", 0)) {
    say_yes(ASK(PLAIN, cg_queue_is_empty(WAITING(queue), told, 1)));
  } else if (is("qhas", 1)) {
    hash_of(field[1]);
    say_yes(ASK(PLAIN, cg_queue_has_hash(WAITING(queue), one_hash, 32, told, 1)));
  } else if (is("qhasseq", 2)) {
    uint64_t k = number_of(field[1]), s = number_of(field[2]);
    say_yes(ASK(PLAIN, cg_queue_has_actor_seq(WAITING(queue), k, s, told, 1)));
  } else if (is("qpop", 0)) {
    uint32_t r = after(cg_release(GRAPH, WAITING(queue), given.hashes, 32 * Q, given.numbers, 5 * Q, given.deps, 1024 * Q, told, 1));
    if (r != 0) {
      say(r);
    } else {
      put_waiting(&given, told[0]);
    }
  } else if (is("qdrop", 2)) {
    say(after(cg_remove_actor_branch_from(WAITING(queue), number_of(field[1]), number_of(field[2]))));
  } else {
    return 0;
  }
  return 1;
}

int main(int argc, char **argv) {
  if (argc != 5) {
    fprintf(stderr, "drive CHANGES EDGES ACTORS WAITING < lines > answers\n");
    return 2;
  }
  N = strtoull(argv[1], NULL, 10), E = strtoull(argv[2], NULL, 10), A = strtoull(argv[3], NULL, 10), Q = strtoull(argv[4], NULL, 10);
  hashes = lend(32 * N), nodes = lend(24 * N), edges = lend(sizeof(cg_edge) * E), clocks = lend(4 * N * A), counts = lend(12);
  queue = lend_waiting(), batch = lend_waiting(), given = lend_waiting();
  char *line = malloc(LINE);
  while (fgets(line, LINE, stdin) != NULL) {
    fields = 0;
    for (char *f = strtok(line, " \t\n"); f != NULL && fields < FIELDS; f = strtok(NULL, " \t\n")) {
      field[fields++] = f;
    }
    if (fields == 0 || strncmp(field[0], "//", 2) == 0) {
      continue;
    }
    length = 0;
    broken = NULL;
    if (!graph() && !question() && !of_clock() && !of_queue()) {
      broken = "no such command";
    }
    if (broken != NULL) {
      printf("error %s: %s\n", field[0], broken);
    } else {
      text[length] = 0;
      puts(text);
    }
  }
  return 0;
}
