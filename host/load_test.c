/* Tests loading, forgetting and the clocks on slices from C: each number that they can give and their order, and tables and columns of the exact length, one short
 * and one long. Every number but 0 must leave every byte. Tables and columns end at a page that may not be touched. */
#include "graph.h"

#include "check.h"

enum { UNTOLD = 77 };

/* Whether all bytes are those of the copy, which is freed. */
static int same(const Graph *g, uint8_t *before) {
  size_t size;
  uint8_t *after = graph_copy(g, &size);
  int yes = memcmp(before, after, size) == 0;
  free(before);
  free(after);
  return yes;
}

/* ---- loading */

typedef struct Columns {
  uint8_t *ids;
  uint64_t *numbers[6]; /* actors, sequences, max ops, op counts, dependency counts, dependency values */
  uint8_t *heads;
  size_t len[8]; /* elements: ids, the six, heads */
  uint64_t actors;
} Columns;

#define COLUMNS(c)                                                                                                                                             \
  (c)->ids, (c)->len[0], (c)->numbers[0], (c)->len[1], (c)->numbers[1], (c)->len[2], (c)->numbers[2], (c)->len[3], (c)->numbers[3], (c)->len[4], (c)->numbers[4], \
      (c)->len[5], (c)->numbers[5], (c)->len[6], (c)->heads, (c)->len[7], (c)->actors

/* The worked example, H1, then H2 and H3 on it, with each column longer or shorter by `more` elements where `which` says so; added elements are 0. */
static Columns columns_of(int which, int more) {
  static const uint64_t right[6][3] = {{0, 1, 0}, {1, 1, 2}, {3, 5, 5}, {3, 2, 2}, {0, 1, 1}, {0, 0, 0}};
  Columns c = {.len = {96, 3, 3, 3, 3, 3, 2, 64}, .actors = 2};
  uint8_t ids[128] = {0}, heads[96] = {0};
  hash_of(1, ids), hash_of(2, ids + 32), hash_of(3, ids + 64);
  hash_of(3, heads), hash_of(2, heads + 32);
  if (which >= 0) {
    c.len[which] += (size_t)more;
  }
  c.ids = guarded(c.len[0], 0);
  memcpy(c.ids, ids, c.len[0]);
  for (int i = 0; i < 6; i++) {
    c.numbers[i] = guarded(8 * c.len[1 + i], 0);
    memcpy(c.numbers[i], right[i], 8 * (c.len[1 + i] < 3 ? c.len[1 + i] : 3));
  }
  c.heads = guarded(c.len[7], 0);
  memcpy(c.heads, heads, c.len[7]);
  return c;
}

static Graph rubbish(void) { return graph_of(4, 4, 3, 0xEE); }

/* The number, and that a refusal leaves every byte. */
static void refused(Graph *g, const Columns *c, uint32_t number, const char *what) {
  size_t size;
  uint8_t *before = graph_copy(g, &size);
  expect(cg_load(GRAPH(g), COLUMNS(c)) == number, what);
  expect(same(g, before), what);
}

static void loading(void) {
  Graph g = rubbish(), added = rubbish();
  Columns c = columns_of(-1, 0);
  uint32_t one[1] = {1};
  size_t size;
  expect(open_graph(&added, 2) == CG_DONE && add(&added, 1, 0, 1, 3, 3, one, 0) == CG_DONE && add(&added, 2, 1, 1, 5, 2, one, 1) == CG_DONE && add(&added, 3, 0, 2, 5, 2, one, 1) == CG_DONE,
         "the worked example");
  expect(cg_load(GRAPH(&g), COLUMNS(&c)) == CG_DONE, "load the worked example");
  expect(same(&g, graph_copy(&added, &size)), "loaded is what adding gives, byte for byte");
  Columns more = columns_of(6, 1);
  expect(cg_load(GRAPH(&g), COLUMNS(&more)) == CG_DONE, "a dependency value too many is ignored, and what was there is replaced");
  expect(same(&g, graph_copy(&added, &size)), "loaded again");
  Columns none = columns_of(-1, 0);
  memset(none.len, 0, sizeof none.len);
  expect(cg_load(GRAPH(&g), COLUMNS(&none)) == CG_DONE && g.counts[0] == 0 && g.counts[1] == 0 && g.counts[2] == 2, "nothing, for two actors");
  expect(add(&g, 1, 1, 1, 1, 1, one, 0) == CG_DONE, "what is loaded is valid");
}

static void columns_refused(void) {
  Graph g = rubbish();
  for (int which = 0; which < 8; which++) {
    for (int more = -1; more <= 1; more += 2) {
      Columns c = columns_of(which, more);
      if (which == 0 || which == 7) {
        refused(&g, &c, CG_MALFORMED, "bytes that are no multiple of 32");
        c.actors = 4;
        refused(&g, &c, CG_MALFORMED, "2 before 12");
      } else if (which != 6 || more < 0) {
        refused(&g, &c, CG_COLUMNS_DISAGREE, "a column one short or one long");
        c.actors = 4;
        refused(&g, &c, CG_NO_ACTOR_ROOM, "12 before 18");
      }
    }
  }
  struct {
    int column, at;
    uint64_t value;
    const char *what;
  } harm[] = {
      {0, 1, 2, "an actor not below the count"},
      {0, 1, UINT64_MAX, "the largest actor"},
      {1, 2, 3, "a sequence left out"},
      {1, 0, 0, "sequence 0"},
      {2, 1, 2, "a max op below that of a dependency"},
      {2, 2, 4294967296u, "a max op above 32 bits"},
      {3, 1, 6, "an op count above the max op"},
      {4, 2, 2, "a dependency value that is not there"},
      {4, 1, 33, "33 dependencies"},
      {4, 0, UINT64_MAX, "the largest number of dependencies"},
      {5, 0, 1, "a change that depends on itself"},
      {5, 1, 3, "a dependency on no change"},
  };
  Columns c = columns_of(-1, 0);
  for (size_t i = 0; i < sizeof harm / sizeof *harm; i++) {
    uint64_t *at = &c.numbers[harm[i].column][harm[i].at], was = *at;
    *at = harm[i].value;
    refused(&g, &c, CG_COLUMNS_DISAGREE, harm[i].what);
    *at = was;
  }
  hash_of(1, c.ids + 64);
  refused(&g, &c, CG_COLUMNS_DISAGREE, "a hash twice");
  hash_of(3, c.ids + 64);
  hash_of(1, c.heads);
  refused(&g, &c, CG_COLUMNS_DISAGREE, "a stated head that is none");
  hash_of(2, c.heads);
  refused(&g, &c, CG_COLUMNS_DISAGREE, "a head that is not stated");
  Graph small = graph_of(2, 1, 3, 0xEE), narrow = graph_of(3, 1, 3, 0xEE);
  refused(&small, &c, CG_COLUMNS_DISAGREE, "18 before 9");
  hash_of(3, c.heads);
  refused(&small, &c, CG_NO_NODE_ROOM, "no room for a change, before 10");
  refused(&narrow, &c, CG_NO_EDGE_ROOM, "no room for an edge");
  Graph exact = graph_of(3, 2, 2, 0xEE);
  expect(cg_load(GRAPH(&exact), COLUMNS(&c)) == CG_DONE, "exactly enough room");
}

/* Tables one short and one long: 1 before all else, from load and from forgetting. */
static void lengths(void) {
  Columns c = columns_of(0, -1);
  size_t right[5] = {128, 24, 16384, 12, 3};
  for (int t = 0; t < 5; t++) {
    for (int more = t == 2 ? 1 : -1; more <= 1; more += 2) {
      size_t n[5];
      memcpy(n, right, sizeof n);
      n[t] += (size_t)more;
      size_t bytes[5] = {n[0], 4 * n[1], sizeof(cg_edge) * n[2], 4 * n[3], 4 * n[4]};
      void *at[5];
      uint8_t *before[5];
      for (int i = 0; i < 5; i++) {
        at[i] = guarded(bytes[i], 0);
        before[i] = malloc(bytes[i]);
        memcpy(before[i], at[i], bytes[i]);
      }
      expect(cg_load(at[0], n[0], at[1], n[1], at[2], n[2], at[3], n[3], at[4], n[4], COLUMNS(&c)) == CG_NOT_VALID, "load into a length that disagrees");
      expect(cg_forget(at[0], n[0], at[1], n[1], at[2], n[2], at[3], n[3], at[4], n[4]) == CG_NOT_VALID, "forget with a length that disagrees");
      for (int i = 0; i < 5; i++) {
        expect(memcmp(before[i], at[i], bytes[i]) == 0, "a length that disagrees leaves every byte");
        free(before[i]);
        unguard(at[i], bytes[i]);
      }
    }
  }
}

/* ---- forgetting */

static void forgetting(void) {
  Graph g = graph_of(40, 40, 3, 0);
  expect(open_graph(&g, 2) == CG_DONE, "open");
  for (uint32_t k = 0; k < 32; k++) {
    expect(add(&g, k + 1, 0, k + 1, k + 1, 1, &k, k > 0) == CG_DONE, "add");
  }
  expect(g.clocks[3 * 15] == 16 && g.clocks[3 * 31] == 32, "two clocks are cached");
  memset(g.clocks + 3 * 32, 0xEE, 4 * 3 * 8);
  size_t size;
  uint8_t *before = graph_copy(&g, &size), *other = graph_copy(&g, &size);
  g.nodes[5] = 1;
  expect(cg_forget(GRAPH(&g)) == CG_NOT_VALID, "a graph that is not valid");
  g.nodes[5] = 0;
  g.clocks[3 * 15] = 15;
  expect(cg_forget(GRAPH(&g)) == CG_NOT_VALID, "a cached clock that is not right");
  g.clocks[3 * 15] = 16;
  expect(same(&g, before), "a graph that is not valid leaves every byte");
  expect(cg_forget(GRAPH(&g)) == CG_DONE, "forget");
  for (int i = 0; i < 3 * 32; i++) {
    expect(g.clocks[i] == 0, "no clock is cached");
  }
  g.clocks[3 * 15] = 16, g.clocks[3 * 31] = 32;
  expect(same(&g, other), "of the tables the rows in use alone change");
}

/* ---- clocks on slices */

static void clocks(void) {
  uint32_t *c = guarded(16, 0), *d = guarded(12, 0);
  uint64_t *told = guarded(16, 0);
  c[0] = 5, c[1] = 0, c[2] = 7, c[3] = 9;
  d[0] = 3, d[1] = 0, d[2] = 1;
  told[0] = UNTOLD, told[1] = UNTOLD;
  expect(cg_clock_get(c, 4, 5, 0, told, 2) == CG_NOT_VALID && told[0] == UNTOLD, "a count above the entries");
  expect(cg_clock_get(c, 4, 3, 2, told, 2) == CG_DONE && told[0] == 7 && told[1] == UNTOLD, "an entry");
  expect(cg_clock_get(c, 4, 3, 3, told, 1) == CG_DONE && told[0] == 0, "a place not below the count");
  expect(cg_clock_get(c, 4, 3, 2, told + 2, 0) == CG_DONE, "an entry, with no place");
  told[0] = UNTOLD;
  expect(cg_clock_op_covers(c, 4, 5, 9, 1, told, 1) == CG_NOT_VALID && told[0] == UNTOLD, "1 before 5");
  expect(cg_clock_op_covers(c, 4, 3, 3, 1, told, 1) == CG_NO_ACTOR && told[0] == UNTOLD, "an actor not below the count");
  expect(cg_clock_op_covers(c, 4, 3, 2, 7, told, 2) == CG_DONE && told[0] == 1 && told[1] == UNTOLD, "covered");
  expect(cg_clock_op_covers(c, 4, 3, 2, 8, told, 1) == CG_DONE && told[0] == 0, "not covered");
  expect(cg_clock_op_covers(c, 4, 3, 2, UINT64_MAX, told, 1) == CG_DONE && told[0] == 0, "the largest counter");
  expect(cg_clock_op_covers(c, 4, 3, 2, 8, told + 2, 0) == CG_DONE, "covered or not, with no place");

  uint32_t was[4];
  memcpy(was, c, 16);
  expect(cg_clock_rewrite_with_new_actor(c, 4, 5, 9) == CG_NOT_VALID, "1 before 12");
  expect(cg_clock_rewrite_with_new_actor(c, 4, 3, 4) == CG_NO_ACTOR_ROOM, "a place above the count");
  expect(cg_clock_rewrite_with_new_actor(c, 4, 4, 0) == CG_NO_ACTOR_ROOM, "no room for one more");
  expect(cg_clock_remove_actor(c, 4, 5, 9) == CG_NOT_VALID, "1 before 5 for a removal");
  expect(cg_clock_remove_actor(c, 4, 3, 3) == CG_NO_ACTOR, "a place not below the count to remove");
  expect(memcmp(was, c, 16) == 0, "a refusal leaves every entry");
  expect(cg_clock_rewrite_with_new_actor(c, 4, 3, 1) == CG_DONE && c[0] == 5 && c[1] == 0 && c[2] == 0 && c[3] == 7, "a new actor at place 1");
  expect(cg_clock_remove_actor(c, 4, 4, 0) == CG_DONE && c[0] == 0 && c[1] == 0 && c[2] == 7 && c[3] == 0, "the actor at place 0 goes");
  memcpy(c, was, 16);

  /* before is d, after is c */
  struct {
    uint32_t kind;
    size_t n, m, actor;
    uint64_t counter;
    uint32_t after, before; /* numbers */
    uint64_t visible, older;
  } cases[] = {
      {CG_RANGE_CURRENT, 3, 4, 9, 99, CG_DONE, CG_DONE, 1, 0},
      {CG_RANGE_CURRENT_AT, 3, 4, 2, 7, CG_DONE, CG_DONE, 1, 0},
      {CG_RANGE_CURRENT_AT, 3, 4, 2, 8, CG_DONE, CG_DONE, 0, 0},
      {CG_RANGE_CURRENT_AT, 3, 4, 4, 8, CG_NO_ACTOR, CG_DONE, UNTOLD, 0},
      {CG_RANGE_DIFF, 3, 4, 0, 3, CG_DONE, CG_DONE, 1, 1},
      {CG_RANGE_DIFF, 3, 4, 0, 4, CG_DONE, CG_DONE, 1, 0},
      {CG_RANGE_DIFF, 3, 4, 3, 4, CG_DONE, CG_NO_ACTOR, 1, UNTOLD},
      {CG_RANGE_DIFF, 4, 4, 0, 4, CG_NOT_VALID, CG_NOT_VALID, UNTOLD, UNTOLD},
      {CG_RANGE_CURRENT, 3, 5, 0, 4, CG_NOT_VALID, CG_NOT_VALID, UNTOLD, UNTOLD},
      {3, 3, 4, 0, 3, CG_DONE, CG_DONE, 1, 1},
      {UINT32_MAX, 3, 4, 0, 4, CG_DONE, CG_DONE, 1, 0},
  };
  for (size_t i = 0; i < sizeof cases / sizeof *cases; i++) {
    told[0] = UNTOLD, told[1] = UNTOLD;
    expect(cg_clock_visible_after(cases[i].kind, d, 3, cases[i].n, c, 4, cases[i].m, cases[i].actor, cases[i].counter, told, 1) == cases[i].after && told[0] == cases[i].visible, "visible after");
    expect(cg_clock_visible_before(cases[i].kind, d, 3, cases[i].n, c, 4, cases[i].m, cases[i].actor, cases[i].counter, told + 1, 1) == cases[i].before && told[1] == cases[i].older, "visible before");
  }
  expect(memcmp(was, c, 16) == 0, "questions leave every entry");
}

/* A slice of 64 entries may be lent; one of 65 is not valid, whatever its count, and nothing changes. */
static void clock_limits(void) {
  uint32_t *most = guarded(4 * 64, 0), *many = guarded(4 * 65, 0), was[65];
  uint64_t *told = guarded(8, 0);
  for (uint32_t i = 0; i < 64; i++) {
    most[i] = i + 1, many[i] = i + 1;
  }
  many[64] = 65;
  memcpy(was, many, sizeof was);
  for (size_t count = 0; count <= 66; count++) {
    uint32_t r = count <= 64 ? CG_DONE : CG_NOT_VALID;
    told[0] = UNTOLD;
    uint64_t entry = r != CG_DONE ? UNTOLD : count > 0;
    expect(cg_clock_get(most, 64, count, 0, told, 1) == r && told[0] == entry, "an entry of 64");
    told[0] = UNTOLD;
    expect(cg_clock_get(many, 65, count, 0, told, 1) == CG_NOT_VALID, "an entry of 65");
    expect(cg_clock_op_covers(many, 65, count, 0, 0, told, 1) == CG_NOT_VALID, "covers of 65");
    expect(cg_clock_rewrite_with_new_actor(many, 65, count, 0) == CG_NOT_VALID, "a new actor of 65");
    expect(cg_clock_remove_actor(many, 65, count, 0) == CG_NOT_VALID, "an actor less of 65");
    for (uint32_t kind = CG_RANGE_CURRENT; kind <= CG_RANGE_DIFF; kind++) {
      expect(cg_clock_visible_after(kind, many, 65, count, most, 64, 64, 0, 0, told, 1) == CG_NOT_VALID, "visible after, 65 before");
      expect(cg_clock_visible_after(kind, most, 64, 64, many, 65, count, 0, 0, told, 1) == CG_NOT_VALID, "visible after, 65 after");
      expect(cg_clock_visible_before(kind, many, 65, count, most, 64, 64, 0, 0, told, 1) == CG_NOT_VALID, "visible before, 65 before");
      expect(cg_clock_visible_before(kind, most, 64, 64, many, 65, count, 0, 0, told, 1) == CG_NOT_VALID, "visible before, 65 after");
    }
    expect(told[0] == UNTOLD && memcmp(was, many, sizeof was) == 0 && memcmp(was, most, 4 * 64) == 0, "65 entries leave every entry and the place");
  }
  expect(cg_clock_op_covers(most, 64, 64, 63, 64, told, 1) == CG_DONE && told[0] == 1, "covers of 64");
  for (uint32_t kind = CG_RANGE_CURRENT; kind <= CG_RANGE_DIFF; kind++) {
    expect(cg_clock_visible_after(kind, most, 64, 64, most, 64, 64, 63, 64, told, 1) == CG_DONE && told[0] == 1, "visible after of 64");
    expect(cg_clock_visible_before(kind, most, 64, 64, most, 64, 64, 63, 64, told, 1) == CG_DONE && told[0] == (kind == CG_RANGE_DIFF), "visible before of 64");
  }
  expect(cg_clock_rewrite_with_new_actor(most, 64, 64, 0) == CG_NO_ACTOR_ROOM && memcmp(was, most, 4 * 64) == 0, "a clock of 64 is full");
  expect(cg_clock_remove_actor(most, 64, 64, 0) == CG_DONE && most[0] == 2 && most[62] == 64 && most[63] == 0, "an actor less of 64");
  expect(cg_clock_rewrite_with_new_actor(most, 64, 63, 0) == CG_DONE && most[0] == 0 && most[1] == 2 && most[63] == 64, "a new actor of 64");
  unguard(most, 4 * 64), unguard(many, 4 * 65), unguard(told, 8);
}

int main(void) {
  loading();
  columns_refused();
  lengths();
  forgetting();
  clocks();
  clock_limits();
  return summed_up("loading, forgetting and clocks on slices");
}
