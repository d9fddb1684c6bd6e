/* Tests the graph's and the clock's functions from C: each number that they can give, tables of the exact length, one short and one long, and tables damaged
 * in each field that validity names. Every answer but 0 must leave every byte. Tables end at a page that may not be touched. */
#include "graph.h"

#include "check.h"

static void unchanged(const Graph *g, const uint8_t *before, size_t size, const char *what) {
  size_t now;
  uint8_t *after = graph_copy(g, &now);
  expect(now == size && memcmp(before, after, size) == 0, what);
  free(after);
}

/* The worked example: H1, then H2 and H3 on it. */
static Graph worked(void) {
  Graph g = graph_of(4, 4, 3, 0xEE);
  uint32_t one[1] = {1};
  expect(open_graph(&g, 2) == CG_DONE, "open");
  expect(add(&g, 1, 0, 1, 3, 3, one, 0) == CG_DONE, "add H1");
  expect(add(&g, 2, 1, 1, 5, 2, one, 1) == CG_DONE, "add H2");
  expect(add(&g, 3, 0, 2, 5, 2, one, 1) == CG_DONE, "add H3");
  return g;
}

static void refusals(void) {
  Graph g = worked();
  size_t size;
  uint8_t *before = graph_copy(&g, &size);
  uint32_t many[40], ones[2] = {1, 9}, three[3] = {1, 1, 1};
  uint8_t hash[33] = {0};
  for (int i = 0; i < 40; i++) {
    many[i] = 1;
  }
  hash_of(5, hash);
  expect(add_bytes(&g, hash, 31, 0, 3, 6, 1, hash, 0) == CG_MALFORMED, "a hash of 31 bytes");
  expect(add_bytes(&g, hash, 32, 0, 3, 6, 1, hash, 33) == CG_MALFORMED, "a list of 33 bytes");
  expect(add(&g, 2, 1, 9, 9, 9, ones, 2) == CG_ALREADY_KNOWN, "a known hash");
  expect(add(&g, 5, 9, 9, 9, 9, ones, 2) == CG_UNKNOWN_DEPENDENCY, "an unknown dependency");
  expect(add(&g, 5, 0, 3, 6, 1, (uint32_t[]){5}, 1) == CG_UNKNOWN_DEPENDENCY, "a change that names itself");
  expect(add(&g, 5, 2, 1, 6, 1, ones, 1) == CG_NO_ACTOR, "an actor not below the count");
  expect(add(&g, 5, UINT64_MAX, 1, 6, 1, ones, 1) == CG_NO_ACTOR, "the largest actor");
  expect(add(&g, 5, 0, 2, 6, 1, ones, 1) == CG_WRONG_SEQUENCE, "a sequence again");
  expect(add(&g, 5, 0, UINT64_MAX, 6, 1, ones, 1) == CG_WRONG_SEQUENCE, "the largest sequence");
  expect(add(&g, 5, 0, 3, 4294967296u + 0ull, 1, ones, 1) == CG_WRONG_OPS, "a max op above 32 bits");
  expect(add(&g, 5, 0, 3, 6, 7, ones, 1) == CG_WRONG_OPS, "an op count above the max op");
  expect(add(&g, 5, 0, 3, 6, 1, many, CG_DEPENDENCIES + 1) == CG_MANY_DEPENDENCIES, "33 dependencies");
  expect(add(&g, 5, 0, 3, 6, 1, many, CG_DEPENDENCIES) == CG_NO_EDGE_ROOM, "32 dependencies, and no room for them");
  expect(add(&g, 5, 0, 3, 6, 1, three, 3) == CG_NO_EDGE_ROOM, "more edges than room");
  unchanged(&g, before, size, "a refused change leaves every byte");
  free(before);

  expect(add(&g, 5, 0, 3, 4294967295u, 1, ones, 1) == CG_DONE, "the largest max op");
  before = graph_copy(&g, &size);
  expect(add(&g, 6, 0, 4, 6, 1, ones, 1) == CG_NO_NODE_ROOM, "no room for a fifth change");
  unchanged(&g, before, size, "no room leaves every byte");
  free(before);
}

/* The place for the unknown dependency: its position with 4, and with every other number it stays. */
static void unknown(void) {
  Graph g = worked();
  uint8_t hash[32], dependencies[3 * 32];
  hash_of(5, hash);
  hash_of(1, dependencies);
  hash_of(2, dependencies + 32);
  hash_of(9, dependencies + 64);
#define ADD(n, place, places) \
  cg_add(g.hashes, 32 * g.changes, g.nodes, 6 * g.changes, g.edges, g.edge_room, g.clocks, g.changes *g.actors, g.counts, 3, hash, 32, 0, 3, 6, 1, dependencies, n, place, places)
  uint64_t *place = guarded(16, 0xDD);
  expect(ADD(96, place, 2) == CG_UNKNOWN_DEPENDENCY && place[0] == 2 && place[1] == 0xDDDDDDDDDDDDDDDDu, "the third dependency is unknown");
  hash_of(8, dependencies);
  expect(ADD(96, place + 1, 1) == CG_UNKNOWN_DEPENDENCY && place[1] == 0, "the first one of two unknown ones");
  expect(ADD(96, place + 2, 0) == CG_UNKNOWN_DEPENDENCY, "no place");
  hash_of(1, dependencies);
  place[0] = 77;
  expect(ADD(65, place, 1) == CG_MALFORMED && place[0] == 77, "another refusal leaves the place");
  expect(ADD(64, place, 1) == CG_DONE && place[0] == 77, "an added change leaves the place");
  unguard(place, 16);
}

static void actors(void) {
  Graph g = worked();
  size_t size;
  uint8_t *before = graph_copy(&g, &size);
#define ACTOR(f, place) f(g.hashes, 32 * g.changes, g.nodes, 6 * g.changes, g.edges, g.edge_room, g.clocks, g.changes *g.actors, g.counts, 3, place)
  expect(ACTOR(cg_insert_actor, 3) == CG_NO_ACTOR_ROOM, "a place above the count");
  expect(ACTOR(cg_remove_actor, 2) == CG_NO_ACTOR, "no such actor to remove");
  expect(ACTOR(cg_remove_actor, 0) == CG_ACTOR_HAS_CHANGES, "an actor with changes");
  unchanged(&g, before, size, "a refused actor leaves every byte");
  expect(ACTOR(cg_insert_actor, 1) == CG_DONE, "an actor at place 1");
  expect(g.counts[2] == 3 && g.nodes[6] == 2 && g.nodes[0] == 0 && g.nodes[12] == 0, "actor 1 is actor 2 now");
  expect(ACTOR(cg_insert_actor, 0) == CG_NO_ACTOR_ROOM, "no room for a fourth actor");
  expect(ACTOR(cg_remove_actor, 1) == CG_DONE, "the new actor goes again");
  unchanged(&g, before, size, "in and out again leaves every byte");
  free(before);
}

/* One field damaged at a time: each is answered with 1 and leaves every byte. */
static void damaged(void) {
  Graph g = worked();
  Harm harm[HARMS];
  harms_of(&g, harm);
  for (size_t i = 0; i < HARMS; i++) {
    uint32_t old = *harm[i].at;
    *harm[i].at = harm[i].value;
    size_t size;
    uint8_t *before = graph_copy(&g, &size);
    expect(add(&g, 9, 0, 3, 9, 1, (uint32_t[]){1}, 1) == CG_NOT_VALID, harm[i].what);
    unchanged(&g, before, size, harm[i].what);
    free(before);
    *harm[i].at = old;
  }
  /* The clock of H1 is 1 for actor 0: a row that holds it is a right cached clock. */
  g.clocks[0] = 1;
  expect(add(&g, 9, 0, 3, 9, 1, (uint32_t[]){1}, 1) == CG_DONE, "a right cached clock is valid");
}

static void lengths(void) {
  Graph g = worked();
  uint8_t hash[32];
  hash_of(9, hash);
  size_t right[5] = {32 * g.changes, 6 * g.changes, g.edge_room, g.changes * g.actors, 3};
  for (int table = 0; table < 5; table++) {
    if (table == 2) {
      continue; /* the edges' length is the edge room itself: any length agrees */
    }
    for (int step = -1; step <= 1; step += 2) {
      size_t n[5];
      memcpy(n, right, sizeof n);
      n[table] = (size_t)((long)n[table] + step);
      uint8_t *hashes = guarded(n[0], 0);
      uint32_t *nodes = guarded(4 * n[1], 0), *clocks = guarded(4 * n[3], 0), *counts = guarded(4 * n[4], 0);
      memcpy(hashes, g.hashes, n[0] < right[0] ? n[0] : right[0]);
      memcpy(nodes, g.nodes, 4 * (n[1] < right[1] ? n[1] : right[1]));
      memcpy(counts, g.counts, 4 * (n[4] < right[4] ? n[4] : right[4]));
      expect(cg_add(hashes, n[0], nodes, n[1], g.edges, n[2], clocks, n[3], counts, n[4], hash, 32, 0, 3, 9, 1, hash, 0, no_place, 0) == CG_NOT_VALID, "a length that disagrees");
      expect(cg_open(hashes, n[0], nodes, n[1], g.edges, n[2], clocks, n[3], counts, n[4], 1) == CG_NOT_VALID, "opened with a length that disagrees");
      unguard(hashes, n[0]);
      unguard(nodes, 4 * n[1]);
      unguard(clocks, 4 * n[3]);
      unguard(counts, 4 * n[4]);
    }
  }
  expect(open_graph(&g, 4) == CG_NO_ACTOR_ROOM, "opened for more actors than room");
  Graph none = graph_of(0, 0, 0, 0);
  expect(open_graph(&none, 0) == CG_DONE, "room 0 is legal");
  expect(add(&none, 1, 0, 1, 1, 1, NULL, 0) == CG_NO_ACTOR, "room 0 has no actor");
}

/* Tables of the room that the header names are valid, and not with one more of anything; and the last change that they have room for. */
static void rooms(void) {
  const char *what[4] = {"tables of the hub's room", "room for a change more", "room for an edge more", "room for an actor more"};
  for (size_t one = 0; one < 4; one++) {
    Graph g = graph_of(CG_HUB_CHANGES + (one == 1), CG_HUB_EDGES + (one == 2), CG_HUB_ACTORS + (one == 3), 0);
    expect(open_graph(&g, CG_HUB_ACTORS) == (one == 0 ? CG_DONE : CG_NOT_VALID), what[one]);
  }
  Graph g = graph_of(CG_HUB_CHANGES, CG_HUB_EDGES, CG_HUB_ACTORS, 0);
  uint32_t last = CG_HUB_CHANGES - 1;
  line_of(&g, last);
  expect(add(&g, last + 1, last % 64, last / 64 + 1, 1, 1, &last, 1) == CG_DONE, "the 4,096th change");
  expect(add(&g, last + 2, 0, 65, 1, 1, &last, 1) == CG_NO_NODE_ROOM, "the 4,097th change");
  expect(CG_HUB_BYTES == 1970196, "the hub's tables have the bytes of docs/MEMORY.md");
}

/* A line of 17 changes: node 15 gets a cached clock when added, and no other does. */
static void caching(void) {
  Graph g = graph_of(20, 40, 2, 0);
  expect(open_graph(&g, 2) == CG_DONE, "open for a line");
  for (uint32_t k = 0; k < 17; k++) {
    uint32_t last = k;
    expect(add(&g, k + 1, k % 2, k / 2 + 1, k + 1, 1, &last, k > 0 ? 1 : 0) == CG_DONE, "a line of changes");
  }
  for (uint32_t k = 0; k < 17; k++) {
    int cached = g.clocks[2 * k] != 0 || g.clocks[2 * k + 1] != 0;
    expect(cached == (k == 15), "node 15 alone is cached");
  }
  expect(g.clocks[30] == 8 && g.clocks[31] == 8, "its clock is 8 and 8");
}

static void clocks(void) {
  cg_clock a = {{1, 5, 0}, 3}, b = {{3, 4, 2}, 3}, bad = {{0}, 65}, two = {{1, 1}, 2};
  uint64_t told = 7;
  expect(cg_clock_include(&a, 2, 0, &told, 1) == CG_DONE && told == 1 && a.entries[2] == 0, "0 over nothing answers yes and is nothing");
  expect(cg_clock_include(&a, 1, 5, &told, 1) == CG_DONE && told == 0, "an equal sequence does not rise");
  told = 7;
  expect(cg_clock_include(&a, 3, 5, &told, 1) == CG_NO_ACTOR && told == 7, "a place not below the count");
  expect(cg_clock_include(&bad, 0, 5, &told, 1) == CG_NOT_VALID && told == 7, "a count above 64");
  expect(cg_clock_covers(&a, &b, &told, 1) == CG_DONE && told == 0, "neither covers the other");
  expect(cg_clock_merge(&a, &b) == CG_DONE && a.entries[0] == 3 && a.entries[1] == 5 && a.entries[2] == 2, "joined entry by entry");
  expect(cg_clock_covers(&a, &b, &told, 1) == CG_DONE && told == 1, "the join covers");
  told = 7;
  expect(cg_clock_covers(&a, &two, &told, 1) == CG_NOT_VALID && told == 7, "different lengths");
  expect(cg_clock_merge(&two, &a) == CG_DONE && two.entries[1] == 5 && two.count == 2, "places that both have");
  expect(cg_clock_isolate(&a, 1) == CG_DONE && a.entries[1] == 4294967295u && a.entries[0] == 3, "isolated");
  expect(cg_clock_isolate(&a, 3) == CG_NO_ACTOR, "isolated nowhere");
}

int main(void) {
  refusals();
  unknown();
  actors();
  damaged();
  lengths();
  rooms();
  caching();
  clocks();
  return summed_up("graph and clocks");
}
