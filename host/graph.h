/* The tables of a graph for the tests, each ending at a guard page. */
#ifndef GRAPH_H
#define GRAPH_H

#include "guarded.h"

#include "changegraph.h"

typedef struct Graph {
  size_t changes, edge_room, actors;
  uint8_t *hashes;
  uint32_t *nodes;
  cg_edge *edges;
  uint32_t *clocks;
  uint32_t *counts;
} Graph;

static inline Graph graph_of(size_t changes, size_t edge_room, size_t actors, int fill) {
  Graph g = {changes, edge_room, actors, NULL, NULL, NULL, NULL, NULL};
  g.hashes = guarded(32 * changes, fill);
  g.nodes = guarded(6 * 4 * changes, fill);
  g.edges = guarded(sizeof(cg_edge) * edge_room, fill);
  g.clocks = guarded(4 * changes * actors, fill);
  g.counts = guarded(12, fill);
  return g;
}

/* All tables, as a function is lent them. */
#define GRAPH(g) (g)->hashes, 32 * (g)->changes, (g)->nodes, 6 * (g)->changes, (g)->edges, (g)->edge_room, (g)->clocks, (g)->changes *(g)->actors, (g)->counts, 3

/* A copy of all bytes of the tables, to be compared afterwards. */
static inline uint8_t *graph_copy(const Graph *g, size_t *size) {
  size_t parts[5] = {32 * g->changes, 24 * g->changes, sizeof(cg_edge) * g->edge_room, 4 * g->changes * g->actors, 12};
  const void *from[5] = {g->hashes, g->nodes, g->edges, g->clocks, g->counts};
  *size = parts[0] + parts[1] + parts[2] + parts[3] + parts[4];
  uint8_t *copy = malloc(*size);
  size_t at = 0;
  for (int i = 0; i < 5; i++) {
    memcpy(copy + at, from[i], parts[i]);
    at += parts[i];
  }
  return copy;
}

/* A field that validity names, with a value that is not valid in the worked example (H1, then H2 and H3 on it, in tables of 4, 4 and 3). */
typedef struct Harm {
  uint32_t *at;
  uint32_t value;
  const char *what;
} Harm;

enum { HARMS = 17 };

static inline void harms_of(Graph *g, Harm *harm) {
  Harm all[HARMS] = {
      {&g->counts[0], 5, "more changes than room"},
      {&g->counts[1], 5, "more edges than room"},
      {&g->counts[2], 4, "more actors than room"},
      {&g->counts[0], 2, "a change fewer, its edge too many"},
      {&g->nodes[0], 2, "an actor not below the count"},
      {&g->nodes[13], 3, "a sequence left out"},
      {&g->nodes[3], 4, "an op count above its max op"},
      {&g->nodes[10], 2, "a list that starts at another edge"},
      {&g->nodes[5], 1, "a head that is none"},
      {&g->nodes[11], 0, "a head that is not said to be one"},
      {&g->nodes[11], 2, "a head flag of 2"},
      {&g->edges[0].target, 1, "a change that depends on itself"},
      {&g->edges[1].target, 3, "a dependency on no change"},
      {&g->edges[0].next, 2, "a list that goes on into another"},
      {&g->clocks[4], 2, "a cached clock that is none"},
      {&g->clocks[2], 1, "an entry past the actors in use"},
      {(uint32_t *)(g->hashes + 32), 1, "a hash twice"},
  };
  memcpy(harm, all, sizeof all);
}

/* The hash of a number: its bytes first, so that two differ early, then the byte 7. */
static inline void hash_of(uint32_t n, uint8_t *out) {
  memset(out, 7, 32);
  memcpy(out, &n, 4);
}

static inline uint32_t open_graph(Graph *g, uint64_t actors) {
  return cg_open(g->hashes, 32 * g->changes, g->nodes, 6 * g->changes, g->edges, g->edge_room, g->clocks, g->changes * g->actors, g->counts, 3, actors);
}

/* No place for the unknown dependency: a pointer that is valid, and the length 0. */
static uint64_t no_place[1];

static inline uint32_t add_bytes(Graph *g, const uint8_t *hash, size_t hash_len, uint64_t actor, uint64_t sequence, uint64_t max_op, uint64_t op_count,
                                 const uint8_t *dependencies, size_t dependencies_len) {
  return cg_add(g->hashes, 32 * g->changes, g->nodes, 6 * g->changes, g->edges, g->edge_room, g->clocks, g->changes * g->actors, g->counts, 3, hash, hash_len,
                actor, sequence, max_op, op_count, dependencies, dependencies_len, no_place, 0);
}

/* Adds the change of a number on those of other numbers. */
static inline uint32_t add(Graph *g, uint32_t n, uint64_t actor, uint64_t sequence, uint64_t max_op, uint64_t op_count, const uint32_t *on, size_t on_len) {
  uint8_t hash[32], dependencies[64 * 32];
  hash_of(n, hash);
  for (size_t i = 0; i < on_len; i++) {
    hash_of(on[i], dependencies + 32 * i);
  }
  return add_bytes(g, hash, 32, actor, sequence, max_op, op_count, dependencies, 32 * on_len);
}

/* Fills the tables, which have room for 64 actors, with a line of n changes, each on the one before: those of the numbers 1 to n, the actors in turn. No clock is cached. */
static inline void line_of(Graph *g, uint32_t n) {
  for (uint32_t k = 0; k < n; k++) {
    hash_of(k + 1, g->hashes + 32 * k);
    uint32_t node[6] = {k % 64, k / 64 + 1, k + 1, 1, k > 0 ? k : 0, k + 1 == n};
    memcpy(g->nodes + 6 * k, node, sizeof node);
    if (k > 0) {
      g->edges[k - 1] = (cg_edge){k - 1, 0};
    }
  }
  g->counts[0] = n;
  g->counts[1] = n - 1;
  g->counts[2] = 64;
}

#endif
