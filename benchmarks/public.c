/* What a call costs: each public function that a hub uses all day, at 256 and at 4,096 changes of 40 devices, and how much of that is the check of what is lent. Each change is on its
 * device's last one and on another device's last one. The check's share is what the proved core of the function (crates/benchmark_cores), which requires valid tables, does not take; `cg_len`
 * answers from one number, so all of it is the check. Prints a table; times are the fastest of several, in microseconds. */
#define _POSIX_C_SOURCE 199309L
#include <stdio.h>
#include <string.h>
#include <time.h>

#include "changegraph_hub.h"

enum { DEVICES = 40, MOST = CG_HUB_CHANGES, ROUNDS = 40 };

static cg_hub hub, kept;
static cg_graph graph;
static cg_queue queue, batch;
static uint8_t ids[CG_HASH * MOST], out[CG_HASH * MOST], heads[CG_HASH * MOST], next[CG_HASH];
static uint64_t by[MOST], seqs[MOST], tops[MOST], ops[MOST], dep_counts[MOST], dep_values[2 * MOST];
static size_t size, behind, heads_bytes;
static uint64_t told;
static cg_change change;

/* The cores, on plain tables of edges. */
#define CORE_TABLES uint8_t *, size_t, uint32_t *, size_t, uint32_t *, size_t, uint32_t *, size_t, uint32_t *, size_t, uint32_t *, size_t
uint32_t bare_add(CORE_TABLES, const uint8_t *, size_t, uint64_t, uint64_t, uint64_t, uint64_t, const uint8_t *, size_t);
uint32_t bare_clock(CORE_TABLES, const uint8_t *, size_t, uint32_t *, size_t);
uint32_t bare_missing(CORE_TABLES, const uint8_t *, size_t, uint8_t *, size_t);
uint32_t bare_owner(CORE_TABLES, uint64_t, uint64_t, uint8_t *, size_t);
uint32_t bare_heads(CORE_TABLES, uint8_t *, size_t);

static uint32_t targets[CG_HUB_EDGES], nexts[CG_HUB_EDGES];
#define TABLES \
  hub.hashes, CG_LEN(hub.hashes), hub.nodes, CG_LEN(hub.nodes), targets, CG_LEN(targets), nexts, CG_LEN(nexts), hub.clocks, CG_LEN(hub.clocks), hub.counts, CG_COUNTS

static void hash_of(uint32_t n, uint8_t *hash) {
  memset(hash, 7, CG_HASH);
  memcpy(hash, &n, sizeof n);
}

/* Loads a graph of so many changes, but one: the last is added. */
static int load(void) {
  size_t values = 0, last[DEVICES];
  uint64_t count[DEVICES] = {0};
  uint8_t head[MOST];
  memset(head, 1, sizeof head);
  for (size_t k = 0; k < size; k++) {
    size_t device = k * 7 % DEVICES, other = k * 11 % DEVICES;
    hash_of((uint32_t)k + 1, ids + CG_HASH * k);
    by[k] = device, seqs[k] = ++count[device], tops[k] = k + 1, ops[k] = 1, dep_counts[k] = 0;
    size_t on[2] = {device, other};
    for (int i = 0; i < 2; i++) {
      if (count[on[i]] > (on[i] == device) && (i == 0 || other != device)) {
        dep_values[values++] = last[on[i]], dep_counts[k]++;
        head[last[on[i]]] = 0;
      }
    }
    last[device] = k;
  }
  heads_bytes = 0;
  for (size_t k = 0; k < size; k++) {
    if (head[k]) {
      memcpy(heads + heads_bytes, ids + CG_HASH * k, CG_HASH);
      heads_bytes += CG_HASH;
    }
  }
  cg_columns columns = {ids,  CG_HASH * size, by,         size, seqs,       size,   tops,                 size,   ops,
                        size, dep_counts,     size,       dep_values, values, {heads, heads_bytes}, DEVICES};
  hash_of((uint32_t)size + 1, next);
  change = (cg_change){next, count[0] + 1, size + 1, 1, {heads, CG_HASH}};
  return cg_hub_load(&graph, &columns) == CG_DONE;
}

static uint32_t run_len(void) { return cg_hub_len(&graph, &told); }
static uint32_t run_has(void) { return cg_hub_has_change(&graph, heads, &told); }
static uint32_t run_heads(void) { return cg_hub_heads(&graph, out, sizeof out, &told); }
static uint32_t run_owner(void) { return cg_hub_owner(&graph, 7, 2, out); }
static uint32_t run_clock(void) {
  cg_clock clock;
  return cg_hub_clock_of(&graph, (cg_list){heads, heads_bytes}, &clock);
}
static uint32_t run_missing(void) {
  cg_list missing;
  return cg_hub_missing(&graph, cg_list_of(ids + CG_HASH * (size - behind), 1), out, sizeof out, &missing);
}
static uint32_t run_ancestors(void) { return cg_hub_remove_ancestors(&graph, cg_list_of(ids, 1), (cg_list){heads, heads_bytes}, out, sizeof out, &told); }
static uint32_t run_add(void) { return cg_hub_add(&graph, 0, &change, &told); }
static uint32_t run_release(void) { return cg_hub_release(&graph, &queue, &batch, &told); }
static uint32_t run_push(void) { return cg_hub_batch_push(&batch, 1, &change); }

/* The 256th: the tables are filled once, and the count is put back. */
static cg_waiting full;
static uint32_t run_last_push(void) {
  cg_queue queue_of_many = cg_queue_of(&full);
  full.count[0] = CG_WAITING - 1;
  return cg_hub_batch_push(&queue_of_many, 1, &change);
}

static void fill(void) {
  for (size_t i = 0; i < CG_WAITING; i++) {
    hash_of((uint32_t)(100000 + i), full.hashes + CG_HASH * i);
    full.numbers[CG_NUMBERS * i] = 2, full.numbers[CG_NUMBERS * i + 1] = i + 1;
  }
}

static uint32_t core_heads(void) { return bare_heads(TABLES, out, sizeof out); }
static uint32_t core_owner(void) { return bare_owner(TABLES, 7, 2, out, CG_HASH); }
static uint32_t core_clock(void) {
  uint32_t entries[CG_HUB_ACTORS];
  return bare_clock(TABLES, heads, heads_bytes, entries, CG_HUB_ACTORS);
}
static uint32_t core_missing(void) { return bare_missing(TABLES, ids + CG_HASH * (size - behind), CG_HASH, out, sizeof out); }
static uint32_t core_add(void) { return bare_add(TABLES, next, CG_HASH, 0, change.sequence, change.max_op, 1, heads, CG_HASH); }

static double now(void) {
  struct timespec t;
  clock_gettime(CLOCK_MONOTONIC, &t);
  return 1e6 * (double)t.tv_sec + 1e-3 * (double)t.tv_nsec;
}

/* The fastest of several calls, each on the tables as they were. */
static double fastest(const char *name, uint32_t (*run)(void)) {
  double best = 1e30;
  for (int i = 0; i < ROUNDS; i++) {
    memcpy(&hub, &kept, sizeof hub);
    double began = now();
    uint32_t number = run();
    double took = now() - began;
    if (number != CG_DONE) {
      printf("%s: %s\n", name, cg_text(number));
      return -1;
    }
    best = took < best ? took : best;
  }
  return best;
}

static const struct {
  const char *name;
  uint32_t (*run)(void);
  uint32_t (*core)(void); /* NULL where none is measured */
} calls[] = {{"nothing but the check (`cg_len`)", run_len, NULL},
             {"is a change known (`cg_has_change`)", run_has, NULL},
             {"the owner of an op (`cg_owner`)", run_owner, core_owner},
             {"the heads (`cg_heads`)", run_heads, core_heads},
             {"the clock of the heads (`cg_clock_of`)", run_clock, core_clock},
             {"a tablet asks, 40 changes behind (`cg_missing`)", run_missing, core_missing},
             {"has a tablet seen a change (`cg_remove_ancestors`)", run_ancestors, NULL},
             {"a change added (`cg_add`)", run_add, core_add},
             {"nothing is ready (`cg_release`)", run_release, NULL},
             {"a change into an empty batch (`cg_batch_push`)", run_push, NULL},
             {"a change into a batch of 255 (`cg_batch_push`)", run_last_push, NULL}};
enum { CALLS = CG_LEN(calls) };

/* A call's time, and its core's where there is one, else -1. */
static double public_took[2][CALLS], core_took[2][CALLS];

static int measure(int s) {
  if (!load()) {
    printf("not loaded\n");
    return 0;
  }
  memcpy(&kept, &hub, sizeof hub);
  for (size_t k = 0; k < CG_HUB_EDGES; k++) {
    targets[k] = hub.edges[k].target, nexts[k] = hub.edges[k].next;
  }
  for (int i = 0; i < CALLS; i++) {
    public_took[s][i] = fastest(calls[i].name, calls[i].run);
    core_took[s][i] = calls[i].core == NULL ? -1 : fastest(calls[i].name, calls[i].core);
    if (public_took[s][i] < 0 || (calls[i].core != NULL && core_took[s][i] < 0)) {
      return 0;
    }
  }
  return 1;
}

int main(void) {
  static const size_t sizes[2] = {CG_BENCH_CHANGES, MOST};
  graph = cg_graph_of_hub(&hub), queue = cg_queue_of_hub(&hub), batch = cg_batch_of_hub(&hub);
  behind = DEVICES;
  fill();
  for (int s = 0; s < 2; s++) {
    size = sizes[s] - 1;
    if (!measure(s)) {
      return 1;
    }
  }
  printf("| call | at 256 changes, µs | the check's share | at 4,096 changes, µs | the check's share |\n|---|---|---|---|---|\n");
  for (int i = 0; i < CALLS; i++) {
    printf("| %s |", calls[i].name);
    for (int s = 0; s < 2; s++) {
      printf(" %.*f |", public_took[s][i] < 10 ? 1 : 0, public_took[s][i]);
      core_took[s][i] < 0 ? printf(" - |") : printf(" %.0f %% |", 100 - 100 * core_took[s][i] / public_took[s][i]);
    }
    printf("\n");
  }
  return 0;
}
