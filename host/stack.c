/* Measures the stack of every function of include/changegraph.h, and whether CG_STACK_BYTES is enough for each. Prints a line a function, and what memory a hub has beside its
 * tables; docs/MEMORY.md has both, and host/test.sh holds the two against each other.
 *
 * A function is called in a thread with a painted stack: the lowest byte that changed tells how much it took, with the part that the C library has of a thread's stack. Then in a
 * thread of exactly CG_STACK_BYTES, and in one of 128 KiB, each with a page below that may not be touched: the first must not crash, the second must where more was measured.
 * Each call has a process of its own, so that a crash ends no other, and each finds the tables as they were filled.
 *
 * The tables are the hub's. Functions of a graph are called on three, and the largest figure counts:
 *   a line of 4,095 changes without a cached clock    adding the next one caches it through the most levels, and questions walk the whole line
 *   the same line with every clock cached             the check of the tables walks from each change
 *   4,095 changes without dependencies                all are heads
 * The queue is full: a line of 255 changes, the last first, and one that waits for more; so that all but one are released or dropped, and that one moves to the front.
 * The load has 4,096 changes: those whose clock is cached as they come depend on nothing, and the others go past them, so that the last one's goes through many levels too.
 * The session is a list of 256 changes that go past those with a cached clock, and a line of each other kind. */
#define _GNU_SOURCE
#include "changegraph_hub.h"
#include "check.h"

#include <pthread.h>
#include <signal.h>
#include <string.h>
#include <sys/mman.h>
#include <sys/resource.h>
#include <sys/wait.h>
#include <unistd.h>

enum {
  PAINTED = 1 << 20,
  SMALL = 128 * 1024,
  IDLE = 32 * 1024,    /* CG_STACK_BYTES is not so much above what is measured */
  LINE = 4095,         /* changes of the line */
  ACTORS = 63,         /* in use, so that there is room for one more; the last has no changes, so that it can be removed */
  MAKERS = ACTORS - 1, /* who make the changes, in turn */
  ADD_LEVELS = 125,    /* of caching, in cg_add and in cg_load */
  LOAD_LEVELS = 124
};

/* ---- the tables */

static cg_hub hub;
static cg_graph graph;
static cg_queue queue, batch;
static cg_waiting room_for_one, one; /* a queue with one place left, and a batch of one */
static cg_queue nearly_full, single;
static enum { UNCACHED, CACHED, HEADS, GRAPHS } kind;
static const char *const kind_words[] = {"a line without cached clocks", "a line with cached clocks", "changes without dependencies"};

/* The hash of a number: its bytes first, so that two differ early. */
static const uint8_t *hash_of(uint32_t n, uint8_t *out) {
  memset(out, 7, CG_HASH);
  memcpy(out, &n, sizeof n);
  return out;
}

/* Change k has the hash of k + 1, and depends on the one before, or on nothing. */
static void fill_graph(void) {
  memset(hub.clocks, 0, sizeof hub.clocks);
  uint32_t seen[CG_HUB_ACTORS] = {0};
  for (uint32_t k = 0; k < LINE; k++) {
    int first = k == 0 || kind == HEADS;
    uint32_t node[CG_NODE] = {k % MAKERS, k / MAKERS + 1, k + 1, 1, first ? 0 : k, kind == HEADS || k + 1 == LINE};
    hash_of(k + 1, hub.hashes + CG_HASH * k);
    memcpy(hub.nodes + CG_NODE * k, node, sizeof node);
    if (!first) {
      hub.edges[k - 1] = (cg_edge){k - 1, 0};
    }
    seen[node[0]] = node[1];
    if (kind == CACHED) {
      memcpy(hub.clocks + CG_HUB_ACTORS * k, seen, sizeof seen);
    }
  }
  hub.counts[0] = LINE;
  hub.counts[1] = kind == HEADS ? 0 : LINE - 1;
  hub.counts[2] = ACTORS;
}

/* Pushes the change of a number, of the key 1 and on the one before. */
static void push(const cg_queue *to, uint32_t n, uint64_t sequence) {
  uint8_t hash[CG_HASH], before[CG_HASH];
  cg_change change = {hash_of(n, hash), sequence, n, 1, cg_list_of(hash_of(n - 1, before), 1)};
  expect(cg_hub_batch_push(to, 1, &change) == CG_DONE, "a change is pushed");
}

/* Number LINE is the last of the graph, so the next one is ready, and those after it; 9,001 is not. */
static void fill_queues(void) {
  for (uint32_t n = CG_WAITING - 1; n > 0; n--) {
    push(&queue, LINE + n, n + 1);
    push(&nearly_full, LINE + n, n + 1);
  }
  push(&queue, 9001, 1);
  push(&single, 8001, 1);
}

static uint64_t actors[4096], sequences[4096], max_ops[4096], op_counts[4096], dep_counts[4096], dep_values[2 * 4096];
static uint8_t ids[CG_HASH * 4096];
static cg_columns columns;

/* Whether adding changes one after the other caches the clock of this one. */
static int due(uint32_t k) { return k % 16 == 15; }

static void fill_columns(void) {
  size_t values = 0;
  for (uint32_t k = 0; k < 4096; k++) {
    hash_of(k + 1, ids + CG_HASH * k);
    actors[k] = k % MAKERS, sequences[k] = k / MAKERS + 1, max_ops[k] = k + 1, op_counts[k] = 1;
    if (k > 0 && (!due(k) || k == LINE)) {
      dep_values[values++] = k - 1, dep_counts[k]++;
      if (due(k - 1)) {
        dep_values[values++] = k - 2, dep_counts[k]++;
      }
    }
  }
  columns = (cg_columns){ids, sizeof ids, actors, 4096, sequences, 4096, max_ops, 4096, op_counts, 4096, dep_counts, 4096, dep_values, values,
                         cg_list_of(ids + CG_HASH * LINE, 1), ACTORS};
}

static char list[1 << 16];
static size_t list_len;

/* Change k depends on the last one before it that has no cached clock. */
static void fill_list(void) {
  list_len += (size_t)sprintf(list, "change list\t1\nactors\t16\n");
  for (int k = 0; k < 256; k++) {
    list_len += (size_t)sprintf(list + list_len, "add\t%064x\t%d\t%d\t%d\t1\t", k, k % 16, k / 16 + 1, k + 1);
    list_len += (size_t)(k == 0 ? sprintf(list + list_len, "-\n") : sprintf(list + list_len, "%064x\n", k % 16 == 0 ? k - 2 : k - 1));
  }
  list_len += (size_t)sprintf(list + list_len, "heads\nclock\t%064x\nmissing\t%064x\nowner\t3\t4\nbad\n", 255, 200);
}

/* ---- what is called */

static uint8_t last[CG_HASH], next[CG_HASH], out[CG_HASH * CG_HUB_CHANGES];
static uint32_t entries[CG_HUB_CHANGES];
static uint64_t told;
static cg_clock clock_full = {{1, 2, 3}, CG_HUB_ACTORS}, clock_other = {{3, 2, 1}, CG_HUB_ACTORS}, clock_room = {{1}, CG_HUB_ACTORS - 1};
static cg_list tip, half, missing;
static cg_change added, pushed;

/* Each function, the number that it answers here, and what it is lent. */
#define FUNCTIONS(OF) \
  OF(open, CG_DONE, (&graph, ACTORS)) \
  OF(add, CG_DONE, (&graph, LINE % MAKERS, &added, &told)) \
  OF(insert_actor, CG_DONE, (&graph, 0)) \
  OF(remove_actor, CG_DONE, (&graph, ACTORS - 1)) \
  OF(clock_of, CG_DONE, (&graph, tip, &clock_full)) \
  OF(missing, CG_DONE, (&graph, half, hub.batch.deps, sizeof hub.batch.deps, &missing)) \
  OF(owner, CG_DONE, (&graph, 0, 1, out)) \
  OF(heads, CG_DONE, (&graph, hub.batch.deps, sizeof hub.batch.deps, &told)) \
  OF(head_indexes, CG_DONE, (&graph, entries, CG_LEN(entries), &told)) \
  OF(index_to_hash, CG_DONE, (&graph, LINE - 1, out)) \
  OF(get_hash_for_actor_seq, CG_DONE, (&graph, 0, 2, out)) \
  OF(hash_to_index, CG_DONE, (&graph, last, &told)) \
  OF(has_change, CG_DONE, (&graph, last, &told)) \
  OF(seq_for_actor, CG_DONE, (&graph, 0, &told)) \
  OF(max_op_for_actor, CG_DONE, (&graph, 0, &told)) \
  OF(max_op, CG_DONE, (&graph, &told)) \
  OF(len, CG_DONE, (&graph, &told)) \
  OF(num_actors, CG_DONE, (&graph, &told)) \
  OF(actor_ids, CG_DONE, (&graph, 0, entries, CG_LEN(entries), &told)) \
  OF(clock_at, CG_DONE, (&graph, tip, &clock_full)) \
  OF(deps_for_hash, CG_DONE, (&graph, last, out, sizeof out, &told)) \
  OF(remove_ancestors, CG_DONE, (&graph, cg_list_of(hub.hashes, LINE), half, out, sizeof out, &told)) \
  OF(heads_are_current, CG_DONE, (&graph, tip, &told)) \
  OF(chained, CG_DONE, (&graph, &told)) \
  OF(load, CG_DONE, (&graph, &columns)) \
  OF(forget, CG_DONE, (&graph)) \
  OF(queue_open, CG_DONE, (&queue)) \
  OF(batch_push, CG_DONE, (&nearly_full, 1, &pushed)) \
  OF(hand_over, CG_DONE, (&nearly_full, &single)) \
  OF(queue_is_empty, CG_DONE, (&queue, &told)) \
  OF(queue_has_hash, CG_DONE, (&queue, next, &told)) \
  OF(queue_has_actor_seq, CG_DONE, (&queue, 1, 2, &told)) \
  OF(queue_iter, CG_DONE, (&queue, &batch, &told)) \
  OF(remove_actor_branch_from, CG_DONE, (&queue, 1, 2)) \
  OF(release, CG_DONE, (&graph, &queue, &batch, &told)) \
  OF(clock_include, CG_DONE, (&clock_full, 63, 9, &told)) \
  OF(clock_merge, CG_DONE, (&clock_full, &clock_other)) \
  OF(clock_covers, CG_DONE, (&clock_full, &clock_full, &told)) \
  OF(clock_isolate, CG_DONE, (&clock_full, 63)) \
  OF(clock_get, CG_DONE, (&clock_full, 63, &told)) \
  OF(clock_op_covers, CG_DONE, (&clock_full, 63, 9, &told)) \
  OF(clock_rewrite_with_new_actor, CG_DONE, (&clock_room, 0)) \
  OF(clock_remove_actor, CG_DONE, (&clock_full, 0)) \
  OF(clock_visible_after, CG_DONE, (CG_RANGE_DIFF, &clock_full, &clock_other, 63, 9, &told)) \
  OF(clock_visible_before, CG_DONE, (CG_RANGE_DIFF, &clock_full, &clock_other, 63, 9, &told)) \
  OF(session, CG_DONE, ((const uint8_t *)list, list_len, out, sizeof out, &told))

#define RUN(function, number, lent) \
  static uint32_t run_##function(void) { return cg_hub_##function lent; }
FUNCTIONS(RUN)

typedef struct Function {
  const char *name;
  uint32_t (*run)(void);
  uint32_t number;
} Function;

#define ROW(function, number, lent) {"cg_" #function, run_##function, number},
static const Function functions[] = {FUNCTIONS(ROW)};
enum { COUNT = CG_LEN(functions) };

/* How many clocks are cached; where `not_due`, of those alone that adding would not have cached by itself. */
static int cached(int not_due) {
  int count = 0;
  for (uint32_t k = 0; k < hub.counts[0]; k++) {
    count += hub.clocks[CG_HUB_ACTORS * k + hub.nodes[CG_NODE * k]] != 0 && !(not_due && due(k));
  }
  return count;
}

/* Whether a function went as deep as it is meant to, where its number does not say so. */
static int went_deep(const Function *f) {
  static const char end[] = "bad\t263\n";
  if (f->run == run_add) {
    return kind != UNCACHED || cached(0) == ADD_LEVELS;
  }
  if (f->run == run_load) {
    return cached(1) + 1 == LOAD_LEVELS;
  }
  if (f->run == run_missing) { /* its answer went into the empty batch, which stays one */
    return missing.bytes > 0 && cg_hub_queue_is_empty(&batch, &told) == CG_DONE && told == 1;
  }
  if (f->run == run_release) {
    return told == CG_WAITING - 1;
  }
  if (f->run == run_remove_actor_branch_from) {
    return hub.queue.count[0] == 1;
  }
  return f->run != run_session || (told > sizeof end && memcmp(out + told - strlen(end), end, strlen(end)) == 0);
}

/* ---- the calls */

/* What a call's process tells. */
typedef struct Said {
  uint32_t number;
  int deep;
  size_t bytes; /* of stack */
} Said;

static Said *said;
static const Function *called;

static void *call(void *unused) {
  said->number = called->run();
  return unused;
}

static void must(int right, const char *what) {
  if (!right) {
    perror(what);
    _exit(2);
  }
}

/* Calls in a thread of so much stack, with a page below it that may not be touched. */
static void call_in(size_t size) {
  size_t page = (size_t)sysconf(_SC_PAGESIZE);
  uint8_t *guard = mmap(NULL, page + size, PROT_READ | PROT_WRITE, MAP_PRIVATE | MAP_ANONYMOUS, -1, 0);
  must(guard != MAP_FAILED && mprotect(guard, page, PROT_NONE) == 0, "memory");
  uint8_t *stack = guard + page;
  if (size == PAINTED) {
    memset(stack, 0xA5, size);
  }
  pthread_attr_t attributes;
  pthread_t thread;
  must(pthread_attr_init(&attributes) == 0 && pthread_attr_setstack(&attributes, stack, size) == 0, "stack");
  must(pthread_create(&thread, &attributes, call, NULL) == 0 && pthread_join(thread, NULL) == 0, "thread");
  size_t low = 0;
  while (low < size && stack[low] == 0xA5) {
    low++;
  }
  said->bytes = size - low;
  said->deep = went_deep(called);
}

/* The same in a process of its own. Whether it came to its end; a crash is none, and anything else ends the whole. */
static int ends(const Function *f, size_t size) {
  called = f;
  memset(said, 0, sizeof *said);
  fflush(stdout);
  pid_t child = fork();
  must(child >= 0, "process");
  if (child == 0) {
    struct rlimit none = {0, 0};
    setrlimit(RLIMIT_CORE, &none);
    call_in(size);
    _exit(0);
  }
  int status = 0;
  must(waitpid(child, &status, 0) == child, "process");
  if (WIFSIGNALED(status) && (WTERMSIG(status) == SIGSEGV || WTERMSIG(status) == SIGBUS)) {
    return 0;
  }
  must(WIFEXITED(status) && WEXITSTATUS(status) == 0, f->name);
  return 1;
}

static size_t most[COUNT];

static void expect_of(int right, const Function *f, const char *what) {
  char words[200];
  snprintf(words, sizeof words, "%s %s (%s)", f->name, what, kind_words[kind]);
  expect(right, words);
}

static void measure(int i) {
  const Function *f = &functions[i];
  if (!ends(f, PAINTED)) {
    expect_of(0, f, "takes less than the painted stack");
    return;
  }
  expect_of(said->number == f->number, f, "answers its number");
  expect_of(said->deep, f, "goes as deep as it is meant to");
  most[i] = said->bytes > most[i] ? said->bytes : most[i];
  expect_of(ends(f, CG_STACK_BYTES) && said->number == f->number, f, "runs in a thread of CG_STACK_BYTES");
}

static void measure_all(void) {
  size_t largest = 0;
  for (kind = UNCACHED; kind < GRAPHS; kind++) {
    fill_graph();
    for (int i = 0; i < COUNT; i++) {
      measure(i);
      largest = most[i] > largest ? most[i] : largest;
    }
  }
  kind = UNCACHED;
  fill_graph();
  for (int i = 0; i < COUNT; i++) {
    int runs = ends(&functions[i], SMALL);
    expect_of(runs == (most[i] <= SMALL), &functions[i], "crashes in a thread of 128 KiB where it takes more, and else runs");
    printf("%s: %zu bytes of stack, %s in 128 KiB\n", functions[i].name, most[i], runs ? "runs" : "crashes");
  }
  expect(largest < CG_STACK_BYTES, "the largest is below CG_STACK_BYTES");
  expect(largest + IDLE >= CG_STACK_BYTES, "the largest is at most 32 KiB below CG_STACK_BYTES");
}

/* ---- memory, in the words and in the order of docs/MEMORY.md */

enum {
  ALL_HASHES = CG_HASH * CG_HUB_CHANGES,
  HEAD_NUMBERS = 4 * CG_HUB_CHANGES,
  ACTOR_NUMBERS = 4 * CG_HUB_ACTORS,
  RECORDS = CG_WAITING * CG_RECORD,
  /* what a hub has beside its tables, where its empty batch serves for the rest; with a buffer for a missing list or heads; with a place of its own for each */
  BESIDE = sizeof(cg_keys) + 2 * sizeof(cg_clock) + CG_DEPS + ACTOR_NUMBERS + HEAD_NUMBERS + CG_HASH + sizeof(uint64_t),
  WITH_MISSING = sizeof(cg_hub) + BESIDE + ALL_HASHES,
  WITH_EACH = WITH_MISSING + ALL_HASHES + RECORDS,
  TWO_MIB = 2 * 1024 * 1024
};

_Static_assert(sizeof hub.batch.deps >= ALL_HASHES, "the dependencies of the batch have room for every list of hashes that is answered");
_Static_assert((TWO_MIB - sizeof(cg_hub) - BESIDE) / CG_HASH == 3381, "so many hashes fit what is left");
_Static_assert(sizeof hub.hashes + sizeof hub.nodes + sizeof hub.edges + sizeof hub.clocks + 2 * RECORDS + 4 * (CG_COUNTS + 2) == CG_HUB_BYTES, "the tables are all");

static const struct {
  const char *words;
  size_t bytes;
} sizes[] = {
    {"hashes, 32 a change", sizeof hub.hashes},
    {"nodes, 6 numbers of 4 bytes a change", sizeof hub.nodes},
    {"edges, 2 numbers of 4 bytes each", sizeof hub.edges},
    {"clocks, 64 numbers of 4 bytes a change", sizeof hub.clocks},
    {"queue and batch, each 32 + 40 + 1,024 bytes a record", 2 * RECORDS},
    {"counts", sizeof hub.counts + sizeof hub.queue.count + sizeof hub.batch.count},
    {"together, `CG_HUB_BYTES`", CG_HUB_BYTES},
    {"all in one `cg_hub`, aligned", sizeof(cg_hub)},
    {"left of 2 MiB", TWO_MIB - sizeof(cg_hub)},
    {"`CG_STACK_BYTES`", CG_STACK_BYTES},
    {"missing list, 32 bytes a change", ALL_HASHES},
    {"heads, 32 bytes each", ALL_HASHES},
    {"released records, or copies of the waiting ones, 1,096 bytes each", RECORDS},
    {"numbers of the heads, 4 bytes each", HEAD_NUMBERS},
    {"dependencies of a change, 32 bytes each", CG_DEPS},
    {"keys of the actors, a `cg_keys`", sizeof(cg_keys)},
    {"clock, a `cg_clock`", sizeof(cg_clock)},
    {"numbers of the actors, 4 bytes each", ACTOR_NUMBERS},
    {"hash", CG_HASH},
    {"place for what is told", sizeof(uint64_t)},
    {"the last seven, with two clocks", BESIDE},
    {"a `cg_hub` and these", sizeof(cg_hub) + BESIDE},
    {"which leaves of 2 MiB", TWO_MIB - sizeof(cg_hub) - BESIDE},
    {"and a buffer for a missing list or heads", WITH_MISSING},
    {"which is above 2 MiB by", WITH_MISSING - TWO_MIB},
    {"and a place of its own for each", WITH_EACH},
    {"which is above 2 MiB by so many", WITH_EACH - TWO_MIB},
};

int main(void) {
  said = mmap(NULL, sizeof *said, PROT_READ | PROT_WRITE, MAP_SHARED | MAP_ANONYMOUS, -1, 0);
  must(said != MAP_FAILED, "memory");
  graph = cg_graph_of_hub(&hub), queue = cg_queue_of_hub(&hub), batch = cg_batch_of_hub(&hub);
  nearly_full = cg_queue_of(&room_for_one), single = cg_queue_of(&one);
  fill_queues();
  fill_columns();
  fill_list();
  hash_of(LINE, last), hash_of(LINE + 1, next);
  tip = cg_list_of(last, 1), half = cg_list_of(hub.hashes, LINE / 2);
  added = (cg_change){next, LINE / MAKERS + 1, LINE + 1, 1, tip};
  pushed = (cg_change){last, 1, 1, 1, cg_list_of(hub.hashes, CG_DEPENDENCIES)};
  measure_all();
  for (size_t i = 0; i < CG_LEN(sizes); i++) {
    printf("%s: %zu bytes\n", sizes[i].words, sizes[i].bytes);
  }
  return summed_up("stack");
}
