/* Tests changegraph_hub.h. Two worlds of the same bytes: in one each operation is done by the short call, in the other by the function itself with every table named; after each the
 * number must be the same and so must every byte of both worlds. Operations and arguments are chosen at random, from so few that refusals come often; each function must have been called,
 * done and refused (unless an argument asks for fewer steps). Then what the header adds: keys, records, words; and null pointers with length 0, for every slice of every function.
 * Prints what failed; exit status 1 where anything did. */
#include <stdio.h>
#include <stdlib.h>
#include <string.h>

#include "check.h"

#include "changegraph_hub.h"

enum { CHANGES = 6, EDGES = 8, ACTORS = 4, WAITING = 4, HASHES = 10, STEPS = 200000, OUT = CG_HASH * CHANGES };

/* ---- two worlds */

typedef struct World {
  uint8_t hashes[CG_HASH * CHANGES];
  uint32_t nodes[CG_NODE * CHANGES];
  cg_edge edges[EDGES];
  uint32_t clocks[CHANGES * ACTORS];
  uint32_t counts[CG_COUNTS];
  struct {
    uint64_t numbers[CG_NUMBERS * WAITING];
    uint8_t hashes[CG_HASH * WAITING];
    uint8_t deps[CG_DEPS * WAITING];
    uint32_t count[1];
  } queue[3];
  uint8_t out[OUT];
  uint32_t entries[CG_HUB_ACTORS];
  uint64_t told;
  uint64_t missing_at, missing_bytes;
  cg_clock clock[2];
  uint8_t text[64];
} World;

static World ours, theirs;

static cg_graph graph = {ours.hashes, sizeof ours.hashes,           ours.nodes,  CG_LEN(ours.nodes),  ours.edges,
                         CG_LEN(ours.edges), ours.clocks, CG_LEN(ours.clocks), ours.counts, CG_LEN(ours.counts)};

#define WAITS(i) \
  {ours.queue[i].hashes, CG_HASH * WAITING, ours.queue[i].numbers, CG_NUMBERS * WAITING, ours.queue[i].deps, CG_DEPS * WAITING, ours.queue[i].count, 1}
static cg_queue waits[3] = {WAITS(0), WAITS(1), WAITS(2)};

/* The other world's tables, each named. */
#define T theirs.hashes, CG_HASH *CHANGES, theirs.nodes, CG_NODE *CHANGES, theirs.edges, EDGES, theirs.clocks, CHANGES *ACTORS, theirs.counts, 3
#define R(i) theirs.queue[i].hashes, CG_HASH *WAITING, theirs.queue[i].numbers, CG_NUMBERS *WAITING, theirs.queue[i].deps, CG_DEPS *WAITING
#define Q(i) R(i), theirs.queue[i].count, 1
#define C(i) theirs.clock[i].entries, 64, theirs.clock[i].count
#define TOLD &theirs.told, told

/* ---- chance: the same in every run */

static uint64_t seed = 1;

static uint64_t chance(uint64_t below) {
  seed = seed * 6364136223846793005u + 1442695040888963407u;
  return (seed >> 33) % below;
}

static uint8_t names[HASHES][CG_HASH];

static const uint8_t *some_hash(void) { return names[chance(HASHES)]; }

static uint8_t several[4 * CG_HASH];

/* Up to four hashes; one in sixteen has a length that is no multiple of 32. */
static cg_list some_list(void) {
  size_t n = chance(5);
  for (size_t i = 0; i < n; i++) {
    memcpy(several + CG_HASH * i, some_hash(), CG_HASH);
  }
  return n > 0 && chance(16) == 0 ? (cg_list){several, CG_HASH * n - 1} : cg_list_of(several, n);
}

/* ---- one step: what each function came to */

enum { FUNCTIONS = 46 };
static struct {
  const char *name;
  unsigned done, refused;
} came[FUNCTIONS];

static void note(const char *name, uint32_t number) {
  size_t i = 0;
  while (i < FUNCTIONS && came[i].name != NULL && strcmp(came[i].name, name) != 0) {
    i++;
  }
  expect(i < FUNCTIONS, "no more functions than the header has");
  came[i].name = name;
  came[i].done += number == CG_DONE;
  came[i].refused += number != CG_DONE;
}

/* Both worlds' numbers, and all of their bytes. */
#define SAME(name, short_call, long_call)              \
  do {                                                 \
    uint32_t by_short = (short_call);                  \
    uint32_t by_long = (long_call);                    \
    expect(by_short == by_long, name);                 \
    expect(memcmp(&ours, &theirs, sizeof ours) == 0, name); \
    note(name, by_long);                               \
  } while (0)

/* A long call whose answer is a clock: the count is what it tells. */
static uint32_t counted(uint32_t number, const uint64_t *told) {
  if (number == CG_DONE) {
    theirs.clock[0].count = (uint32_t)*told;
  }
  return number;
}

/* Where the missing list of one world stands, as a distance, since the worlds stand at two places. */
static uint32_t placed(World *w, uint32_t number, const uint8_t *at, size_t bytes) {
  if (number == CG_DONE) {
    w->missing_at = (uint64_t)(at - (const uint8_t *)w);
    w->missing_bytes = bytes;
  }
  return number;
}

static uint32_t missing_short(cg_list have, size_t room) {
  cg_list missing = {NULL, 0};
  uint32_t number = cg_hub_missing(&graph, have, ours.out, room, NULL);
  expect(cg_hub_missing(&graph, have, ours.out, room, &missing) == number, "the missing list, not told and told");
  return placed(&ours, number, missing.hashes, missing.bytes);
}

static uint32_t missing_long(cg_list have, size_t room) {
  uint64_t bytes = 0;
  uint32_t number = cg_missing(T, have.hashes, have.bytes, theirs.out, room, &bytes, 1);
  return placed(&theirs, number, cg_missing_shown(theirs.hashes, theirs.out, have.bytes), (size_t)bytes);
}

static void step_graph(uint64_t *place, size_t told) {
  uint64_t entered = 0;
  cg_list list = some_list();
  size_t room = chance(OUT + 1), entries = chance(6);
  uint64_t actor = chance(ACTORS + 2), counter = chance(12), which = chance(4), index = chance(CHANGES + 1);
  const uint8_t *hash = some_hash();
  switch (chance(22)) {
  case 0:
    SAME("clock_of", cg_hub_clock_of(&graph, list, &ours.clock[0]), counted(cg_clock_of(T, list.hashes, list.bytes, theirs.clock[0].entries, 64, &entered, 1), &entered));
    break;
  case 1:
    SAME("clock_at", cg_hub_clock_at(&graph, list, &ours.clock[0]), counted(cg_clock_at(T, list.hashes, list.bytes, theirs.clock[0].entries, 64, &entered, 1), &entered));
    break;
  case 2:
    SAME("missing", missing_short(list, room), missing_long(list, room));
    break;
  case 3:
    SAME("heads", cg_hub_heads(&graph, ours.out, room, place), cg_heads(T, theirs.out, room, TOLD));
    break;
  case 4:
    SAME("head_indexes", cg_hub_head_indexes(&graph, ours.entries, entries, place), cg_head_indexes(T, theirs.entries, entries, TOLD));
    break;
  case 5:
    SAME("heads_are_current", cg_hub_heads_are_current(&graph, list, place), cg_heads_are_current(T, list.hashes, list.bytes, TOLD));
    break;
  case 6:
    SAME("owner", cg_hub_owner(&graph, actor, counter, ours.out), cg_owner(T, actor, counter, theirs.out, 32, NULL, 0));
    break;
  case 7:
    SAME("index_to_hash", cg_hub_index_to_hash(&graph, index, ours.out), cg_index_to_hash(T, index, theirs.out, 32, NULL, 0));
    break;
  case 8:
    SAME("get_hash_for_actor_seq", cg_hub_get_hash_for_actor_seq(&graph, actor, which, ours.out), cg_get_hash_for_actor_seq(T, actor, which, theirs.out, 32, NULL, 0));
    break;
  case 9:
    SAME("hash_to_index", cg_hub_hash_to_index(&graph, hash, place), cg_hash_to_index(T, hash, 32, TOLD));
    break;
  case 10:
    SAME("has_change", cg_hub_has_change(&graph, hash, place), cg_has_change(T, hash, 32, TOLD));
    break;
  case 11:
    SAME("seq_for_actor", cg_hub_seq_for_actor(&graph, actor, place), cg_seq_for_actor(T, actor, TOLD));
    break;
  case 12:
    SAME("max_op_for_actor", cg_hub_max_op_for_actor(&graph, actor, place), cg_max_op_for_actor(T, actor, TOLD));
    break;
  case 13:
    SAME("max_op", cg_hub_max_op(&graph, place), cg_max_op(T, TOLD));
    break;
  case 14:
    SAME("len", cg_hub_len(&graph, place), cg_len(T, TOLD));
    break;
  case 15:
    SAME("num_actors", cg_hub_num_actors(&graph, place), cg_num_actors(T, TOLD));
    break;
  case 16:
    SAME("actor_ids", cg_hub_actor_ids(&graph, which, ours.entries, entries, place), cg_actor_ids(T, which, theirs.entries, entries, TOLD));
    break;
  case 17:
    SAME("deps_for_hash", cg_hub_deps_for_hash(&graph, hash, ours.out, room, place), cg_deps_for_hash(T, hash, 32, theirs.out, room, TOLD));
    break;
  case 18: {
    cg_list heads = cg_list_of(hash, 1);
    SAME("remove_ancestors", cg_hub_remove_ancestors(&graph, list, heads, ours.out, room, place),
         cg_remove_ancestors(T, list.hashes, list.bytes, hash, 32, theirs.out, room, TOLD));
    break;
  }
  case 19:
    SAME("chained", cg_hub_chained(&graph, place), cg_chained(T, TOLD));
    break;
  case 20:
    SAME("forget", cg_hub_forget(&graph), cg_forget(T));
    break;
  default:
    SAME("insert_actor", cg_hub_insert_actor(&graph, actor), cg_insert_actor(T, actor));
  }
}

/* Numbers from few, so that the actor's next sequence comes often. */
static void step_change(uint64_t *place, size_t told) {
  cg_change change = {some_hash(), 1 + chance(3), 1 + chance(9), chance(4), some_list()};
  uint64_t actor = chance(ACTORS);
  switch (chance(3)) {
  case 0:
  case 1:
    SAME("add", cg_hub_add(&graph, actor, &change, place),
         cg_add(T, change.hash, 32, actor, change.sequence, change.max_op, change.op_count, change.dependencies.hashes, change.dependencies.bytes, TOLD));
    break;
  default:
    SAME("batch_push", cg_hub_batch_push(&waits[1], actor, &change),
         cg_batch_push(Q(1), change.hash, 32, actor, change.sequence, change.max_op, change.op_count, change.dependencies.hashes, change.dependencies.bytes));
  }
}

static void step_queue(uint64_t *place, size_t told) {
  uint64_t key = chance(ACTORS), sequence = 1 + chance(3);
  const uint8_t *hash = some_hash();
  switch (chance(9)) {
  case 0: {
    cg_queue batch = waits[1];
    batch.hashes_len -= chance(8) == 0;
    SAME("queue_open", cg_hub_queue_open(&batch), cg_queue_open(theirs.queue[1].hashes, batch.hashes_len, theirs.queue[1].numbers, CG_NUMBERS * WAITING, theirs.queue[1].deps, CG_DEPS * WAITING, theirs.queue[1].count, 1));
    break;
  }
  case 1:
  case 2:
    SAME("hand_over", cg_hub_hand_over(&waits[0], &waits[1]), cg_hand_over(Q(0), Q(1)));
    break;
  case 3:
    SAME("queue_is_empty", cg_hub_queue_is_empty(&waits[0], place), cg_queue_is_empty(Q(0), TOLD));
    break;
  case 4:
    SAME("queue_has_hash", cg_hub_queue_has_hash(&waits[0], hash, place), cg_queue_has_hash(Q(0), hash, 32, TOLD));
    break;
  case 5:
    SAME("queue_has_actor_seq", cg_hub_queue_has_actor_seq(&waits[0], key, sequence, place), cg_queue_has_actor_seq(Q(0), key, sequence, TOLD));
    break;
  case 6:
    SAME("queue_iter", cg_hub_queue_iter(&waits[0], &waits[2], place), cg_queue_iter(Q(0), R(2), TOLD));
    break;
  case 7:
    SAME("remove_actor_branch_from", cg_hub_remove_actor_branch_from(&waits[0], key, sequence), cg_remove_actor_branch_from(Q(0), key, sequence));
    break;
  default:
    SAME("release", cg_hub_release(&graph, &waits[0], &waits[2], place), cg_release(T, Q(0), R(2), TOLD));
  }
}

static void step_clock(uint64_t *place, size_t told) {
  size_t at = chance(5);
  uint32_t sequence = (uint32_t)chance(4), kind = (uint32_t)chance(4);
  uint64_t counter = chance(6);
  cg_clock *a = &ours.clock[0], *b = &ours.clock[1], *c = &theirs.clock[0], *d = &theirs.clock[1];
  switch (chance(10)) {
  case 0:
    SAME("clock_include", cg_hub_clock_include(a, at, sequence, place), cg_clock_include(c, at, sequence, TOLD));
    break;
  case 1:
    SAME("clock_merge", cg_hub_clock_merge(b, a), cg_clock_merge(d, c));
    break;
  case 2:
    SAME("clock_covers", cg_hub_clock_covers(a, b, place), cg_clock_covers(c, d, TOLD));
    break;
  case 3:
    SAME("clock_isolate", cg_hub_clock_isolate(b, at), cg_clock_isolate(d, at));
    break;
  case 4:
    SAME("clock_get", cg_hub_clock_get(a, at, place), cg_clock_get(C(0), at, TOLD));
    break;
  case 5:
    SAME("clock_op_covers", cg_hub_clock_op_covers(a, at, counter, place), cg_clock_op_covers(C(0), at, counter, TOLD));
    break;
  case 6: {
    uint32_t number = cg_clock_rewrite_with_new_actor(C(1), at);
    d->count += number == CG_DONE;
    SAME("clock_rewrite_with_new_actor", cg_hub_clock_rewrite_with_new_actor(b, at), number);
    break;
  }
  case 7: {
    uint32_t number = cg_clock_remove_actor(C(1), at);
    d->count -= number == CG_DONE;
    SAME("clock_remove_actor", cg_hub_clock_remove_actor(b, at), number);
    break;
  }
  case 8:
    SAME("clock_visible_after", cg_hub_clock_visible_after(kind, a, b, at, counter, place), cg_clock_visible_after(kind, C(0), C(1), at, counter, TOLD));
    break;
  default:
    SAME("clock_visible_before", cg_hub_clock_visible_before(kind, a, b, at, counter, place), cg_clock_visible_before(kind, C(0), C(1), at, counter, TOLD));
  }
}

/* Opening, loading two changes (one in four times with a column too short), an actor taken away, a table damaged in both worlds and mended, and a session. */
static void step_seldom(uint64_t *place, size_t told) {
  static const uint64_t by[2] = {1, 0}, seqs[2] = {1, 1}, tops[2] = {6, 7}, ops[2] = {4, 2}, deps[2] = {0, 1}, on[2] = {0, 0};
  uint64_t actors = 1 + chance(ACTORS + 1), at = chance(ACTORS);
  size_t room = chance(sizeof ours.text + 1);
  size_t len[7] = {2, 2, 2, 2, 2, 1, CG_HASH}, one = chance(28);
  if (one < 7) {
    len[one] = 0;
  }
  cg_columns columns = {names[1], 64, by, len[0], seqs, len[1], tops, len[2], ops, len[3], deps, len[4], on, len[5], {names[2], len[6]}, actors};
  static const uint8_t list[] = "change list\t1\nactors\t2\nheads\nclock\t-\nx\n";
  switch (chance(5)) {
  case 0:
    SAME("open", cg_hub_open(&graph, actors), cg_open(T, actors));
    break;
  case 1:
    SAME("load", cg_hub_load(&graph, &columns),
         cg_load(T, names[1], 64, by, len[0], seqs, len[1], tops, len[2], ops, len[3], deps, len[4], on, len[5], names[2], len[6], actors));
    break;
  case 2:
    SAME("remove_actor", cg_hub_remove_actor(&graph, at), cg_remove_actor(T, at));
    break;
  case 3:
    for (int harmed = 1; harmed >= 0; harmed--) {
      ours.nodes[5] ^= 2;
      theirs.nodes[5] ^= 2;
      ours.queue[0].count[0] ^= 8;
      theirs.queue[0].count[0] ^= 8;
      ours.clock[0].count ^= 128;
      theirs.clock[0].count ^= 128;
      for (int i = 0; harmed && i < 40; i++) {
        step_graph(place, told);
        step_queue(place, told);
        step_clock(place, told);
      }
    }
    break;
  default:
    SAME("session", cg_hub_session(list, sizeof list - 1, ours.text, room, place), cg_session(list, sizeof list - 1, theirs.text, room, TOLD));
  }
}

static void steps(long count) {
  memset(&ours, 0xC3, sizeof ours);
  ours.counts[0] = ours.counts[1] = 0;
  ours.counts[2] = 2;
  ours.queue[0].count[0] = ours.queue[1].count[0] = 0;
  ours.clock[0].count = ours.clock[1].count = 2;
  memcpy(&theirs, &ours, sizeof ours);
  for (int i = 0; i < HASHES; i++) {
    memset(names[i], 'a' + i, CG_HASH);
  }
  for (long i = 0; i < count; i++) {
    size_t told = chance(4) != 0;
    uint64_t *place = told ? &ours.told : NULL;
    uint64_t kind = chance(400);
    kind < 2 ? step_seldom(place, told) : kind < 120 ? step_change(place, told) : kind < 220 ? step_queue(place, told) : kind < 300 ? step_clock(place, told) : step_graph(place, told);
  }
  for (int i = 0; count >= STEPS && i < FUNCTIONS; i++) {
    expect(came[i].name != NULL, "every function was called");
    expect(came[i].done > 0 && came[i].refused > 0, came[i].name);
  }
}

/* ---- what the header adds */

static cg_hub hub;
static cg_bench bench;

static void keys_and_numbers(void) {
  cg_graph g = cg_graph_of_hub(&hub);
  cg_keys keys = {{0}, 0};
  static const uint64_t put[][2] = {{0, 700}, {0, 500}, {1, 600}, {3, 800}}; /* place, key */
  expect(cg_place_of(&keys, 5) == 0, "the first place");
  uint64_t told = 0;
  expect(cg_hub_num_actors(&g, &told) == CG_DONE && told == 0, "a static hub is open, for no actor");
  for (size_t i = 0; i < CG_LEN(put); i++) {
    expect(cg_place_of(&keys, put[i][1]) == put[i][0], "the place in ascending order");
    expect(cg_put_key(&g, &keys, put[i][0], put[i][1]) == CG_DONE, "a key put in");
  }
  for (uint64_t a = 0; a < 4; a++) {
    expect(keys.key[a] == 500 + 100 * a && cg_actor_of(&keys, 500 + 100 * a) == a, "keys in the order of their actors");
  }
  expect(keys.count == 4 && cg_hub_num_actors(&g, &told) == CG_DONE && told == 4, "as many keys as actors");
  cg_keys was = keys;
  expect(cg_put_key(&g, &keys, 0, 600) == CG_ALREADY_KNOWN, "a key twice");
  expect(cg_put_key(&g, &keys, 5, 900) == CG_NO_ACTOR_ROOM, "a place above the count");
  expect(cg_take_key(&g, &keys, 4) == CG_NO_ACTOR, "taken where nobody is");
  cg_change change = {(const uint8_t *)"12345678901234567890123456789012", 1, 1, 1, {NULL, 0}};
  expect(cg_hub_add(&g, cg_actor_of(&keys, 555), &change, NULL) == CG_NO_ACTOR, "an unknown key is no actor");
  expect(cg_hub_add(&g, cg_actor_of(&keys, 700), &change, NULL) == CG_DONE && hub.nodes[0] == 2, "counted for the key's actor");
  expect(cg_take_key(&g, &keys, 2) == CG_ACTOR_HAS_CHANGES, "an actor with changes stays");
  expect(memcmp(&was, &keys, sizeof keys) == 0, "a refusal leaves the keys");
  expect(cg_take_key(&g, &keys, 0) == CG_DONE && keys.count == 3 && cg_actor_of(&keys, 700) == 1 && cg_actor_of(&keys, 500) == CG_NOBODY, "a key taken");
  expect(hub.nodes[0] == 1, "the change moved with its actor");
  expect(cg_put_key(&g, &keys, 0, 400) == CG_DONE && hub.nodes[0] == cg_actor_of(&keys, 700), "and again");
  for (keys.count = 3; keys.count <= 5; keys.count += 2) {
    expect(cg_put_key(&g, &keys, 0, 900) == CG_NOT_VALID && cg_take_key(&g, &keys, 0) == CG_NOT_VALID, "keys that are not the graph's");
  }
  hub.counts[0] = 9999;
  keys.count = 4;
  expect(cg_put_key(&g, &keys, 0, 900) == CG_NOT_VALID && cg_take_key(&g, &keys, 0) == CG_NOT_VALID && keys.count == 4, "tables that are not valid");
}

/* A change that waits by one call: what push and hand over of a batch make of it, refusals too. */
static void one_waits(void) {
  memset(&ours.queue[0], 0, sizeof ours.queue[0]);
  memset(&ours.queue[1], 0, sizeof ours.queue[1]);
  memcpy(&theirs, &ours, sizeof ours);
  unsigned seen[CG_COLUMNS_DISAGREE + 1] = {0};
  for (int i = 0; i < 2000; i++) {
    cg_change change = {some_hash(), 1 + chance(3), 1 + chance(9), chance(4), some_list()};
    static uint8_t many[CG_HASH * (CG_DEPENDENCIES + 1)];
    change.dependencies = chance(20) == 0 ? (cg_list){many, sizeof many} : change.dependencies;
    uint64_t key = chance(ACTORS);
    uint32_t number = cg_batch_push(Q(1), change.hash, 32, key, change.sequence, change.max_op, change.op_count, change.dependencies.hashes, change.dependencies.bytes);
    number = number == CG_DONE ? cg_hand_over(Q(0), Q(1)) : number;
    expect(cg_let_wait(&waits[0], key, &change) == number && memcmp(&ours.queue[0], &theirs.queue[0], sizeof ours.queue[0]) == 0, "one change waits as by a batch");
    expect(cg_queue_open(Q(1)) == CG_DONE, "the batch is opened again");
    seen[number]++;
    uint64_t from = 1 + chance(3);
    if (chance(4) == 0) {
      expect(cg_remove_actor_branch_from(Q(0), key, from) == CG_DONE && cg_hub_remove_actor_branch_from(&waits[0], key, from) == CG_DONE, "some are dropped");
    }
  }
  expect(seen[CG_DONE] > 0 && seen[CG_MALFORMED] > 0 && seen[CG_MANY_DEPENDENCIES] > 0 && seen[CG_ALREADY_WAITING] > 0 && seen[CG_NO_QUEUE_ROOM] > 0, "each number");
  ours.queue[0].count[0] = WAITING + 1;
  cg_change change = {names[0], 1, 1, 1, {NULL, 0}};
  expect(cg_let_wait(&waits[0], 1, &change) == CG_NOT_VALID, "a queue that is not valid");
}

/* All 64 keys, and no more. */
static void keys_to_the_last(void) {
  cg_graph g = cg_graph_of_hub(&hub);
  cg_keys keys = {{0}, 0};
  expect(cg_hub_open(&g, 0) == CG_DONE, "opened for no actor");
  for (uint64_t a = 0; a < CG_HUB_ACTORS; a++) {
    expect(cg_put_key(&g, &keys, a, 1000 + a) == CG_DONE, "64 keys");
  }
  expect(cg_put_key(&g, &keys, 64, 7) == CG_NO_ACTOR_ROOM && cg_actor_of(&keys, 1063) == 63, "no 65th");
  for (uint64_t a = 0; a < CG_HUB_ACTORS; a++) {
    expect(cg_take_key(&g, &keys, 0) == CG_DONE, "all taken");
  }
  expect(keys.count == 0, "no key left");
}

static void records(void) {
  cg_graph g = cg_graph_of_bench(&bench);
  cg_queue queue = cg_queue_of_bench(&bench), batch = cg_batch_of_bench(&bench);
  uint8_t on[3 * CG_HASH];
  memset(on, 'x', sizeof on);
  on[CG_HASH] = 'y';
  cg_change first = {names[1], 5, 6, 7, cg_list_of(on, 3)}, second = {names[2], 8, 9, 10, {NULL, 0}};
  uint64_t told = 0;
  expect(cg_hub_batch_push(&batch, 77, &first) == CG_DONE && cg_hub_batch_push(&batch, 88, &second) == CG_DONE && bench.batch.count[0] == 2, "two pushed");
  expect(cg_hub_hand_over(&queue, &batch) == CG_DONE && bench.queue.count[0] == 2 && bench.batch.count[0] == 0, "handed over");
  cg_change back = cg_change_at(&queue, 0);
  expect(cg_key_at(&queue, 0) == 77 && cg_key_at(&queue, 1) == 88, "their keys");
  expect(memcmp(back.hash, names[1], CG_HASH) == 0 && back.sequence == 5 && back.max_op == 6 && back.op_count == 7, "the change that was pushed");
  expect(back.dependencies.bytes == sizeof on && memcmp(back.dependencies.hashes, on, sizeof on) == 0, "and its dependencies");
  expect(cg_hub_open(&g, 1) == CG_DONE && cg_hub_release(&g, &queue, &batch, &told) == CG_DONE && told == 1, "one is ready, into the batch's tables");
  expect(bench.batch.count[0] == 0 && cg_key_at(&batch, 0) == 88 && memcmp(cg_change_at(&batch, 0).hash, names[2], CG_HASH) == 0, "and the batch is empty");
  expect(cg_queue_of_hub(&hub).hashes == hub.queue.hashes && cg_batch_of_hub(&hub).hashes == hub.batch.hashes, "a hub's queue and batch");
  expect(g.hashes_len == CG_HASH * CG_BENCH_CHANGES && g.clocks_len == CG_BENCH_CHANGES * CG_BENCH_ACTORS, "lengths of a bench");
}

static void words(void) {
  for (uint32_t a = CG_DONE; a <= CG_COLUMNS_DISAGREE + 1; a++) {
    expect(strlen(cg_text(a)) > 0 && strlen(cg_text(a)) <= 40, "a few words");
    for (uint32_t b = CG_DONE; b < a; b++) {
      expect(strcmp(cg_text(a), cg_text(b)) != 0, "two numbers have not the same words");
    }
  }
  expect(strcmp(cg_text(CG_COLUMNS_DISAGREE + 1), cg_text(4000000000u)) == 0, "numbers that are none");
}

/* ---- null pointers with length 0 */

#define NONE NULL, 0
#define N_TABLES NONE, NONE, NONE, NONE, counts, 3
#define N_RECORDS NONE, NONE, NONE
#define N_QUEUE N_RECORDS, count, 1

static void nothing_in_the_graph(void) {
  uint32_t counts[3] = {7, 7, 7};
  expect(cg_open(N_TABLES, 0) == CG_DONE && counts[2] == 0, "tables without room");
  expect(cg_open(NONE, NONE, NONE, NONE, NONE, 0) == CG_NOT_VALID, "no counts");
  expect(cg_add(N_TABLES, NONE, 0, 1, 1, 1, NONE, NONE) == CG_MALFORMED, "no hash");
  expect(cg_add(N_TABLES, names[0], 32, 0, 1, 1, 1, NONE, NONE) == CG_NO_ACTOR, "no dependencies");
  expect(cg_add(N_TABLES, names[0], 32, 0, 1, 1, 1, names[1], 32, NONE) == CG_UNKNOWN_DEPENDENCY, "nowhere to tell it");
  expect(cg_insert_actor(N_TABLES, 0) == CG_NO_ACTOR_ROOM && cg_remove_actor(N_TABLES, 0) == CG_NO_ACTOR && cg_forget(N_TABLES) == CG_DONE, "no actors");
  expect(cg_load(N_TABLES, NONE, NONE, NONE, NONE, NONE, NONE, NONE, NONE, 0) == CG_DONE, "empty columns");
  expect(cg_clock_of(N_TABLES, NONE, NONE, NONE) == CG_DONE && cg_clock_at(N_TABLES, NONE, NONE, NONE) == CG_DONE, "clocks of nothing");
  expect(cg_missing(N_TABLES, NONE, NONE, NONE) == CG_DONE && cg_missing(N_TABLES, names[0], 32, NONE, NONE) == CG_DONE, "nothing is missing");
  expect(cg_heads(N_TABLES, NONE, NONE) == CG_DONE && cg_head_indexes(N_TABLES, NONE, NONE) == CG_DONE && cg_heads_are_current(N_TABLES, NONE, NONE) == CG_DONE, "no heads");
  expect(cg_owner(N_TABLES, 0, 1, NONE, NONE) == CG_NO_OWNER && cg_index_to_hash(N_TABLES, 0, NONE, NONE) == CG_NOT_FOUND, "no owner, no hash");
  expect(cg_get_hash_for_actor_seq(N_TABLES, 0, 1, NONE, NONE) == CG_NOT_FOUND, "no hash for an actor");
  expect(cg_hash_to_index(N_TABLES, NONE, NONE) == CG_MALFORMED && cg_hash_to_index(N_TABLES, names[0], 32, NONE) == CG_NOT_FOUND, "no index");
  expect(cg_has_change(N_TABLES, NONE, NONE) == CG_MALFORMED && cg_has_change(N_TABLES, names[0], 32, NONE) == CG_DONE, "no change");
  expect(cg_seq_for_actor(N_TABLES, 0, NONE) == CG_DONE && cg_max_op_for_actor(N_TABLES, 0, NONE) == CG_DONE && cg_max_op(N_TABLES, NONE) == CG_DONE, "no sequence, no op");
  expect(cg_len(N_TABLES, NONE) == CG_DONE && cg_num_actors(N_TABLES, NONE) == CG_DONE && cg_actor_ids(N_TABLES, 2, NONE, NONE) == CG_DONE, "none to count");
  expect(cg_deps_for_hash(N_TABLES, NONE, NONE, NONE) == CG_MALFORMED && cg_deps_for_hash(N_TABLES, names[0], 32, NONE, NONE) == CG_DONE, "no dependencies of no change");
  expect(cg_remove_ancestors(N_TABLES, NONE, NONE, NONE, NONE) == CG_DONE && cg_chained(N_TABLES, NONE) == CG_DONE, "no ancestors, and chained");
}

static void nothing_waits(void) {
  uint32_t counts[3] = {0, 0, 0}, count[1] = {7}, other[1] = {0};
  expect(cg_queue_open(N_QUEUE) == CG_DONE && count[0] == 0, "a queue without room");
  expect(cg_queue_open(N_RECORDS, NONE) == CG_NOT_VALID, "no count");
  expect(cg_batch_push(N_QUEUE, NONE, 1, 1, 1, 1, NONE) == CG_MALFORMED && cg_batch_push(N_QUEUE, names[0], 32, 1, 1, 1, 1, NONE) == CG_NO_QUEUE_ROOM, "nothing to push to");
  expect(cg_hand_over(N_QUEUE, N_RECORDS, other, 1) == CG_DONE && cg_queue_is_empty(N_QUEUE, NONE) == CG_DONE, "nothing handed over");
  expect(cg_queue_has_hash(N_QUEUE, NONE, NONE) == CG_MALFORMED && cg_queue_has_hash(N_QUEUE, names[0], 32, NONE) == CG_DONE, "no hash waits");
  expect(cg_queue_has_actor_seq(N_QUEUE, 1, 1, NONE) == CG_DONE && cg_queue_iter(N_QUEUE, N_RECORDS, NONE) == CG_DONE, "no record");
  expect(cg_remove_actor_branch_from(N_QUEUE, 1, 1) == CG_DONE && cg_release(N_TABLES, N_QUEUE, N_RECORDS, NONE) == CG_DONE, "none dropped, none released");
  cg_clock a = {{1}, 1}, b = {{2}, 1};
  expect(cg_clock_include(&a, 0, 2, NONE) == CG_DONE && a.entries[0] == 2 && cg_clock_covers(&a, &b, NONE) == CG_DONE, "not told");
  expect(cg_clock_get(NONE, 0, 0, NONE) == CG_DONE && cg_clock_op_covers(NONE, 0, 0, 0, NONE) == CG_NO_ACTOR, "a clock without entries");
  expect(cg_clock_rewrite_with_new_actor(NONE, 0, 0) == CG_NO_ACTOR_ROOM && cg_clock_remove_actor(NONE, 0, 0) == CG_NO_ACTOR, "nor room for one");
  expect(cg_clock_visible_after(0, NONE, 0, NONE, 0, 0, 1, NONE) == CG_DONE && cg_clock_visible_before(2, NONE, 0, NONE, 0, 0, 1, NONE) == CG_NO_ACTOR, "a range of no clocks");
  expect(cg_session(NONE, NONE, NONE) == CG_SHORT_BUFFER && cg_session(NONE, ours.text, 6, NONE) == CG_DONE, "an empty list");
}

/* The counts too: no tables at all are not valid, whoever is asked. */
static void no_counts(void) {
  uint32_t count[1] = {0};
#define N NONE, NONE, NONE, NONE, NONE
#define W N_RECORDS, NONE
  const uint32_t numbers[] = {
      cg_open(N, 0), cg_add(N, names[0], 32, 0, 1, 1, 1, NONE, NONE), cg_insert_actor(N, 0), cg_remove_actor(N, 0), cg_forget(N),
      cg_load(N, NONE, NONE, NONE, NONE, NONE, NONE, NONE, NONE, 0), cg_clock_of(N, NONE, NONE, NONE), cg_clock_at(N, NONE, NONE, NONE), cg_missing(N, NONE, NONE, NONE),
      cg_heads(N, NONE, NONE), cg_head_indexes(N, NONE, NONE), cg_heads_are_current(N, NONE, NONE), cg_owner(N, 0, 1, NONE, NONE), cg_index_to_hash(N, 0, NONE, NONE),
      cg_get_hash_for_actor_seq(N, 0, 1, NONE, NONE), cg_hash_to_index(N, names[0], 32, NONE), cg_has_change(N, names[0], 32, NONE), cg_seq_for_actor(N, 0, NONE),
      cg_max_op_for_actor(N, 0, NONE), cg_max_op(N, NONE), cg_len(N, NONE), cg_num_actors(N, NONE), cg_actor_ids(N, 2, NONE, NONE), cg_deps_for_hash(N, names[0], 32, NONE, NONE),
      cg_remove_ancestors(N, NONE, NONE, NONE, NONE), cg_chained(N, NONE), cg_queue_open(W), cg_batch_push(W, names[0], 32, 1, 1, 1, 1, NONE), cg_hand_over(W, W),
      cg_hand_over(N_QUEUE, W), cg_queue_is_empty(W, NONE), cg_queue_has_hash(W, names[0], 32, NONE), cg_queue_has_actor_seq(W, 1, 1, NONE), cg_queue_iter(W, N_RECORDS, NONE),
      cg_remove_actor_branch_from(W, 1, 1), cg_release(N, W, N_RECORDS, NONE), cg_release(N, N_QUEUE, N_RECORDS, NONE)};
  for (size_t i = 0; i < CG_LEN(numbers); i++) {
    expect(numbers[i] == CG_NOT_VALID, "no counts");
  }
}

int main(int argc, char **argv) {
  steps(argc > 1 ? atol(argv[1]) : STEPS);
  keys_and_numbers();
  keys_to_the_last();
  one_waits();
  records();
  words();
  nothing_in_the_graph();
  nothing_waits();
  no_counts();
  return summed_up("the hub's header");
}
