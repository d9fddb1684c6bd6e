/* A hub in C: the tables as structs, and a short call for each function of changegraph.h, which says what each one does, what it answers, and what stack and threads it needs.
 * The call of cg_X is cg_hub_X. All are inline: there is nothing more to link. host/example.c is a hub in small.
 *
 *   static cg_hub hub;                                   all tables in place, below 2 MiB
 *   static cg_keys keys;                                 which device is which actor
 *   cg_graph graph = cg_graph_of_hub(&hub);              the graph's tables, as pointers and lengths
 *   cg_queue queue = cg_queue_of_hub(&hub);              changes that wait
 *   cg_queue batch = cg_batch_of_hub(&hub);              changes that come in
 *
 *   if (cg_hub_open(&graph, 0) != CG_DONE) ..            an empty graph without actors
 *   if (cg_put_key(&graph, &keys, cg_place_of(&keys, device), device) != CG_DONE) ..
 *
 * A graph or a queue of other room has its own tables: fill a cg_graph or a cg_queue with their pointers and lengths.
 *
 * The way of a change that comes in. A device keeps its change until the hub has told it that the change is added or waits, and the hub tells it once that is saved; what is refused or
 * was lost on the way it sends again.
 *   1. Ask whether the graph has the hash (cg_hub_has_change) or the queue (cg_hub_queue_has_hash): then it came before. Refuse what could never be added: a device without an
 *      actor (cg_actor_of gives CG_NOBODY), a sequence that it has had (cg_hub_seq_for_actor), ops of CG_WRONG_OPS, a change on itself; and one of whose device and sequence another
 *      one waits (cg_hub_queue_has_actor_seq). A hash stands for its change; that two changes come with one hash is not found out here.
 *   2. cg_hub_batch_push, one or many; then cg_hub_hand_over (for one change alone cg_let_wait is both). A refusal, CG_NO_QUEUE_ROOM or CG_ALREADY_WAITING, leaves the batch as
 *      it was: add what of it can be added, which may be what the queue waits for, tell the devices of the rest, and open the batch again.
 *   3. cg_hub_release into the tables of the batch, which is empty now.
 *   4. cg_hub_add each record (cg_change_at), for the actor of its key (cg_actor_of), in their order, and once more those before a record that went in. What is refused with
 *      CG_UNKNOWN_DEPENDENCY, with CG_WRONG_SEQUENCE since its device's one before it is still to come, or for want of room waits on (cg_let_wait).
 * A change that can never be added keeps its device and sequence taken while it waits; cg_hub_remove_actor_branch_from drops it, with all that follows it.
 *
 * Long answers may go into the tables of the empty batch too: its `deps` hold every list of hashes, until the next push or release. So a hub is below 2 MiB with its answers
 * (docs/MEMORY.md).
 *
 * Threads: `const` here is of the struct of pointers. The tables are written by cg_hub_open, add, insert_actor, remove_actor, forget and load, by cg_put_key and cg_take_key; queue and
 * batch by cg_hub_queue_open, batch_push, hand_over, remove_actor_branch_from and release, by cg_let_wait; the tables `to` by release and queue_iter. All other calls only read.
 *
 * A place for what is told is a pointer to one number here, and null where it is not wanted. It is written with CG_DONE alone, but for told_unknown of cg_hub_add and
 * told_bytes of cg_hub_session. A hash is a pointer to 32 bytes. cg_text has a number's words.
 */
#ifndef CG_CHANGEGRAPH_HUB_H
#define CG_CHANGEGRAPH_HUB_H

#include "changegraph.h"

/* A number in a few words. */
static inline const char *cg_text(uint32_t number) {
  switch (number) {
  case CG_DONE:
    return "done";
  case CG_NOT_VALID:
    return "tables, queue or clock not valid";
  case CG_MALFORMED:
    return "hash or list of hashes of a wrong length";
  case CG_ALREADY_KNOWN:
    return "known already";
  case CG_UNKNOWN_DEPENDENCY:
    return "a dependency is unknown";
  case CG_NO_ACTOR:
    return "no such actor";
  case CG_WRONG_SEQUENCE:
    return "not the actor's next sequence";
  case CG_WRONG_OPS:
    return "max op too large, or op count above it";
  case CG_MANY_DEPENDENCIES:
    return "more than 32 dependencies";
  case CG_NO_NODE_ROOM:
    return "no room for more changes";
  case CG_NO_EDGE_ROOM:
    return "no room for more dependencies";
  case CG_ACTOR_HAS_CHANGES:
    return "the actor has changes";
  case CG_NO_ACTOR_ROOM:
    return "no room for an actor there";
  case CG_NOT_FOUND:
    return "not found";
  case CG_NO_OWNER:
    return "no change owns the op";
  case CG_SHORT_BUFFER:
    return "the answer does not fit";
  case CG_ALREADY_WAITING:
    return "waits already";
  case CG_NO_QUEUE_ROOM:
    return "no room for more that wait";
  case CG_COLUMNS_DISAGREE:
    return "the columns disagree";
  default:
    return "no number of the table";
  }
}

/* ---- the tables */

/* A graph's tables, as changegraph.h describes them: each with its length in elements. */
typedef struct cg_graph {
  uint8_t *hashes;
  size_t hashes_len;
  uint32_t *nodes;
  size_t nodes_len;
  cg_edge *edges;
  size_t edges_len;
  uint32_t *clocks;
  size_t clocks_len;
  uint32_t *counts;
  size_t counts_len;
} cg_graph;

/* A queue's tables, or a batch's. What is handed out goes into the first three of one; its count stays. */
typedef struct cg_queue {
  uint8_t *hashes;
  size_t hashes_len;
  uint64_t *numbers;
  size_t numbers_len;
  uint8_t *deps;
  size_t deps_len;
  uint32_t *count;
  size_t count_len;
} cg_queue;

/* A queue's tables in place. */
typedef struct cg_waiting {
  uint64_t numbers[CG_NUMBERS * CG_WAITING];
  uint8_t hashes[CG_HASH * CG_WAITING];
  uint8_t deps[CG_DEPS * CG_WAITING];
  uint32_t count[1];
} cg_waiting;

/* All tables in place, at the hub's room and at the bench's. Static ones are zeros at the start, which is an empty graph without actors, an empty queue and an empty batch. */
typedef struct cg_hub {
  uint8_t hashes[CG_HASH * CG_HUB_CHANGES];
  uint32_t nodes[CG_NODE * CG_HUB_CHANGES];
  cg_edge edges[CG_HUB_EDGES];
  uint32_t clocks[CG_HUB_CHANGES * CG_HUB_ACTORS];
  uint32_t counts[CG_COUNTS];
  cg_waiting queue;
  cg_waiting batch;
} cg_hub;

typedef struct cg_bench {
  uint8_t hashes[CG_HASH * CG_BENCH_CHANGES];
  uint32_t nodes[CG_NODE * CG_BENCH_CHANGES];
  cg_edge edges[CG_BENCH_EDGES];
  uint32_t clocks[CG_BENCH_CHANGES * CG_BENCH_ACTORS];
  uint32_t counts[CG_COUNTS];
  cg_waiting queue;
  cg_waiting batch;
} cg_bench;

#ifdef __cplusplus
static_assert(sizeof(cg_hub) <= 2 * 1024 * 1024, "a hub fits 2 MiB");
#else
_Static_assert(sizeof(cg_hub) <= 2 * 1024 * 1024, "a hub fits 2 MiB");
#endif

/* How many elements an array has. */
#define CG_LEN(array) (sizeof(array) / sizeof *(array))

static inline cg_graph cg_graph_of_hub(cg_hub *hub) {
  cg_graph graph = {hub->hashes, CG_LEN(hub->hashes), hub->nodes,  CG_LEN(hub->nodes),  hub->edges,
                    CG_LEN(hub->edges), hub->clocks, CG_LEN(hub->clocks), hub->counts, CG_LEN(hub->counts)};
  return graph;
}

static inline cg_graph cg_graph_of_bench(cg_bench *bench) {
  cg_graph graph = {bench->hashes, CG_LEN(bench->hashes), bench->nodes,  CG_LEN(bench->nodes),  bench->edges,
                    CG_LEN(bench->edges), bench->clocks, CG_LEN(bench->clocks), bench->counts, CG_LEN(bench->counts)};
  return graph;
}

static inline cg_queue cg_queue_of(cg_waiting *waiting) {
  cg_queue queue = {waiting->hashes, CG_LEN(waiting->hashes), waiting->numbers, CG_LEN(waiting->numbers),
                    waiting->deps,   CG_LEN(waiting->deps),   waiting->count,   CG_LEN(waiting->count)};
  return queue;
}

static inline cg_queue cg_queue_of_hub(cg_hub *hub) { return cg_queue_of(&hub->queue); }
static inline cg_queue cg_batch_of_hub(cg_hub *hub) { return cg_queue_of(&hub->batch); }
static inline cg_queue cg_queue_of_bench(cg_bench *bench) { return cg_queue_of(&bench->queue); }
static inline cg_queue cg_batch_of_bench(cg_bench *bench) { return cg_queue_of(&bench->batch); }

/* The tables as a function of changegraph.h is lent them: a table more is a line here and in the structs. */
#define CG_LENT_GRAPH(g) \
  (g)->hashes, (g)->hashes_len, (g)->nodes, (g)->nodes_len, (g)->edges, (g)->edges_len, (g)->clocks, (g)->clocks_len, (g)->counts, (g)->counts_len
#define CG_LENT_RECORDS(q) (q)->hashes, (q)->hashes_len, (q)->numbers, (q)->numbers_len, (q)->deps, (q)->deps_len
#define CG_LENT_QUEUE(q) CG_LENT_RECORDS(q), (q)->count, (q)->count_len
#define CG_LENT_CLOCK(c) (c)->entries, CG_LEN((c)->entries), (c)->count
#define CG_LENT_LIST(list) (list).hashes, (list).bytes
#define CG_LENT_PLACE(told) (told), (size_t)((told) != NULL)

/* ---- hashes and changes */

/* Hashes one after the other. `bytes` is 32 for each; any other length is CG_MALFORMED, so that a length that came in may be given as it is. */
typedef struct cg_list {
  const uint8_t *hashes;
  size_t bytes;
} cg_list;

/* So many hashes. */
static inline cg_list cg_list_of(const uint8_t *hashes, size_t count) {
  cg_list list = {hashes, count * CG_HASH};
  return list;
}

/* A change, but for who made it: that is a number in the graph and a key in a queue, and each call says which. */
typedef struct cg_change {
  const uint8_t *hash;
  uint64_t sequence;
  uint64_t max_op;
  uint64_t op_count;
  cg_list dependencies;
} cg_change;

/* The record at a place, of a queue, of a batch, or of what was handed out: the change, pointing into the tables, and its actor's key. The place must be below the count, or
 * below told_records. */
static inline cg_change cg_change_at(const cg_queue *q, size_t place) {
  const uint64_t *numbers = q->numbers + CG_NUMBERS * place;
  cg_change change = {q->hashes + CG_HASH * place, numbers[1], numbers[2], numbers[3], {q->deps + CG_DEPS * place, (size_t)numbers[4] * CG_HASH}};
  return change;
}

static inline uint64_t cg_key_at(const cg_queue *q, size_t place) { return q->numbers[CG_NUMBERS * place]; }

/* ---- the graph */

static inline CG_ANSWER cg_hub_open(const cg_graph *g, uint64_t actors) { return cg_open(CG_LENT_GRAPH(g), actors); }

/* With CG_UNKNOWN_DEPENDENCY *told_unknown is the position of the first unknown one. `actor` is its number now: cg_actor_of gives it for a key. */
static inline CG_ANSWER cg_hub_add(const cg_graph *g, uint64_t actor, const cg_change *change, uint64_t *told_unknown) {
  return cg_add(CG_LENT_GRAPH(g), change->hash, CG_HASH, actor, change->sequence, change->max_op, change->op_count, CG_LENT_LIST(change->dependencies),
                CG_LENT_PLACE(told_unknown));
}

/* Both move the numbers of actors: who keeps keys calls cg_put_key and cg_take_key. */
static inline CG_ANSWER cg_hub_insert_actor(const cg_graph *g, uint64_t place) { return cg_insert_actor(CG_LENT_GRAPH(g), place); }
static inline CG_ANSWER cg_hub_remove_actor(const cg_graph *g, uint64_t place) { return cg_remove_actor(CG_LENT_GRAPH(g), place); }

static inline CG_ANSWER cg_hub_forget(const cg_graph *g) { return cg_forget(CG_LENT_GRAPH(g)); }

/* Decoded columns, each with its length in elements. */
typedef struct cg_columns {
  const uint8_t *ids;
  size_t ids_len;
  const uint64_t *actors;
  size_t actors_len;
  const uint64_t *sequences;
  size_t sequences_len;
  const uint64_t *max_ops;
  size_t max_ops_len;
  const uint64_t *op_counts;
  size_t op_counts_len;
  const uint64_t *dep_counts;
  size_t dep_counts_len;
  const uint64_t *dep_values;
  size_t dep_values_len;
  cg_list heads;
  uint64_t actor_count;
} cg_columns;

static inline CG_ANSWER cg_hub_load(const cg_graph *g, const cg_columns *c) {
  return cg_load(CG_LENT_GRAPH(g), c->ids, c->ids_len, c->actors, c->actors_len, c->sequences, c->sequences_len, c->max_ops, c->max_ops_len, c->op_counts,
                 c->op_counts_len, c->dep_counts, c->dep_counts_len, c->dep_values, c->dep_values_len, CG_LENT_LIST(c->heads), c->actor_count);
}

/* ---- which actor has which key: the key of actor a is key[a], and the count is the graph's count of actors. A number moves when an actor is put in or taken away before it; a
 * key never does, so keys are what is sent, queued and saved. */

typedef struct cg_keys {
  uint64_t key[CG_HUB_ACTORS];
  uint64_t count;
} cg_keys;

/* No actor's number. Adding answers CG_NO_ACTOR to it, cg_hub_owner CG_NO_OWNER, cg_hub_get_hash_for_actor_seq CG_NOT_FOUND; what it made is 0 changes. */
#define CG_NOBODY UINT64_MAX

/* The number of the actor with the key, or CG_NOBODY. */
static inline uint64_t cg_actor_of(const cg_keys *keys, uint64_t key) {
  for (uint64_t actor = 0; actor < keys->count && actor < CG_HUB_ACTORS; actor++) {
    if (keys->key[actor] == key) {
      return actor;
    }
  }
  return CG_NOBODY;
}

/* Where a key belongs if actors stand in ascending order of their keys. */
static inline uint64_t cg_place_of(const cg_keys *keys, uint64_t key) {
  uint64_t place = 0;
  while (place < keys->count && place < CG_HUB_ACTORS && keys->key[place] < key) {
    place++;
  }
  return place;
}

/* Puts an actor in at a place, with its key: numbers from there on move up. The place keys->count moves none. CG_DONE, CG_NOT_VALID (also where the keys are not as many as the
 * graph's actors), CG_ALREADY_KNOWN (an actor has the key), CG_NO_ACTOR_ROOM. */
static inline CG_ANSWER cg_put_key(const cg_graph *g, cg_keys *keys, uint64_t place, uint64_t key) {
  uint64_t actors = 0;
  uint32_t number = cg_num_actors(CG_LENT_GRAPH(g), &actors, 1);
  if (number == CG_DONE && actors != keys->count) {
    return CG_NOT_VALID;
  }
  if (number == CG_DONE && cg_actor_of(keys, key) != CG_NOBODY) {
    return CG_ALREADY_KNOWN;
  }
  if (number == CG_DONE) {
    number = cg_hub_insert_actor(g, place);
  }
  if (number == CG_DONE) {
    for (uint64_t actor = keys->count; actor > place; actor--) {
      keys->key[actor] = keys->key[actor - 1];
    }
    keys->key[place] = key;
    keys->count++;
  }
  return number;
}

/* Takes the actor at a place away, if it has no changes: numbers past it move down. CG_DONE, CG_NOT_VALID (as above), CG_NO_ACTOR, CG_ACTOR_HAS_CHANGES. */
static inline CG_ANSWER cg_take_key(const cg_graph *g, cg_keys *keys, uint64_t place) {
  uint64_t actors = 0;
  uint32_t number = cg_num_actors(CG_LENT_GRAPH(g), &actors, 1);
  if (number == CG_DONE && actors != keys->count) {
    return CG_NOT_VALID;
  }
  if (number == CG_DONE) {
    number = cg_hub_remove_actor(g, place);
  }
  if (number == CG_DONE) {
    keys->count--;
    for (uint64_t actor = place; actor < keys->count; actor++) {
      keys->key[actor] = keys->key[actor + 1];
    }
  }
  return number;
}

/* ---- questions about a graph */

/* The clock becomes that of the list, its count the number of actors. 64 entries hold every answer, so CG_SHORT_BUFFER is never given. */
static inline CG_ANSWER cg_hub_clock_of(const cg_graph *g, cg_list list, cg_clock *clock) {
  uint64_t entries = 0;
  uint32_t number = cg_clock_of(CG_LENT_GRAPH(g), CG_LENT_LIST(list), clock->entries, CG_LEN(clock->entries), &entries, 1);
  if (number == CG_DONE) {
    clock->count = (uint32_t)entries;
  }
  return number;
}

static inline CG_ANSWER cg_hub_clock_at(const cg_graph *g, cg_list list, cg_clock *clock) {
  uint64_t entries = 0;
  uint32_t number = cg_clock_at(CG_LENT_GRAPH(g), CG_LENT_LIST(list), clock->entries, CG_LEN(clock->entries), &entries, 1);
  if (number == CG_DONE) {
    clock->count = (uint32_t)entries;
  }
  return number;
}

/* With CG_DONE *missing is the missing list, wherever it stands: at the start of `out`, or, for an empty have-list, in the hash table itself. It holds until one of them changes.
 * `out` of CG_HASH * CG_HUB_CHANGES bytes holds every answer. The list goes by clocks: on a graph that is not chained (cg_hub_chained) it may leave a change out that lies outside the
 * have-list's history. cg_hub_remove_ancestors goes by the history: of a list of hashes it gives back those outside, ascending. */
static inline CG_ANSWER cg_hub_missing(const cg_graph *g, cg_list have, uint8_t *out, size_t out_bytes, cg_list *missing) {
  uint64_t bytes = 0;
  uint32_t number = cg_missing(CG_LENT_GRAPH(g), CG_LENT_LIST(have), out, out_bytes, &bytes, 1);
  if (number == CG_DONE && missing != NULL) {
    missing->hashes = cg_missing_shown(g->hashes, out, have.bytes);
    missing->bytes = (size_t)bytes;
  }
  return number;
}

static inline CG_ANSWER cg_hub_heads(const cg_graph *g, uint8_t *out, size_t out_bytes, uint64_t *told_bytes) {
  return cg_heads(CG_LENT_GRAPH(g), out, out_bytes, CG_LENT_PLACE(told_bytes));
}

static inline CG_ANSWER cg_hub_head_indexes(const cg_graph *g, uint32_t *out, size_t out_entries, uint64_t *told_entries) {
  return cg_head_indexes(CG_LENT_GRAPH(g), out, out_entries, CG_LENT_PLACE(told_entries));
}

static inline CG_ANSWER cg_hub_heads_are_current(const cg_graph *g, cg_list list, uint64_t *told_yes) {
  return cg_heads_are_current(CG_LENT_GRAPH(g), CG_LENT_LIST(list), CG_LENT_PLACE(told_yes));
}

/* Where the answer is one hash, `hash` has 32 bytes for it. */
static inline CG_ANSWER cg_hub_owner(const cg_graph *g, uint64_t actor, uint64_t counter, uint8_t *hash) {
  return cg_owner(CG_LENT_GRAPH(g), actor, counter, hash, CG_HASH, NULL, 0);
}

static inline CG_ANSWER cg_hub_index_to_hash(const cg_graph *g, uint64_t index, uint8_t *hash) {
  return cg_index_to_hash(CG_LENT_GRAPH(g), index, hash, CG_HASH, NULL, 0);
}

static inline CG_ANSWER cg_hub_get_hash_for_actor_seq(const cg_graph *g, uint64_t actor, uint64_t sequence, uint8_t *hash) {
  return cg_get_hash_for_actor_seq(CG_LENT_GRAPH(g), actor, sequence, hash, CG_HASH, NULL, 0);
}

static inline CG_ANSWER cg_hub_hash_to_index(const cg_graph *g, const uint8_t *hash, uint64_t *told_index) {
  return cg_hash_to_index(CG_LENT_GRAPH(g), hash, CG_HASH, CG_LENT_PLACE(told_index));
}

static inline CG_ANSWER cg_hub_has_change(const cg_graph *g, const uint8_t *hash, uint64_t *told_yes) {
  return cg_has_change(CG_LENT_GRAPH(g), hash, CG_HASH, CG_LENT_PLACE(told_yes));
}

static inline CG_ANSWER cg_hub_seq_for_actor(const cg_graph *g, uint64_t actor, uint64_t *told_sequence) {
  return cg_seq_for_actor(CG_LENT_GRAPH(g), actor, CG_LENT_PLACE(told_sequence));
}

static inline CG_ANSWER cg_hub_max_op_for_actor(const cg_graph *g, uint64_t actor, uint64_t *told_max_op) {
  return cg_max_op_for_actor(CG_LENT_GRAPH(g), actor, CG_LENT_PLACE(told_max_op));
}

static inline CG_ANSWER cg_hub_max_op(const cg_graph *g, uint64_t *told_max_op) { return cg_max_op(CG_LENT_GRAPH(g), CG_LENT_PLACE(told_max_op)); }

static inline CG_ANSWER cg_hub_len(const cg_graph *g, uint64_t *told_changes) { return cg_len(CG_LENT_GRAPH(g), CG_LENT_PLACE(told_changes)); }

static inline CG_ANSWER cg_hub_num_actors(const cg_graph *g, uint64_t *told_actors) { return cg_num_actors(CG_LENT_GRAPH(g), CG_LENT_PLACE(told_actors)); }

static inline CG_ANSWER cg_hub_actor_ids(const cg_graph *g, uint64_t which, uint32_t *out, size_t out_entries, uint64_t *told_entries) {
  return cg_actor_ids(CG_LENT_GRAPH(g), which, out, out_entries, CG_LENT_PLACE(told_entries));
}

static inline CG_ANSWER cg_hub_deps_for_hash(const cg_graph *g, const uint8_t *hash, uint8_t *out, size_t out_bytes, uint64_t *told_bytes) {
  return cg_deps_for_hash(CG_LENT_GRAPH(g), hash, CG_HASH, out, out_bytes, CG_LENT_PLACE(told_bytes));
}

static inline CG_ANSWER cg_hub_remove_ancestors(const cg_graph *g, cg_list list, cg_list heads, uint8_t *out, size_t out_bytes, uint64_t *told_bytes) {
  return cg_remove_ancestors(CG_LENT_GRAPH(g), CG_LENT_LIST(list), CG_LENT_LIST(heads), out, out_bytes, CG_LENT_PLACE(told_bytes));
}

static inline CG_ANSWER cg_hub_chained(const cg_graph *g, uint64_t *told_yes) { return cg_chained(CG_LENT_GRAPH(g), CG_LENT_PLACE(told_yes)); }

/* ---- waiting changes */

static inline CG_ANSWER cg_hub_queue_open(const cg_queue *q) { return cg_queue_open(CG_LENT_QUEUE(q)); }

static inline CG_ANSWER cg_hub_batch_push(const cg_queue *batch, uint64_t key, const cg_change *change) {
  return cg_batch_push(CG_LENT_QUEUE(batch), change->hash, CG_HASH, key, change->sequence, change->max_op, change->op_count, CG_LENT_LIST(change->dependencies));
}

static inline CG_ANSWER cg_hub_hand_over(const cg_queue *q, const cg_queue *batch) { return cg_hand_over(CG_LENT_QUEUE(q), CG_LENT_QUEUE(batch)); }

/* One change into the queue: pushed to a batch of its own, and handed over. The numbers are those of both; CG_ALREADY_WAITING also where the queue has the very same change. */
static inline CG_ANSWER cg_let_wait(const cg_queue *q, uint64_t key, const cg_change *change) {
  uint8_t hash[CG_HASH], deps[CG_DEPS];
  uint64_t numbers[CG_NUMBERS];
  uint32_t count[1] = {0};
  cg_queue one = {hash, CG_LEN(hash), numbers, CG_LEN(numbers), deps, CG_LEN(deps), count, CG_LEN(count)};
  uint32_t number = cg_hub_batch_push(&one, key, change);
  return number == CG_DONE ? cg_hub_hand_over(q, &one) : number;
}

static inline CG_ANSWER cg_hub_queue_is_empty(const cg_queue *q, uint64_t *told_yes) { return cg_queue_is_empty(CG_LENT_QUEUE(q), CG_LENT_PLACE(told_yes)); }

static inline CG_ANSWER cg_hub_queue_has_hash(const cg_queue *q, const uint8_t *hash, uint64_t *told_yes) {
  return cg_queue_has_hash(CG_LENT_QUEUE(q), hash, CG_HASH, CG_LENT_PLACE(told_yes));
}

static inline CG_ANSWER cg_hub_queue_has_actor_seq(const cg_queue *q, uint64_t key, uint64_t sequence, uint64_t *told_yes) {
  return cg_queue_has_actor_seq(CG_LENT_QUEUE(q), key, sequence, CG_LENT_PLACE(told_yes));
}

static inline CG_ANSWER cg_hub_queue_iter(const cg_queue *q, const cg_queue *to, uint64_t *told_records) {
  return cg_queue_iter(CG_LENT_QUEUE(q), CG_LENT_RECORDS(to), CG_LENT_PLACE(told_records));
}

static inline CG_ANSWER cg_hub_remove_actor_branch_from(const cg_queue *q, uint64_t key, uint64_t sequence) {
  return cg_remove_actor_branch_from(CG_LENT_QUEUE(q), key, sequence);
}

/* `to` may be the batch while it is empty. Released records are out of the queue: the caller adds them, in their order. */
static inline CG_ANSWER cg_hub_release(const cg_graph *g, const cg_queue *q, const cg_queue *to, uint64_t *told_records) {
  return cg_release(CG_LENT_GRAPH(g), CG_LENT_QUEUE(q), CG_LENT_RECORDS(to), CG_LENT_PLACE(told_records));
}

/* ---- clocks: `count` of the entries are in use, and every call keeps it right */

static inline CG_ANSWER cg_hub_clock_include(cg_clock *clock, size_t place, uint32_t sequence, uint64_t *told_yes) {
  return cg_clock_include(clock, place, sequence, CG_LENT_PLACE(told_yes));
}

static inline CG_ANSWER cg_hub_clock_merge(cg_clock *clock, const cg_clock *other) { return cg_clock_merge(clock, other); }

static inline CG_ANSWER cg_hub_clock_covers(const cg_clock *clock, const cg_clock *other, uint64_t *told_yes) {
  return cg_clock_covers(clock, other, CG_LENT_PLACE(told_yes));
}

static inline CG_ANSWER cg_hub_clock_isolate(cg_clock *clock, size_t place) { return cg_clock_isolate(clock, place); }

static inline CG_ANSWER cg_hub_clock_get(const cg_clock *clock, size_t place, uint64_t *told_entry) {
  return cg_clock_get(CG_LENT_CLOCK(clock), place, CG_LENT_PLACE(told_entry));
}

static inline CG_ANSWER cg_hub_clock_op_covers(const cg_clock *clock, size_t actor, uint64_t counter, uint64_t *told_yes) {
  return cg_clock_op_covers(CG_LENT_CLOCK(clock), actor, counter, CG_LENT_PLACE(told_yes));
}

static inline CG_ANSWER cg_hub_clock_rewrite_with_new_actor(cg_clock *clock, size_t place) {
  uint32_t number = cg_clock_rewrite_with_new_actor(CG_LENT_CLOCK(clock), place);
  clock->count += number == CG_DONE;
  return number;
}

static inline CG_ANSWER cg_hub_clock_remove_actor(cg_clock *clock, size_t place) {
  uint32_t number = cg_clock_remove_actor(CG_LENT_CLOCK(clock), place);
  clock->count -= number == CG_DONE;
  return number;
}

/* Both clocks are lent whatever the kind; one that the kind does not ask may have the count 0. */
static inline CG_ANSWER cg_hub_clock_visible_after(uint32_t kind, const cg_clock *before, const cg_clock *after, size_t actor, uint64_t counter, uint64_t *told_yes) {
  return cg_clock_visible_after(kind, CG_LENT_CLOCK(before), CG_LENT_CLOCK(after), actor, counter, CG_LENT_PLACE(told_yes));
}

static inline CG_ANSWER cg_hub_clock_visible_before(uint32_t kind, const cg_clock *before, const cg_clock *after, size_t actor, uint64_t counter, uint64_t *told_yes) {
  return cg_clock_visible_before(kind, CG_LENT_CLOCK(before), CG_LENT_CLOCK(after), actor, counter, CG_LENT_PLACE(told_yes));
}

/* ---- the text session */

static inline CG_ANSWER cg_hub_session(const uint8_t *input, size_t input_bytes, uint8_t *answer, size_t answer_bytes, uint64_t *told_bytes) {
  return cg_session(input, input_bytes, answer, answer_bytes, CG_LENT_PLACE(told_bytes));
}

#endif
