/* The change graph from C, function by function: every table is lent with its length. changegraph_hub.h has the tables as structs and a short call for each function here;
 * begin there.
 *
 * Link libchangegraph.a, which host/archive.sh makes. It is for x86-64 Linux, any processor of that kind, in C or C++; of other libraries it needs memcpy and memset alone,
 * and it allocates nothing.
 *
 * Answers. Every function returns one of the numbers below, and every number but CG_DONE leaves all lent memory as it was, but for three things: a text answer
 * that does not fit becomes all zeros (cg_session with CG_SHORT_BUFFER), its length is then told as 0, and cg_add with CG_UNKNOWN_DEPENDENCY tells which one is unknown.
 *
 * Slices. A slice is a pointer and a length in elements (`_len`), in this order. A slice of length 0 may have any pointer, a null pointer too; any other must point to so
 * many elements, aligned as their type is. Slices of one call must not overlap where one of them is written.
 *
 * What an answer tells beside its number stands in a place of 64-bit numbers, `told_` and what it is: told_bytes[0] is bytes, told_entries[0] entries, told_yes[0] 1 or 0.
 * The place is written with CG_DONE alone (the exceptions are above); places past the first stay; of length 0 it is not wanted, which is no refusal.
 *
 * Stack. A thread that calls needs CG_STACK_BYTES of it; docs/MEMORY.md has what each function takes. In a thread of 128 KiB every function that is lent a graph crashes, but cg_open.
 *
 * Threads. Nothing is kept between calls and nothing is shared but what is lent. So calls on different tables may run at the same time, and so may calls that only read
 * the same ones (`const`); a call that writes a table must be alone with it, in a signal handler too. A call that is ended in the middle leaves what it writes half written.
 *
 * Saving. The tables are plain numbers in the processor's byte order. Write the counts and the used parts of hashes, nodes, edges and queue, with your keys, to a new file, and
 * rename it over the old one once it is on the disk; reading back, make the rows of the changes in `clocks` 0 (not cached) and ask one function whether the tables are valid. A
 * torn or changed file is CG_NOT_VALID only where the tables contradict themselves: with another byte in a hash they are valid too, so a checksum is yours to write. cg_load
 * builds a graph from columns instead, and may refuse with CG_COLUMNS_DISAGREE what cg_add took. docs/SAVING.md has all of it; host/saved.c does it.
 */
#ifndef CG_CHANGEGRAPH_H
#define CG_CHANGEGRAPH_H

#include <stddef.h>
#include <stdint.h>

#ifdef __cplusplus
extern "C" {
#endif

/* One more with each change to names, parameters or tables: a host is then compiled again, and what it saved before is no longer the same. */
#define CG_VERSION 1

/* So much stack is enough for every call. */
#define CG_STACK_BYTES (288 * 1024)

/* An answer must be looked at. */
#if defined(__GNUC__)
#define CG_ANSWER __attribute__((warn_unused_result)) uint32_t
#else
#define CG_ANSWER uint32_t
#endif

/* What a function may answer. */
enum {
  CG_DONE = 0,                /* done */
  CG_NOT_VALID = 1,           /* lent tables, queue or clock not valid, or two clocks of different lengths to compare */
  CG_MALFORMED = 2,           /* a hash is not 32 bytes, or a list of hashes no multiple of 32 */
  CG_ALREADY_KNOWN = 3,       /* the hash is known: the change counts as accepted, nothing changes; cg_batch_push: the batch has it */
  CG_UNKNOWN_DEPENDENCY = 4,  /* a dependency is unknown; the first in the order listed is named */
  CG_NO_ACTOR = 5,            /* no such actor */
  CG_WRONG_SEQUENCE = 6,      /* the sequence is not the actor's count plus 1 */
  CG_WRONG_OPS = 7,           /* max op above 4,294,967,295, or op count above max op */
  CG_MANY_DEPENDENCIES = 8,   /* more than 32 dependencies */
  CG_NO_NODE_ROOM = 9,        /* no room for the node or nodes */
  CG_NO_EDGE_ROOM = 10,       /* edges used and dependencies exceed the edge room */
  CG_ACTOR_HAS_CHANGES = 11,  /* the actor to be removed has changes */
  CG_NO_ACTOR_ROOM = 12,      /* actor place above the count, or more actors than room */
  CG_NOT_FOUND = 13,          /* no such hash, node, or actor and sequence */
  CG_NO_OWNER = 14,           /* no change owns the op */
  CG_SHORT_BUFFER = 15,       /* the answer buffer is shorter than the answer */
  CG_ALREADY_WAITING = 16,    /* the actor and sequence, or the hash, waits already */
  CG_NO_QUEUE_ROOM = 17,      /* more would wait than there is room */
  CG_COLUMNS_DISAGREE = 18    /* the load columns disagree */
};

/* ---- the lent tables of a graph
 *
 * N changes, E edges, A actors of room; the lengths set them, at most 4,096, 16,384 and 64. Room above these, or lengths that disagree, is CG_NOT_VALID.
 *
 *   hashes   32 N bytes              the hash of change k at 32 k
 *   nodes    6 N numbers             of change k at 6 k: actor, sequence, max op, op count, first edge + 1 or 0, head (1 or 0)
 *   edges    E records               target: the change that is depended on; next: the next edge of the list + 1, or 0 at its end
 *   clocks   N * A numbers           row k: the cached clock of change k, or zeros
 *   counts   3 numbers               changes, edges, actors in use
 *
 * No answer depends on what lies past the used parts, and it keeps its value until it is taken into use. (The edge table is read whole, and written back as it was by functions that
 * may change it.) Each function checks all tables that it is lent. */

enum {
  CG_HUB_CHANGES = 4096,
  CG_HUB_EDGES = 16384,
  CG_HUB_ACTORS = 64,
  CG_BENCH_CHANGES = 256,
  CG_BENCH_EDGES = 1024,
  CG_BENCH_ACTORS = 16,
  CG_HASH = 32,         /* bytes of a hash */
  CG_NODE = 6,          /* numbers of a node */
  CG_COUNTS = 3,        /* numbers of the counts */
  CG_DEPENDENCIES = 32, /* dependencies of one change at most */
  CG_WAITING = 256,     /* waiting changes at most, and as many in a batch */
  CG_NUMBERS = 5,       /* numbers of a waiting change */
  CG_DEPS = 32 * 32,    /* bytes for its dependencies */
  CG_RECORD = 32 + 5 * 8 + 1024 /* bytes of a waiting change */
};

typedef struct cg_edge {
  uint32_t target;
  uint32_t next;
} cg_edge;

/* All tables at the hub's room, with queue and batch. */
#define CG_HUB_BYTES \
  ((size_t)CG_HUB_CHANGES * (CG_HASH + CG_NODE * 4 + CG_HUB_ACTORS * 4) + (size_t)CG_HUB_EDGES * sizeof(cg_edge) + CG_COUNTS * 4 + 2 * ((size_t)CG_WAITING * CG_RECORD + 4))
#ifdef __cplusplus
static_assert(CG_HUB_BYTES <= 2 * 1024 * 1024, "the hub's tables fit 2 MiB");
#else
_Static_assert(CG_HUB_BYTES <= 2 * 1024 * 1024, "the hub's tables fit 2 MiB");
#endif

/* Opens an empty graph for so many actors: sets the counts and nothing else. The tables may hold anything; only their lengths are checked. (Only `counts` is written;
 * the others are not `const` here, since no compiler should take them for memory that was filled before.)
 * CG_DONE, CG_NOT_VALID, CG_NO_ACTOR_ROOM. */
CG_ANSWER cg_open(uint8_t *hashes, size_t hashes_len, uint32_t *nodes, size_t nodes_len, cg_edge *edges, size_t edges_len,
                  uint32_t *clocks, size_t clocks_len, uint32_t *counts, size_t counts_len, uint64_t actors);

/* Adds a change: its hash, actor, sequence, max op, op count, and the hashes of its dependencies one after the other.
 * With CG_UNKNOWN_DEPENDENCY told_unknown[0] is the position of the first unknown one among them, from 0; with every other number, CG_DONE too, it stays as it was.
 * CG_DONE, CG_NOT_VALID, and CG_MALFORMED to CG_NO_EDGE_ROOM in this order. */
CG_ANSWER cg_add(uint8_t *hashes, size_t hashes_len, uint32_t *nodes, size_t nodes_len, cg_edge *edges, size_t edges_len, uint32_t *clocks,
                 size_t clocks_len, uint32_t *counts, size_t counts_len, const uint8_t *hash, size_t hash_len, uint64_t actor,
                 uint64_t sequence, uint64_t max_op, uint64_t op_count, const uint8_t *dependencies, size_t dependencies_len, uint64_t *told_unknown,
                 size_t told_unknown_len);

/* Puts an actor in at a place: numbers from the place on move up by one, in changes and in cached clocks.
 * CG_DONE, CG_NOT_VALID, CG_NO_ACTOR_ROOM. */
CG_ANSWER cg_insert_actor(const uint8_t *hashes, size_t hashes_len, uint32_t *nodes, size_t nodes_len, const cg_edge *edges, size_t edges_len,
                          uint32_t *clocks, size_t clocks_len, uint32_t *counts, size_t counts_len, uint64_t place);

/* Takes an actor without changes away: the reverse. CG_DONE, CG_NOT_VALID, CG_NO_ACTOR, CG_ACTOR_HAS_CHANGES. */
CG_ANSWER cg_remove_actor(const uint8_t *hashes, size_t hashes_len, uint32_t *nodes, size_t nodes_len, const cg_edge *edges, size_t edges_len,
                          uint32_t *clocks, size_t clocks_len, uint32_t *counts, size_t counts_len, uint64_t place);

/* ---- questions
 *
 * A question is lent the tables, its own arguments, an answer buffer where it has one, and a place for what it tells. It gives the first of these that holds:
 * CG_NOT_VALID, CG_MALFORMED, its own refusal (CG_NOT_FOUND or CG_NO_OWNER), CG_SHORT_BUFFER where the buffer is shorter than the answer, else CG_DONE.
 * Only with CG_DONE is anything written: the answer at the start of `out` (what lies past it stays), and how much of `out` it takes (told_bytes or told_entries).
 * A question without a buffer tells its whole answer in its place. The tables are only read.
 *
 * Hashes are 32 bytes each, one after the other. Changes are numbered from 0 in the order in which they were added. */

/* The sequence clock of a list of hashes: out[a] is the largest sequence of actor a in the history of the known ones among them, 0 for nothing.
 * As many entries as there are actors, whatever the list. A list of any length; repeats and unknown hashes change nothing.
 * CG_DONE, CG_NOT_VALID, CG_MALFORMED (the list is no multiple of 32 bytes), CG_SHORT_BUFFER. */
CG_ANSWER cg_clock_of(const uint8_t *hashes, size_t hashes_len, const uint32_t *nodes, size_t nodes_len, const cg_edge *edges, size_t edges_len,
                      const uint32_t *clocks, size_t clocks_len, const uint32_t *counts, size_t counts_len,
                      const uint8_t *list, size_t list_len, uint32_t *out, size_t out_len, uint64_t *told_entries, size_t told_entries_len);

/* What is missing to who has the hashes of the have-list: the hashes of every change whose sequence is above its actor's entry in the list's clock, in the
 * order of changes. With an empty have-list (have_len is 0) that is all of them, and they are not copied: nothing is written to `out`, whatever its length, and
 * the answer is the first told_bytes[0] bytes of the hash table itself. cg_missing_shown gives the right pointer in both cases.
 * This goes by clocks. On a graph that is not chained (cg_chained tells 0) the list may be empty although a change lies outside the have-list's history: its actor's entry is
 * raised by a later change that does not depend on it. To ask for the history itself lend cg_remove_ancestors the hashes in question as list and the have-list as heads: what
 * it gives back lies outside.
 * CG_DONE, CG_NOT_VALID, CG_MALFORMED (the have-list is no multiple of 32 bytes), CG_SHORT_BUFFER (never with an empty have-list). */
CG_ANSWER cg_missing(const uint8_t *hashes, size_t hashes_len, const uint32_t *nodes, size_t nodes_len, const cg_edge *edges, size_t edges_len,
                     const uint32_t *clocks, size_t clocks_len, const uint32_t *counts, size_t counts_len,
                     const uint8_t *have, size_t have_len, uint8_t *out, size_t out_len, uint64_t *told_bytes, size_t told_bytes_len);

/* Where the missing list stands after cg_missing answered CG_DONE: in the hash table with an empty have-list, else in the answer buffer. */
static inline const uint8_t *cg_missing_shown(const uint8_t *hashes, const uint8_t *out, size_t have_len) { return have_len == 0 ? hashes : out; }

/* The hash of the change that owns the op: the actor's change of lowest sequence whose op range, max op - op count + 1 to max op, holds the counter.
 * 32 bytes. CG_DONE, CG_NOT_VALID, CG_NO_OWNER (also for an unknown actor), CG_SHORT_BUFFER. */
CG_ANSWER cg_owner(const uint8_t *hashes, size_t hashes_len, const uint32_t *nodes, size_t nodes_len, const cg_edge *edges, size_t edges_len,
                   const uint32_t *clocks, size_t clocks_len, const uint32_t *counts, size_t counts_len,
                   uint64_t actor, uint64_t counter, uint8_t *out, size_t out_len, uint64_t *told_bytes, size_t told_bytes_len);

/* The hashes of the heads, which are the changes that no other depends on, in ascending order of their bytes. CG_DONE, CG_NOT_VALID, CG_SHORT_BUFFER. */
CG_ANSWER cg_heads(const uint8_t *hashes, size_t hashes_len, const uint32_t *nodes, size_t nodes_len, const cg_edge *edges, size_t edges_len,
                   const uint32_t *clocks, size_t clocks_len, const uint32_t *counts, size_t counts_len,
                   uint8_t *out, size_t out_len, uint64_t *told_bytes, size_t told_bytes_len);

/* The numbers of the heads, in the order of cg_heads. CG_DONE, CG_NOT_VALID, CG_SHORT_BUFFER. */
CG_ANSWER cg_head_indexes(const uint8_t *hashes, size_t hashes_len, const uint32_t *nodes, size_t nodes_len, const cg_edge *edges, size_t edges_len,
                          const uint32_t *clocks, size_t clocks_len, const uint32_t *counts, size_t counts_len,
                          uint32_t *out, size_t out_len, uint64_t *told_entries, size_t told_entries_len);

/* The hash of a change by its number, 32 bytes. CG_DONE, CG_NOT_VALID, CG_NOT_FOUND, CG_SHORT_BUFFER. */
CG_ANSWER cg_index_to_hash(const uint8_t *hashes, size_t hashes_len, const uint32_t *nodes, size_t nodes_len, const cg_edge *edges, size_t edges_len,
                           const uint32_t *clocks, size_t clocks_len, const uint32_t *counts, size_t counts_len,
                           uint64_t index, uint8_t *out, size_t out_len, uint64_t *told_bytes, size_t told_bytes_len);

/* The hash of an actor's change by its sequence, 32 bytes. CG_DONE, CG_NOT_VALID, CG_NOT_FOUND (also for an unknown actor and for sequence 0), CG_SHORT_BUFFER. */
CG_ANSWER cg_get_hash_for_actor_seq(const uint8_t *hashes, size_t hashes_len, const uint32_t *nodes, size_t nodes_len, const cg_edge *edges, size_t edges_len,
                                    const uint32_t *clocks, size_t clocks_len, const uint32_t *counts, size_t counts_len,
                                    uint64_t actor, uint64_t sequence, uint8_t *out, size_t out_len, uint64_t *told_bytes, size_t told_bytes_len);

/* Tells the number of the change with the hash. CG_DONE, CG_NOT_VALID, CG_MALFORMED (the hash is not 32 bytes), CG_NOT_FOUND. */
CG_ANSWER cg_hash_to_index(const uint8_t *hashes, size_t hashes_len, const uint32_t *nodes, size_t nodes_len, const cg_edge *edges, size_t edges_len,
                           const uint32_t *clocks, size_t clocks_len, const uint32_t *counts, size_t counts_len,
                           const uint8_t *hash, size_t hash_len, uint64_t *told_index, size_t told_index_len);

/* Tells 1 where the hash is that of a change, else 0. CG_DONE, CG_NOT_VALID, CG_MALFORMED (the hash is not 32 bytes). */
CG_ANSWER cg_has_change(const uint8_t *hashes, size_t hashes_len, const uint32_t *nodes, size_t nodes_len, const cg_edge *edges, size_t edges_len,
                        const uint32_t *clocks, size_t clocks_len, const uint32_t *counts, size_t counts_len,
                        const uint8_t *hash, size_t hash_len, uint64_t *told_yes, size_t told_yes_len);

/* Tells how many changes an actor has, which is its last change's sequence; 0 for an unknown actor. CG_DONE, CG_NOT_VALID. */
CG_ANSWER cg_seq_for_actor(const uint8_t *hashes, size_t hashes_len, const uint32_t *nodes, size_t nodes_len, const cg_edge *edges, size_t edges_len,
                           const uint32_t *clocks, size_t clocks_len, const uint32_t *counts, size_t counts_len,
                           uint64_t actor, uint64_t *told_sequence, size_t told_sequence_len);

/* Tells the max op of an actor's last change, 0 for none. It need not be the actor's largest. CG_DONE, CG_NOT_VALID. */
CG_ANSWER cg_max_op_for_actor(const uint8_t *hashes, size_t hashes_len, const uint32_t *nodes, size_t nodes_len, const cg_edge *edges, size_t edges_len,
                              const uint32_t *clocks, size_t clocks_len, const uint32_t *counts, size_t counts_len,
                              uint64_t actor, uint64_t *told_max_op, size_t told_max_op_len);

/* Tells the largest max op of all changes, 0 for none. CG_DONE, CG_NOT_VALID. */
CG_ANSWER cg_max_op(const uint8_t *hashes, size_t hashes_len, const uint32_t *nodes, size_t nodes_len, const cg_edge *edges, size_t edges_len,
                    const uint32_t *clocks, size_t clocks_len, const uint32_t *counts, size_t counts_len,
                    uint64_t *told_max_op, size_t told_max_op_len);

/* Tells how many changes there are. CG_DONE, CG_NOT_VALID. */
CG_ANSWER cg_len(const uint8_t *hashes, size_t hashes_len, const uint32_t *nodes, size_t nodes_len, const cg_edge *edges, size_t edges_len,
                 const uint32_t *clocks, size_t clocks_len, const uint32_t *counts, size_t counts_len,
                 uint64_t *told_changes, size_t told_changes_len);

/* Tells how many actors there are. CG_DONE, CG_NOT_VALID. */
CG_ANSWER cg_num_actors(const uint8_t *hashes, size_t hashes_len, const uint32_t *nodes, size_t nodes_len, const cg_edge *edges, size_t edges_len,
                        const uint32_t *clocks, size_t clocks_len, const uint32_t *counts, size_t counts_len,
                        uint64_t *told_actors, size_t told_actors_len);

/* The numbers of the actors with changes (which is 0), without changes (1), or of all actors (2, and every larger number), ascending.
 * CG_DONE, CG_NOT_VALID, CG_SHORT_BUFFER. */
CG_ANSWER cg_actor_ids(const uint8_t *hashes, size_t hashes_len, const uint32_t *nodes, size_t nodes_len, const cg_edge *edges, size_t edges_len,
                       const uint32_t *clocks, size_t clocks_len, const uint32_t *counts, size_t counts_len,
                       uint64_t which, uint32_t *out, size_t out_len, uint64_t *told_entries, size_t told_entries_len);

/* The op clock of a list of hashes: out[a] is the max op of actor a's change at the largest sequence in the list's history, 0 for nothing.
 * As many entries as there are actors. CG_DONE, CG_NOT_VALID, CG_MALFORMED (the list is no multiple of 32 bytes), CG_SHORT_BUFFER. */
CG_ANSWER cg_clock_at(const uint8_t *hashes, size_t hashes_len, const uint32_t *nodes, size_t nodes_len, const cg_edge *edges, size_t edges_len,
                      const uint32_t *clocks, size_t clocks_len, const uint32_t *counts, size_t counts_len,
                      const uint8_t *list, size_t list_len, uint32_t *out, size_t out_len, uint64_t *told_entries, size_t told_entries_len);

/* The hashes of the dependencies of the change with the hash, in the order in which they were listed, with repeats; none of an unknown hash.
 * CG_DONE, CG_NOT_VALID, CG_MALFORMED (the hash is not 32 bytes), CG_SHORT_BUFFER. */
CG_ANSWER cg_deps_for_hash(const uint8_t *hashes, size_t hashes_len, const uint32_t *nodes, size_t nodes_len, const cg_edge *edges, size_t edges_len,
                           const uint32_t *clocks, size_t clocks_len, const uint32_t *counts, size_t counts_len,
                           const uint8_t *hash, size_t hash_len, uint8_t *out, size_t out_len, uint64_t *told_bytes, size_t told_bytes_len);

/* The hashes of the list that lie outside the history of the heads given, ascending, each once. Unknown hashes of the list stay; unknown heads count for nothing.
 * CG_DONE, CG_NOT_VALID, CG_MALFORMED (the list or the heads are no multiple of 32 bytes), CG_SHORT_BUFFER. */
CG_ANSWER cg_remove_ancestors(const uint8_t *hashes, size_t hashes_len, const uint32_t *nodes, size_t nodes_len, const cg_edge *edges, size_t edges_len,
                              const uint32_t *clocks, size_t clocks_len, const uint32_t *counts, size_t counts_len,
                              const uint8_t *list, size_t list_len, const uint8_t *heads, size_t heads_len, uint8_t *out, size_t out_len,
                              uint64_t *told_bytes, size_t told_bytes_len);

/* Tells 1 where the list names exactly the heads, order and repeats ignored, else 0. CG_DONE, CG_NOT_VALID, CG_MALFORMED (the list is no multiple of 32 bytes). */
CG_ANSWER cg_heads_are_current(const uint8_t *hashes, size_t hashes_len, const uint32_t *nodes, size_t nodes_len, const cg_edge *edges, size_t edges_len,
                               const uint32_t *clocks, size_t clocks_len, const uint32_t *counts, size_t counts_len,
                               const uint8_t *list, size_t list_len, uint64_t *told_yes, size_t told_yes_len);

/* Tells 1 where every change with sequence 2 or more names its actor's preceding change among its own dependencies, else 0. CG_DONE, CG_NOT_VALID. */
CG_ANSWER cg_chained(const uint8_t *hashes, size_t hashes_len, const uint32_t *nodes, size_t nodes_len, const cg_edge *edges, size_t edges_len,
                     const uint32_t *clocks, size_t clocks_len, const uint32_t *counts, size_t counts_len,
                     uint64_t *told_yes, size_t told_yes_len);

/* ---- loading a graph, and forgetting what is only cached */

/* Loads a graph from decoded columns and replaces what the tables held, which may be anything: of the tables only the lengths are checked. A change takes one
 * element of each column: its hash (32 bytes of `ids`), actor, sequence, max op, op count, and how many dependencies it has. `dep_values` are the numbers of the
 * changes that are depended on, change after change; values past the last change's are ignored. `heads` are the stated heads, 32 bytes each, in any order.
 * `actor_count` is how many actors there are. Clocks are cached as adding the changes one after the other would cache them.
 * CG_DONE, CG_NOT_VALID (lengths that disagree), CG_MALFORMED, CG_NO_ACTOR_ROOM, CG_COLUMNS_DISAGREE, CG_NO_NODE_ROOM, CG_NO_EDGE_ROOM, in this order.
 * The columns disagree where one is not as long as there are hashes, an actor is not below the count, max op or op count break CG_WRONG_OPS, a change has more than 32
 * dependencies, the values are fewer than the counts say, a dependency is not an earlier change, a max op is below a dependency's (cg_add takes such a change), an actor's
 * sequences do not run 1, 2, 3, a hash stands twice, or the stated heads are not the heads.
 * With every number but CG_DONE the tables are as they were. */
CG_ANSWER cg_load(uint8_t *hashes, size_t hashes_len, uint32_t *nodes, size_t nodes_len, cg_edge *edges, size_t edges_len, uint32_t *clocks,
                  size_t clocks_len, uint32_t *counts, size_t counts_len, const uint8_t *ids, size_t ids_len, const uint64_t *actors,
                  size_t actors_len, const uint64_t *sequences, size_t sequences_len, const uint64_t *max_ops, size_t max_ops_len,
                  const uint64_t *op_counts, size_t op_counts_len, const uint64_t *dep_counts, size_t dep_counts_len,
                  const uint64_t *dep_values, size_t dep_values_len, const uint8_t *heads, size_t heads_len, uint64_t actor_count);

/* Throws all cached clocks away: the rows of the changes become 0. Answers stay the same. CG_DONE, CG_NOT_VALID. */
CG_ANSWER cg_forget(const uint8_t *hashes, size_t hashes_len, const uint32_t *nodes, size_t nodes_len, const cg_edge *edges, size_t edges_len,
                    uint32_t *clocks, size_t clocks_len, const uint32_t *counts, size_t counts_len);

/* ---- waiting changes: a queue and a batch
 *
 * Changes whose dependencies are not all known yet wait in a queue. A batch has the same tables: changes are pushed to it one by one, and handed over to the queue
 * all at once or not at all. Q records of room, at most 256; the lengths set it. Room above that, or lengths that disagree, is CG_NOT_VALID.
 *
 *   hashes    32 Q bytes         the hash of record i at 32 i
 *   numbers   5 Q numbers        of record i at 5 i: actor key, sequence, max op, op count, number of dependencies
 *   deps      1,024 Q bytes      of record i at 1,024 i: the hashes of its dependencies, 32 at most; bytes past them are not read
 *   count     1 number           how many records wait, at the front of the tables in queue order
 *
 * An actor key is any number of the caller's that names an actor; it is never renumbered. A valid queue has its count within the room, at most 32 dependencies
 * a record, and no hash twice, nor actor key and sequence. Each function checks all tables that it is lent. Records that are handed out go into three tables of
 * the same forms and any room, the first record at the front: a record's own dependencies are written, the other bytes of its row stay, and so do all rows past
 * the last. So the tables of an empty batch may take what is released; the batch stays empty, and pushing to it writes over them. */

/* Opens an empty queue or batch: sets the count to 0 and nothing else. The tables may hold anything; only their lengths are checked. (Not `const`, as with cg_open.)
 * CG_DONE, CG_NOT_VALID. */
CG_ANSWER cg_queue_open(uint8_t *hashes, size_t hashes_len, uint64_t *numbers, size_t numbers_len, uint8_t *deps, size_t deps_len,
                        uint32_t *count, size_t count_len);

/* Pushes a change to a batch: its hash, actor key, sequence, max op, op count, and the hashes of its dependencies one after the other. Nothing else is judged here: not whether
 * there is such an actor or the graph knows the hash, and a change that depends on itself waits for ever.
 * CG_DONE, CG_NOT_VALID, CG_MALFORMED, CG_ALREADY_KNOWN (the batch has the hash; the graph need not), CG_ALREADY_WAITING (the batch has another change of the actor key and
 * sequence), CG_MANY_DEPENDENCIES, CG_NO_QUEUE_ROOM, in this order. */
CG_ANSWER cg_batch_push(uint8_t *hashes, size_t hashes_len, uint64_t *numbers, size_t numbers_len, uint8_t *deps, size_t deps_len, uint32_t *count,
                        size_t count_len, const uint8_t *hash, size_t hash_len, uint64_t key, uint64_t sequence, uint64_t max_op,
                        uint64_t op_count, const uint8_t *dependencies, size_t dependencies_len);

/* Hands a batch over to a queue: its records stand after the queue's, and its count becomes 0. CG_DONE, CG_NOT_VALID (either of the two), CG_ALREADY_WAITING (any
 * record of the batch has the hash, or the actor key and sequence, of any in the queue), CG_NO_QUEUE_ROOM, in this order. A batch that is refused stays as it was: one that is not
 * wanted any more is opened again (cg_queue_open). */
CG_ANSWER cg_hand_over(uint8_t *hashes, size_t hashes_len, uint64_t *numbers, size_t numbers_len, uint8_t *deps, size_t deps_len, uint32_t *count,
                       size_t count_len, const uint8_t *batch_hashes, size_t batch_hashes_len, const uint64_t *batch_numbers,
                       size_t batch_numbers_len, const uint8_t *batch_deps, size_t batch_deps_len, uint32_t *batch_count, size_t batch_count_len);

/* Tells whether nothing waits. CG_DONE, CG_NOT_VALID. */
CG_ANSWER cg_queue_is_empty(const uint8_t *hashes, size_t hashes_len, const uint64_t *numbers, size_t numbers_len, const uint8_t *deps, size_t deps_len,
                            const uint32_t *count, size_t count_len, uint64_t *told_yes, size_t told_yes_len);

/* Tells whether a change with the hash waits. CG_DONE, CG_NOT_VALID, CG_MALFORMED (the hash is not 32 bytes). */
CG_ANSWER cg_queue_has_hash(const uint8_t *hashes, size_t hashes_len, const uint64_t *numbers, size_t numbers_len, const uint8_t *deps, size_t deps_len,
                            const uint32_t *count, size_t count_len, const uint8_t *hash, size_t hash_len, uint64_t *told_yes, size_t told_yes_len);

/* Tells whether a change with the actor key and the sequence waits. CG_DONE, CG_NOT_VALID. */
CG_ANSWER cg_queue_has_actor_seq(const uint8_t *hashes, size_t hashes_len, const uint64_t *numbers, size_t numbers_len, const uint8_t *deps, size_t deps_len,
                                 const uint32_t *count, size_t count_len, uint64_t key, uint64_t sequence, uint64_t *told_yes, size_t told_yes_len);

/* Hands out copies of all waiting records, in queue order, and tells how many; the queue stays. CG_DONE, CG_NOT_VALID, CG_SHORT_BUFFER (one of the three tables
 * cannot hold them all whole). */
CG_ANSWER cg_queue_iter(const uint8_t *hashes, size_t hashes_len, const uint64_t *numbers, size_t numbers_len, const uint8_t *deps, size_t deps_len,
                        const uint32_t *count, size_t count_len, uint8_t *to_hashes, size_t to_hashes_len, uint64_t *to_numbers, size_t to_numbers_len,
                        uint8_t *to_deps, size_t to_deps_len, uint64_t *told_records, size_t told_records_len);

/* Drops the changes of the actor key at or after the sequence, and all waiting ones that depend on them, directly or through other waiting ones. The rest closes
 * up and keeps its order. Which they were is not told: cg_queue_iter gives the records before. CG_DONE, CG_NOT_VALID. */
CG_ANSWER cg_remove_actor_branch_from(uint8_t *hashes, size_t hashes_len, uint64_t *numbers, size_t numbers_len, uint8_t *deps, size_t deps_len,
                                      uint32_t *count, size_t count_len, uint64_t key, uint64_t sequence);

/* Releases every change that is ready against a graph: hands them out, each after what it depends on, and tells how many. Ready is what depends only on the graph's
 * changes and on other ready ones. The rest closes up and keeps its order. The graph itself is not changed. Nothing but dependencies is looked at: a released change may still
 * be refused by cg_add, most often with CG_WRONG_SEQUENCE, where its actor's change before it is not there yet; what depends on it is then CG_UNKNOWN_DEPENDENCY. It is out
 * of the queue; one that may be added later is pushed and handed over again, in a batch that it does not stand in. CG_DONE, CG_NOT_VALID (graph or queue), CG_SHORT_BUFFER (one of the three tables cannot hold
 * them all whole; none is released then), in this order. */
CG_ANSWER cg_release(const uint8_t *hashes, size_t hashes_len, const uint32_t *nodes, size_t nodes_len, const cg_edge *edges, size_t edges_len,
                     const uint32_t *clocks, size_t clocks_len, const uint32_t *counts, size_t counts_len, uint8_t *queue_hashes,
                     size_t queue_hashes_len, uint64_t *queue_numbers, size_t queue_numbers_len, uint8_t *queue_deps, size_t queue_deps_len,
                     uint32_t *queue_count, size_t queue_count_len, uint8_t *to_hashes, size_t to_hashes_len, uint64_t *to_numbers,
                     size_t to_numbers_len, uint8_t *to_deps, size_t to_deps_len, uint64_t *told_records, size_t told_records_len);

/* ---- clocks: an entry for each actor, 0 for nothing. A count above 64 is CG_NOT_VALID, a place not below the count CG_NO_ACTOR. */

typedef struct cg_clock {
  uint32_t entries[64];
  uint32_t count; /* of entries in use */
} cg_clock;

/* Enters a sequence where nothing stands or a smaller one; tells 1 where it did (also for 0 over nothing), else 0. CG_DONE, CG_NOT_VALID, CG_NO_ACTOR. */
CG_ANSWER cg_clock_include(cg_clock *clock, size_t place, uint32_t sequence, uint64_t *told_yes, size_t told_yes_len);

/* The larger entry at each place that both have, into the first. CG_DONE, CG_NOT_VALID. */
CG_ANSWER cg_clock_merge(cg_clock *clock, const cg_clock *other);

/* Tells 1 where no entry of the other is larger, else 0. CG_DONE, CG_NOT_VALID (clocks of different counts too). */
CG_ANSWER cg_clock_covers(const cg_clock *clock, const cg_clock *other, uint64_t *told_yes, size_t told_yes_len);

/* The entry becomes 4,294,967,295. CG_DONE, CG_NOT_VALID, CG_NO_ACTOR. */
CG_ANSWER cg_clock_isolate(cg_clock *clock, size_t place);

/* ---- clocks on slices: the entries, at most 64, and how many of them are in use (for a cg_clock: entries, 64, count). More than 64 entries lent, or a count above
 * them, is CG_NOT_VALID. */

/* Tells the entry at the place, and 0 for a place not below the count. CG_DONE, CG_NOT_VALID. */
CG_ANSWER cg_clock_get(const uint32_t *entries, size_t entries_len, size_t count, size_t place, uint64_t *told_entry, size_t told_entry_len);

/* Tells whether an op clock covers the op: whether its counter is not above the actor's entry. CG_DONE, CG_NOT_VALID, CG_NO_ACTOR. */
CG_ANSWER cg_clock_op_covers(const uint32_t *entries, size_t entries_len, size_t count, size_t actor, uint64_t counter, uint64_t *told_yes, size_t told_yes_len);

/* A new actor at the place, with nothing: entries from there on move up by one. There must be room for one more entry; the count is the caller's to raise.
 * CG_DONE, CG_NOT_VALID, CG_NO_ACTOR_ROOM (no room, or the place is above the count). */
CG_ANSWER cg_clock_rewrite_with_new_actor(uint32_t *entries, size_t entries_len, size_t count, size_t place);

/* The actor at the place goes: entries past it move down by one, and 0 stands where the last one was. The count is the caller's to lower. CG_DONE, CG_NOT_VALID, CG_NO_ACTOR. */
CG_ANSWER cg_clock_remove_actor(uint32_t *entries, size_t entries_len, size_t count, size_t place);

/* A range of history between two op clocks. Of a kind, clocks that are not named are not asked, but they are checked. */
enum {
  CG_RANGE_CURRENT = 0,    /* all that there is */
  CG_RANGE_CURRENT_AT = 1, /* all up to the clock `after` */
  CG_RANGE_DIFF = 2        /* from the clock `before` to the clock `after`; every larger number is this kind too */
};

/* Tells whether the op is visible at the range's end, and whether it is older than the range. CG_DONE, CG_NOT_VALID (more than 64 entries,
 * or a count above them, of either clock), CG_NO_ACTOR (a clock that is asked has no such place). */
CG_ANSWER cg_clock_visible_after(uint32_t kind, const uint32_t *before, size_t before_len, size_t before_count, const uint32_t *after, size_t after_len,
                                 size_t after_count, size_t actor, uint64_t counter, uint64_t *told_yes, size_t told_yes_len);
CG_ANSWER cg_clock_visible_before(uint32_t kind, const uint32_t *before, size_t before_len, size_t before_count, const uint32_t *after, size_t after_len,
                                  size_t after_count, size_t actor, uint64_t counter, uint64_t *told_yes, size_t told_yes_len);

/* ---- the text session: a change list in, its answers out. The session keeps its own graph for the time of the call, with room for CG_BENCH_CHANGES
 * changes, CG_BENCH_EDGES edges and CG_BENCH_ACTORS actors. */

/* input   the list, lines that end in LF, of any length
 * answer  where the answer lines go. With CG_DONE its first told_bytes[0] bytes are the answer, and the bytes past them stay as they were; with
 *         CG_SHORT_BUFFER every byte of it is 0, and told_bytes[0] is 0
 *
 * CG_DONE, also where the list ends at a bad line (the last answer line then is `bad`, tab, its number); CG_SHORT_BUFFER exactly where the whole
 * answer is longer than the buffer. */
CG_ANSWER cg_session(const uint8_t *input, size_t input_len, uint8_t *answer, size_t answer_len, uint64_t *told_bytes, size_t told_bytes_len);

#ifdef __cplusplus
}
#endif

#endif
