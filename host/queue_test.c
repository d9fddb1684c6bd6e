/* Tests the batch and the queue from C: each number that an operation can give and their order, tables of the exact length, one short and one long, answer tables
 * of the exact length, one short and one long, and tables damaged in each field that a valid queue names. Every number but 0 must leave every byte of every table
 * and place. All tables end at a page that may not be touched. */
#include "queue.h"

#include "check.h"

enum { UNTOLD = 77 };

/* Sample P12: c (needs b), a, b (needs a), d, which are the changes 3, 1, 2 and 4, of the keys 30, 10, 20 and 40. */
static Queue sample(size_t room) {
  Queue q = queue_of(room, 0xEE);
  expect(cg_queue_open(QUEUE(&q)) == CG_DONE && q.count[0] == 0, "open a batch");
  expect(push(&q, 3, 30, 1, (uint32_t[]){2}, 1) == CG_DONE, "push c");
  expect(push(&q, 1, 10, 1, NULL, 0) == CG_DONE, "push a");
  expect(push(&q, 2, 20, 7, (uint32_t[]){1, 1}, 2) == CG_DONE, "push b, which names a twice");
  expect(push(&q, 4, 40, UINT64_MAX, NULL, 0) == CG_DONE, "push d");
  return q;
}

static Graph graph_with(uint32_t changes) {
  Graph g = graph_of(4, 4, 3, 0xEE);
  expect(open_graph(&g, 2) == CG_DONE, "open a graph");
  for (uint32_t k = 0; k < changes; k++) {
    expect(add(&g, k + 1, 0, k + 1, k + 1, 1, (uint32_t[]){k}, k > 0) == CG_DONE, "add to the graph");
  }
  return g;
}

/* ---- opening and pushing */

static void opening(void) {
  for (size_t room = 0; room <= CG_WAITING + 1; room += room == 0 ? 1 : room == 1 ? CG_WAITING - 1 : 1) {
    Queue q = queue_of(room, 0xEE);
    uint8_t *before = queue_copy(&q);
    uint32_t r = cg_queue_open(QUEUE(&q));
    if (room > CG_WAITING) {
      expect(r == CG_NOT_VALID && queue_same(&q, before), "more room than 256");
    } else {
      expect(r == CG_DONE && q.count[0] == 0, "open");
      q.count[0] = 0xEEEEEEEEu;
      expect(queue_same(&q, before), "opening changes the count alone");
    }
    queue_free(&q);
  }
}

static void pushing(void) {
  Queue q = sample(5);
  uint8_t hash[33] = {0};
  uint32_t many[33];
  for (int i = 0; i < 33; i++) {
    many[i] = 9;
  }
  hash_of(5, hash);
  expect(q.count[0] == 4 && stands(&q, 0, 3) && stands(&q, 1, 1) && stands(&q, 2, 2) && stands(&q, 3, 4), "the pushed ones in their order");
  expect(q.numbers[0] == 30 && q.numbers[11] == 7 && q.numbers[4] == 1 && q.numbers[14] == 2 && q.numbers[16] == UINT64_MAX, "keys, sequences and counts");
  expect(q.deps[1024] == 0xEE && q.deps[32] == 0xEE && q.deps[2 * 1024 + 64] == 0xEE, "bytes past the dependencies stay");

  uint8_t *before = queue_copy(&q);
  expect(cg_batch_push(QUEUE(&q), hash, 31, 30, 1, 1, 1, hash, 0) == CG_MALFORMED, "a hash of 31 bytes, before 16");
  expect(cg_batch_push(QUEUE(&q), hash, 33, 30, 1, 1, 1, hash, 0) == CG_MALFORMED, "a hash of 33 bytes");
  expect(cg_batch_push(QUEUE(&q), hash, 32, 30, 1, 1, 1, hash, 31) == CG_MALFORMED, "a list of 31 bytes");
  expect(push(&q, 4, 40, UINT64_MAX, NULL, 0) == CG_ALREADY_KNOWN, "the batch has the hash, and the key and sequence");
  expect(push(&q, 5, 30, 1, many, 33) == CG_ALREADY_WAITING, "the batch has the key and sequence, before 8");
  expect(push(&q, 5, 50, 1, many, 33) == CG_MANY_DEPENDENCIES, "33 dependencies");
  expect(queue_same(&q, before), "a refused push leaves every byte");

  expect(push(&q, 5, 30, 0, many, 32) == CG_DONE && q.count[0] == 5 && q.numbers[24] == 32, "32 dependencies, sequence 0, the last place");
  before = queue_copy(&q);
  expect(push(&q, 6, 60, 1, many, 33) == CG_MANY_DEPENDENCIES, "33 dependencies and no room");
  expect(push(&q, 6, 60, 1, NULL, 0) == CG_NO_QUEUE_ROOM, "no room");
  expect(queue_same(&q, before), "no room leaves every byte");
  queue_free(&q);

  Queue most = queue_of(CG_WAITING, 0);
  expect(cg_queue_open(QUEUE(&most)) == CG_DONE, "open the largest");
  for (uint32_t k = 0; k < CG_WAITING; k++) {
    expect(push(&most, k + 1, 1, k, NULL, 0) == CG_DONE, "256 wait");
  }
  before = queue_copy(&most);
  expect(push(&most, 257, 1, 256, NULL, 0) == CG_NO_QUEUE_ROOM, "the 257th");
  expect(queue_same(&most, before), "the 257th leaves every byte");
  queue_free(&most);
}

/* ---- handing over */

static void handing(void) {
  Queue q = queue_of(6, 0xAA), batch = sample(4);
  expect(cg_queue_open(QUEUE(&q)) == CG_DONE, "open a queue");
  uint8_t *records = queue_copy(&batch);
  expect(cg_hand_over(QUEUE(&q), QUEUE(&batch)) == CG_DONE && q.count[0] == 4 && batch.count[0] == 0, "hand over");
  expect(stands(&q, 0, 3) && stands(&q, 1, 1) && stands(&q, 2, 2) && stands(&q, 3, 4), "all in their order");
  expect(q.deps[32] == 0xAA && q.hashes[4 * 32] == 0xAA && q.numbers[20] == 0xAAAAAAAAAAAAAAAAu, "bytes past the records stay");
  batch.count[0] = 4;
  expect(queue_same(&batch, records), "of the batch the count alone changes");

  uint8_t *before = queue_copy(&q);
  records = queue_copy(&batch);
  expect(cg_hand_over(QUEUE(&q), QUEUE(&batch)) == CG_ALREADY_WAITING, "the same batch again, and no room");
  expect(queue_same(&batch, records), "a clash leaves the batch");
  expect(cg_queue_open(QUEUE(&batch)) == CG_DONE && push(&batch, 5, 50, 1, NULL, 0) == CG_DONE && push(&batch, 6, 20, 7, NULL, 0) == CG_DONE, "a batch of two");
  records = queue_copy(&batch);
  expect(cg_hand_over(QUEUE(&q), QUEUE(&batch)) == CG_ALREADY_WAITING, "a key and sequence that wait");
  expect(queue_same(&batch, records), "a clash of key and sequence leaves the batch");
  expect(cg_queue_open(QUEUE(&batch)) == CG_DONE, "open again");
  for (uint32_t n = 5; n < 8; n++) {
    expect(push(&batch, n, n, 1, NULL, 0) == CG_DONE, "a batch of three");
  }
  records = queue_copy(&batch);
  expect(cg_hand_over(QUEUE(&q), QUEUE(&batch)) == CG_NO_QUEUE_ROOM, "seven into room for six");
  expect(queue_same(&batch, records), "no room leaves the batch");
  expect(queue_same(&q, before), "a batch that is refused leaves the queue");

  batch.count[0] = 2;
  expect(cg_hand_over(QUEUE(&q), QUEUE(&batch)) == CG_DONE && q.count[0] == 6 && stands(&q, 5, 6), "two more fill the queue");
  expect(cg_hand_over(QUEUE(&q), QUEUE(&batch)) == CG_DONE && q.count[0] == 6, "an empty batch into a full queue");
  queue_free(&q);
  queue_free(&batch);
}

/* ---- questions */

static void asking(void) {
  Queue q = sample(4);
  uint8_t *before = queue_copy(&q);
  uint64_t *told = guarded(16, 0);
  uint8_t hash[33] = {0};
  hash_of(2, hash);
  told[0] = UNTOLD, told[1] = UNTOLD;
  expect(cg_queue_has_hash(QUEUE(&q), hash, 31, told, 2) == CG_MALFORMED && told[0] == UNTOLD, "a hash of 31 bytes");
  expect(cg_queue_has_hash(QUEUE(&q), hash, 33, told, 2) == CG_MALFORMED && told[0] == UNTOLD, "a hash of 33 bytes");
  expect(cg_queue_has_hash(QUEUE(&q), hash, 32, told, 2) == CG_DONE && told[0] == 1 && told[1] == UNTOLD, "a hash that waits");
  hash_of(5, hash);
  expect(cg_queue_has_hash(QUEUE(&q), hash, 32, told + 1, 1) == CG_DONE && told[1] == 0, "a hash that does not wait");
  expect(cg_queue_has_hash(QUEUE(&q), hash, 32, told + 2, 0) == CG_DONE, "a hash, with no place");
  expect(cg_queue_has_actor_seq(QUEUE(&q), 20, 7, told, 1) == CG_DONE && told[0] == 1, "a key and sequence that wait");
  expect(cg_queue_has_actor_seq(QUEUE(&q), 7, 20, told, 1) == CG_DONE && told[0] == 0, "the other way round");
  expect(cg_queue_has_actor_seq(QUEUE(&q), 40, UINT64_MAX, told, 2) == CG_DONE && told[0] == 1, "the largest sequence");
  expect(cg_queue_has_actor_seq(QUEUE(&q), 20, 7, told + 2, 0) == CG_DONE, "a key and sequence, with no place");
  expect(cg_queue_is_empty(QUEUE(&q), told, 1) == CG_DONE && told[0] == 0, "four wait");
  expect(cg_queue_is_empty(QUEUE(&q), told + 2, 0) == CG_DONE, "empty or not, with no place");
  expect(queue_same(&q, before), "questions leave every byte");

  /* all records, into tables of the exact length, one short and one long */
  for (int table = -1; table < 3; table++) {
    for (int more = -1; more <= 1; more += 2) {
      size_t len[3] = {4 * 32, 4 * 5, 4 * 1024};
      if (table >= 0) {
        len[table] += (size_t)more;
      }
      Queue to = queue_long(len[0], len[1], len[2], 0, 0xAA);
      uint8_t *answer = queue_copy(&to);
      told[0] = UNTOLD, told[1] = UNTOLD;
      uint32_t r = cg_queue_iter(QUEUE(&q), ANSWER(&to), told, 2);
      if (table >= 0 && more < 0) {
        expect(r == CG_SHORT_BUFFER && told[0] == UNTOLD && queue_same(&to, answer), "an answer table one short");
      } else {
        expect(r == CG_DONE && told[0] == 4 && told[1] == UNTOLD, "all records, and how many");
        expect(stands(&to, 0, 3) && stands(&to, 1, 1) && stands(&to, 2, 2) && stands(&to, 3, 4), "all records in queue order");
        expect(memcmp(to.numbers, q.numbers, 160) == 0 && memcmp(to.deps, q.deps, 32) == 0 && to.deps[32] == 0xAA && to.deps[1024] == 0xAA, "whole records, and nothing else");
        expect(table != 0 || to.hashes[128] == 0xAA, "a byte past the answer stays");
        free(answer);
      }
      queue_free(&to);
    }
  }
  q.count[0] = 0;
  Queue none = queue_long(0, 0, 0, 0, 0);
  expect(cg_queue_iter(QUEUE(&q), ANSWER(&none), told, 1) == CG_DONE && told[0] == 0, "nothing, into no room");
  expect(cg_queue_is_empty(QUEUE(&q), told, 1) == CG_DONE && told[0] == 1, "nothing waits");
  queue_free(&none);
  queue_free(&q);
  unguard(told, 16);
}

/* ---- dropping */

static void dropping(void) {
  Queue q = sample(5);
  uint8_t *before = queue_copy(&q);
  expect(cg_remove_actor_branch_from(QUEUE(&q), 50, 0) == CG_DONE, "an unknown key");
  expect(cg_remove_actor_branch_from(QUEUE(&q), 20, 8) == CG_DONE, "a sequence after the last");
  expect(queue_same(&q, before), "dropping nothing leaves every byte");
  expect(cg_remove_actor_branch_from(QUEUE(&q), 20, 7) == CG_DONE && q.count[0] == 2 && stands(&q, 0, 1) && stands(&q, 1, 4), "b, and c that depends on it");
  expect(stands(&q, 2, 2) && q.hashes[4 * 32] == 0xEE, "what lies past the rest stays");
  expect(cg_remove_actor_branch_from(QUEUE(&q), 40, 0) == CG_DONE && q.count[0] == 1 && stands(&q, 0, 1), "sequence 0 drops all of a key");
  queue_free(&q);
}

/* ---- releasing */

static void releasing(void) {
  uint64_t *told = guarded(16, 0);
  /* into tables of the exact length, one short and one long */
  for (int table = -1; table < 3; table++) {
    for (int more = -1; more <= 1; more += 2) {
      size_t len[3] = {4 * 32, 4 * 5, 4 * 1024};
      if (table >= 0) {
        len[table] += (size_t)more;
      }
      Graph g = graph_with(0);
      Queue q = sample(5), to = queue_long(len[0], len[1], len[2], 0, 0xAA);
      uint8_t *before = queue_copy(&q), *answer = queue_copy(&to);
      told[0] = UNTOLD, told[1] = UNTOLD;
      uint32_t r = cg_release(GRAPH(&g), QUEUE(&q), ANSWER(&to), told, 2);
      if (table >= 0 && more < 0) {
        expect(r == CG_SHORT_BUFFER && told[0] == UNTOLD, "a release into a table one short");
        expect(queue_same(&to, answer) && queue_same(&q, before), "15 leaves every byte");
      } else {
        expect(r == CG_DONE && told[0] == 4 && told[1] == UNTOLD && q.count[0] == 0, "four are released");
        expect(stands(&to, 0, 1) && stands(&to, 1, 4) && stands(&to, 2, 2) && stands(&to, 3, 3), "in ready order: a, d, b, c");
        expect(to.numbers[14] == 2 && memcmp(to.deps + 2 * 1024, to.deps + 2 * 1024 + 32, 32) == 0 && to.deps[0] == 0xAA && to.deps[2 * 1024 + 64] == 0xAA, "with their dependencies, and nothing else");
        q.count[0] = 4;
        expect(queue_same(&q, before), "of the queue the count alone changes");
        free(answer);
      }
      queue_free(&q);
      queue_free(&to);
    }
  }
  /* what is known holds nobody up; what is not waits on, and closes up */
  Graph g = graph_with(1);
  Queue q = queue_of(4, 0xEE), to = queue_of(4, 0xAA);
  expect(cg_queue_open(QUEUE(&q)) == CG_DONE, "open");
  expect(push(&q, 8, 8, 1, (uint32_t[]){9}, 1) == CG_DONE && push(&q, 2, 2, 1, (uint32_t[]){1}, 1) == CG_DONE && push(&q, 7, 7, 1, (uint32_t[]){7}, 1) == CG_DONE, "push three");
  expect(cg_release(GRAPH(&g), QUEUE(&q), ANSWER(&to), told, 1) == CG_DONE && told[0] == 1 && stands(&to, 0, 2), "the graph's change is known");
  expect(q.count[0] == 2 && stands(&q, 0, 8) && stands(&q, 1, 7), "the rest closes up");
  expect(cg_release(GRAPH(&g), QUEUE(&q), ANSWER(&to), told, 1) == CG_DONE && told[0] == 0 && q.count[0] == 2, "nothing more is ready: one names itself");
  expect(cg_release(GRAPH(&g), QUEUE(&q), ANSWER(&to), told + 2, 0) == CG_DONE, "no place for the count");
  uint8_t *before = queue_copy(&q);
  told[0] = UNTOLD;

  /* a graph that is not valid: one field damaged at a time */
  struct {
    uint32_t *at;
    uint32_t value;
  } harm[] = {{&g.counts[0], 5}, {&g.counts[0], UINT32_MAX}, {&g.counts[1], 1}, {&g.counts[2], 4}, {&g.counts[2], 0}, {&g.nodes[0], 2}, {&g.nodes[1], 2}, {&g.nodes[3], 2}, {&g.nodes[4], 1}, {&g.nodes[5], 0}, {&g.clocks[0], 2}};
  uint8_t *answer = queue_copy(&to);
  for (size_t i = 0; i < sizeof harm / sizeof *harm; i++) {
    uint32_t was = *harm[i].at;
    *harm[i].at = harm[i].value;
    expect(cg_release(GRAPH(&g), QUEUE(&q), ANSWER(&to), told, 1) == CG_NOT_VALID && told[0] == UNTOLD, "a graph that is not valid");
    *harm[i].at = was;
  }
  Graph twice = graph_with(2);
  memcpy(twice.hashes + 32, twice.hashes, 32);
  expect(cg_release(GRAPH(&twice), QUEUE(&q), ANSWER(&to), told, 1) == CG_NOT_VALID && told[0] == UNTOLD, "a graph that has a hash twice");
  Graph many = graph_of(4097, 4, 3, 0);
  expect(cg_release(GRAPH(&many), QUEUE(&q), ANSWER(&to), told, 1) == CG_NOT_VALID && told[0] == UNTOLD, "a graph with more room than 4,096");
  size_t right[5] = {128, 24, 4, 12, 3}; /* 127 bytes of hashes end inside the fourth */
  for (int t = 0; t < 5; t++) {
    for (int more = -1; more <= 1; more += 2) {
      size_t n[5];
      memcpy(n, right, sizeof n);
      n[t] += (size_t)more;
      if (t == 2) {
        n[t] = more < 0 ? 0 : 16385; /* any edge room is right up to 16,384, if it holds the edges */
        if (more < 0) {
          continue;
        }
      }
      uint8_t *hashes = guarded(n[0], 0);
      uint32_t *nodes = guarded(4 * n[1], 0), *clocks = guarded(4 * n[3], 0), *counts = guarded(4 * n[4], 0);
      cg_edge *edges = guarded(sizeof(cg_edge) * n[2], 0);
      expect(cg_release(hashes, n[0], nodes, n[1], edges, n[2], clocks, n[3], counts, n[4], QUEUE(&q), ANSWER(&to), told, 1) == CG_NOT_VALID && told[0] == UNTOLD, "a graph's length that disagrees");
      unguard(hashes, n[0]), unguard(nodes, 4 * n[1]), unguard(edges, sizeof(cg_edge) * n[2]), unguard(clocks, 4 * n[3]), unguard(counts, 4 * n[4]);
    }
  }
  expect(queue_same(&q, before) && queue_same(&to, answer), "a graph that is not valid leaves queue and answer");
  Graph most = graph_of(4096, 4, 3, 0);
  expect(cg_release(GRAPH(&most), QUEUE(&q), ANSWER(&to), told, 1) == CG_DONE && told[0] == 0, "room for 4,096 changes, none of them known");
  queue_free(&q);
  queue_free(&to);
  unguard(told, 16);
}

/* ---- queues that are not valid */

/* Every operation answers 1, also where another number would come next, and leaves every byte of all that is lent. */
static void all_refuse(Queue *bad, int opens, const char *what) {
  Graph g = graph_with(1);
  Queue good = sample(4), none = queue_long(0, 0, 0, 0, 0);
  uint64_t told[1] = {UNTOLD};
  uint8_t hash[32] = {0}, *before = queue_copy(bad), *other = queue_copy(&good);
  expect(cg_batch_push(QUEUE(bad), hash, 31, 30, 1, 1, 1, hash, 0) == CG_NOT_VALID, what);
  expect(cg_hand_over(QUEUE(bad), QUEUE(&good)) == CG_NOT_VALID, what);
  expect(cg_hand_over(QUEUE(&good), QUEUE(bad)) == CG_NOT_VALID, what);
  expect(cg_queue_is_empty(QUEUE(bad), told, 1) == CG_NOT_VALID, what);
  expect(cg_queue_has_hash(QUEUE(bad), hash, 31, told, 1) == CG_NOT_VALID, what);
  expect(cg_queue_has_actor_seq(QUEUE(bad), 30, 1, told, 1) == CG_NOT_VALID, what);
  expect(cg_queue_iter(QUEUE(bad), ANSWER(&none), told, 1) == CG_NOT_VALID, what);
  expect(cg_remove_actor_branch_from(QUEUE(bad), 30, 0) == CG_NOT_VALID, what);
  expect(cg_release(GRAPH(&g), QUEUE(bad), ANSWER(&none), told, 1) == CG_NOT_VALID, what);
  expect(opens || cg_queue_open(QUEUE(bad)) == CG_NOT_VALID, what);
  expect(queue_same(bad, before) && queue_same(&good, other) && told[0] == UNTOLD, what);
  queue_free(&good);
}

static void damaged(void) {
  Queue q = sample(5);
  q.count[0] = 6;
  all_refuse(&q, 1, "more records than room");
  q.count[0] = UINT32_MAX;
  all_refuse(&q, 1, "the largest count");
  q.count[0] = 4;
  for (int i = 0; i < 4; i++) {
    uint64_t was = q.numbers[5 * i + 4];
    q.numbers[5 * i + 4] = 33;
    all_refuse(&q, 1, "33 dependencies");
    q.numbers[5 * i + 4] = UINT64_MAX;
    all_refuse(&q, 1, "the largest number of dependencies");
    q.numbers[5 * i + 4] = was;
  }
  uint8_t hash[32];
  memcpy(hash, q.hashes + 3 * 32, 32);
  memcpy(q.hashes + 3 * 32, q.hashes, 32);
  all_refuse(&q, 1, "a hash twice");
  memcpy(q.hashes + 3 * 32, hash, 32);
  q.numbers[16] = 1, q.numbers[15] = 30;
  all_refuse(&q, 1, "an actor key and sequence twice");
  q.numbers[16] = UINT64_MAX;
  uint64_t told[1] = {UNTOLD};
  expect(cg_queue_is_empty(QUEUE(&q), told, 1) == CG_DONE, "a key twice with two sequences is right");
  q.numbers[15] = 40;
  memset(q.numbers + 20, 0xFF, 40);
  memcpy(q.hashes + 4 * 32, q.hashes, 32);
  expect(cg_queue_is_empty(QUEUE(&q), told, 1) == CG_DONE, "what lies past the count is not looked at");
  queue_free(&q);
}

static void lengths(void) {
  for (int table = 0; table < 4; table++) {
    for (int more = -1; more <= 1; more += 2) {
      size_t len[4] = {4 * 32, 4 * 5, 4 * 1024, 1};
      len[table] += (size_t)more;
      Queue q = queue_long(len[0], len[1], len[2], len[3], 0);
      all_refuse(&q, 0, "a table one short or one long");
      queue_free(&q);
    }
  }
  for (int table = 0; table < 3; table++) {
    size_t len[3] = {4 * 32, 4 * 5, 4 * 1024};
    len[table] += len[table] / 4;
    Queue q = queue_long(len[0], len[1], len[2], 1, 0);
    all_refuse(&q, 0, "a table with a record more");
    queue_free(&q);
  }
  Queue most = queue_of(CG_WAITING + 1, 0);
  all_refuse(&most, 0, "more room than 256");
  queue_free(&most);
}

int main(void) {
  opening();
  pushing();
  handing();
  asking();
  dropping();
  releasing();
  damaged();
  lengths();
  return summed_up("batch and queue");
}
