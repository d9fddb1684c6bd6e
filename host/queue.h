/* The tables of a queue, a batch or an answer for the tests, each ending at a guard page. */
#ifndef QUEUE_H
#define QUEUE_H

#include "graph.h"

typedef struct Queue {
  uint8_t *hashes;
  uint64_t *numbers;
  uint8_t *deps;
  uint32_t *count;
  size_t len[4]; /* elements of each */
} Queue;

static const size_t queue_width[4] = {1, 8, 1, 4};

#define QUEUE(q) (q)->hashes, (q)->len[0], (q)->numbers, (q)->len[1], (q)->deps, (q)->len[2], (q)->count, (q)->len[3]
#define ANSWER(q) (q)->hashes, (q)->len[0], (q)->numbers, (q)->len[1], (q)->deps, (q)->len[2]

/* Tables of these lengths, filled. */
static inline Queue queue_long(size_t hashes, size_t numbers, size_t deps, size_t count, int fill) {
  Queue q = {guarded(hashes, fill), guarded(8 * numbers, fill), guarded(deps, fill), guarded(4 * count, fill), {hashes, numbers, deps, count}};
  return q;
}

static inline Queue queue_of(size_t room, int fill) { return queue_long(CG_HASH * room, CG_NUMBERS * room, CG_DEPS * room, 1, fill); }

static inline void *queue_table(const Queue *q, int table) {
  void *tables[4] = {q->hashes, q->numbers, q->deps, q->count};
  return tables[table];
}

static inline void queue_free(Queue *q) {
  for (int i = 0; i < 4; i++) {
    unguard(queue_table(q, i), queue_width[i] * q->len[i]);
  }
}

static inline size_t queue_size(const Queue *q) {
  size_t size = 0;
  for (int i = 0; i < 4; i++) {
    size += queue_width[i] * q->len[i];
  }
  return size;
}

/* A copy of all bytes of the tables, to be compared afterwards. */
static inline uint8_t *queue_copy(const Queue *q) {
  uint8_t *copy = malloc(queue_size(q) + 1);
  size_t at = 0;
  for (int i = 0; i < 4; i++) {
    memcpy(copy + at, queue_table(q, i), queue_width[i] * q->len[i]);
    at += queue_width[i] * q->len[i];
  }
  return copy;
}

/* Whether all bytes are those of the copy, which is freed. */
static inline int queue_same(const Queue *q, uint8_t *before) {
  uint8_t *after = queue_copy(q);
  int same = memcmp(before, after, queue_size(q)) == 0;
  free(after);
  free(before);
  return same;
}

/* Pushes the change of a number, on those of other numbers. */
static inline uint32_t push(Queue *q, uint32_t n, uint64_t key, uint64_t sequence, const uint32_t *on, size_t on_len) {
  uint8_t hash[32], dependencies[64 * 32];
  hash_of(n, hash);
  for (size_t i = 0; i < on_len; i++) {
    hash_of(on[i], dependencies + 32 * i);
  }
  return cg_batch_push(QUEUE(q), hash, 32, key, sequence, 10 * n, n, dependencies, 32 * on_len);
}

/* Whether record i is the change of a number. */
static inline int stands(const Queue *q, size_t i, uint32_t n) {
  uint8_t hash[32];
  hash_of(n, hash);
  return memcmp(q->hashes + 32 * i, hash, 32) == 0 && q->numbers[5 * i + 2] == 10 * n && q->numbers[5 * i + 3] == n;
}

#endif
