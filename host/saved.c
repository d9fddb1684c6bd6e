/* Saves a hub's record to a file and reads it back, for a hub to copy: saved.h says what each answer leaves, docs/SAVING.md why it is done in this order. */
#ifndef _POSIX_C_SOURCE
#define _POSIX_C_SOURCE 200809L
#endif
#include "saved.h"

#include <errno.h>
#include <fcntl.h>
#include <stdio.h>
#include <string.h>
#include <sys/stat.h>
#include <unistd.h>

/* The start of an image; after it the parts in the order of put_record, then the checksum. Numbers are in the processor's byte order, which `order` shows. */
typedef struct Head {
  char magic[8];
  uint32_t version;
  uint32_t order;
  uint32_t changes;
  uint32_t edges;
  uint32_t actors;
  uint32_t waiting;
  uint32_t dependencies; /* of all that wait */
} Head;

_Static_assert(sizeof(Head) == 36 && sizeof(cg_edge) == 8, "an image has no gaps");

static const Head empty_head = {{'c', 'g', 's', 'a', 'v', 'e', 'd', '1'}, CG_VERSION, 0x01020304, 0, 0, 0, 0, 0};

enum { BUFFER = 4096, NAME = 4096 };

const char *saved_text(int answer) {
  switch (answer) {
  case SAVED_DONE:
    return "done";
  case SAVED_NO_FILE:
    return "no such file";
  case SAVED_NOT_OURS:
    return "no saved record, or one of another version or byte order";
  case SAVED_TORN:
    return "torn or changed";
  case SAVED_TOO_LARGE:
    return "too large for the tables";
  case SAVED_NOT_VALID:
    return "the record is not valid";
  case SAVED_SYSTEM:
    return "the system refused";
  default:
    return "no answer of saving";
  }
}

/* CRC-32 as in zip and PNG, four bits at a time; 0 to start with. */
static uint32_t summed(uint32_t sum, const uint8_t *bytes, size_t size) {
  static const uint32_t step[16] = {0x00000000, 0x1DB71064, 0x3B6E20C8, 0x26D930AC, 0x76DC4190, 0x6B6B51F4, 0x4DB26158, 0x5005713C,
                                    0xEDB88320, 0xF00F9344, 0xD6D6A3E8, 0xCB61B38C, 0x9B64C2B0, 0x86D3D2D4, 0xA00AE278, 0xBDBDF21C};
  sum = ~sum;
  for (size_t i = 0; i < size; i++) {
    sum ^= bytes[i];
    sum = sum >> 4 ^ step[sum & 15];
    sum = sum >> 4 ^ step[sum & 15];
  }
  return ~sum;
}

/* Whether graph and queue are valid, and each actor has a key of its own. */
static int is_valid(const cg_graph *g, const cg_queue *q, const cg_keys *keys) {
  uint64_t actors = 0;
  if (cg_hub_num_actors(g, &actors) != CG_DONE || cg_hub_queue_is_empty(q, NULL) != CG_DONE || actors != keys->count) {
    return 0;
  }
  for (uint64_t actor = 0; actor < actors; actor++) {
    if (cg_actor_of(keys, keys->key[actor]) != actor) {
      return 0;
    }
  }
  return 1;
}

static int opened(const char *path, int flags) {
  int file;
  do {
    file = open(path, flags | O_CLOEXEC, S_IRUSR | S_IWUSR);
  } while (file < 0 && errno == EINTR);
  return file;
}

static int made_lasting(int file) {
  int answer;
  do {
    answer = fsync(file);
  } while (answer != 0 && errno == EINTR);
  return answer == 0;
}

/* Closes; errno stays. */
static void let_go(int file) {
  int why = errno;
  close(file);
  errno = why;
}

/* ---- writing */

typedef struct Out {
  int file;
  int failed;
  uint32_t sum; /* of all that was put */
  size_t held;
  uint8_t buffer[BUFFER];
} Out;

/* Writes what is held, in as many pieces as the system takes. */
static void pass_on(Out *out) {
  size_t at = 0;
  while (!out->failed && at < out->held) {
    ssize_t wrote = write(out->file, out->buffer + at, out->held - at);
    if (wrote > 0) {
      at += (size_t)wrote;
    } else if (wrote == 0) {
      errno = EIO;
      out->failed = 1;
    } else if (errno != EINTR) {
      out->failed = 1;
    }
  }
  out->held = 0;
}

static void put(Out *out, const void *from, size_t size) {
  const uint8_t *bytes = from;
  out->sum = summed(out->sum, bytes, size);
  while (size > 0) {
    size_t part = BUFFER - out->held;
    if (part > size) {
      part = size;
    }
    memcpy(out->buffer + out->held, bytes, part);
    out->held += part;
    bytes += part;
    size -= part;
    if (out->held == BUFFER) {
      pass_on(out);
    }
  }
}

/* The image of a valid record. */
static void put_record(Out *out, const cg_graph *g, const cg_queue *q, const cg_keys *keys) {
  Head head = empty_head;
  head.changes = g->counts[0];
  head.edges = g->counts[1];
  head.actors = g->counts[2];
  head.waiting = q->count[0];
  for (size_t i = 0; i < head.waiting; i++) {
    head.dependencies += (uint32_t)(cg_change_at(q, i).dependencies.bytes / CG_HASH);
  }
  put(out, &head, sizeof head);
  put(out, g->hashes, CG_HASH * (size_t)head.changes);
  put(out, g->nodes, sizeof *g->nodes * CG_NODE * head.changes);
  put(out, g->edges, sizeof *g->edges * head.edges);
  put(out, keys->key, sizeof *keys->key * head.actors);
  put(out, q->hashes, CG_HASH * (size_t)head.waiting);
  put(out, q->numbers, sizeof *q->numbers * CG_NUMBERS * head.waiting);
  for (size_t i = 0; i < head.waiting; i++) {
    cg_list dependencies = cg_change_at(q, i).dependencies;
    put(out, dependencies.hashes, dependencies.bytes);
  }
  uint32_t sum = out->sum;
  put(out, &sum, sizeof sum);
  pass_on(out);
}

/* Writes the image to a file of that name, and does not come back before it is on the disk. */
static int wrote_file(const char *name, const cg_graph *g, const cg_queue *q, const cg_keys *keys) {
  Out out = {.file = opened(name, O_WRONLY | O_CREAT | O_TRUNC)};
  if (out.file < 0) {
    return 0;
  }
  put_record(&out, g, q, keys);
  if (out.failed || !made_lasting(out.file)) {
    let_go(out.file);
    return 0;
  }
  /* Interrupted or not, the file is closed then. */
  return close(out.file) == 0 || errno == EINTR;
}

/* Opens the directory of the path, which was seen to fit the name. */
static int opened_directory(const char *path, char *name) {
  const char *slash = strrchr(path, '/');
  if (slash == NULL) {
    return opened(".", O_RDONLY | O_DIRECTORY);
  }
  size_t size = slash == path ? 1 : (size_t)(slash - path);
  memcpy(name, path, size);
  name[size] = 0;
  return opened(name, O_RDONLY | O_DIRECTORY);
}

int saved_write(const char *path, const cg_graph *g, const cg_queue *q, const cg_keys *keys) {
  static const char beside[] = ".new";
  char name[NAME];
  size_t size = strlen(path);
  if (!is_valid(g, q, keys)) {
    return SAVED_NOT_VALID;
  }
  if (size > sizeof name - sizeof beside) {
    errno = ENAMETOOLONG;
    return SAVED_SYSTEM;
  }
  int directory = opened_directory(path, name);
  if (directory < 0) {
    return SAVED_SYSTEM;
  }
  memcpy(name, path, size);
  memcpy(name + size, beside, sizeof beside);
  int done = wrote_file(name, g, q, keys) && rename(name, path) == 0 && made_lasting(directory);
  if (!done) {
    int why = errno;
    unlink(name);
    errno = why;
  }
  let_go(directory);
  return done ? SAVED_DONE : SAVED_SYSTEM;
}

/* ---- reading */

typedef struct In {
  int file;
  int failed;   /* the system refused */
  uint32_t sum; /* of all that was taken */
  size_t at;
  size_t held;
  uint8_t buffer[BUFFER];
} In;

/* Fills the buffer anew; 0 at the end of the file, and where the system refused. */
static int filled(In *in) {
  ssize_t got;
  do {
    got = read(in->file, in->buffer, BUFFER);
  } while (got < 0 && errno == EINTR);
  in->failed = got < 0;
  in->at = 0;
  in->held = got > 0 ? (size_t)got : 0;
  return got > 0;
}

/* Takes the next bytes, to nowhere where `to` is null; 0 where they are not there. */
static int take(In *in, void *to, uint64_t size) {
  uint8_t *place = to;
  while (size > 0) {
    if (in->at == in->held && !filled(in)) {
      return 0;
    }
    size_t part = in->held - in->at;
    if (part > size) {
      part = (size_t)size;
    }
    if (place != NULL) {
      memcpy(place, in->buffer + in->at, part);
      place += part;
    }
    in->sum = summed(in->sum, in->buffer + in->at, part);
    in->at += part;
    size -= part;
  }
  return 1;
}

/* Whether the checksum stands here, is right, and nothing comes after it. */
static int ends_right(In *in) {
  uint32_t right = in->sum, sum = 0;
  return take(in, &sum, sizeof sum) && sum == right && in->at == in->held && !filled(in) && !in->failed;
}

/* Bytes between head and checksum. Whatever the counts are, the sum does not overflow. */
static uint64_t parts_of(const Head *head) {
  return (uint64_t)head->changes * (CG_HASH + sizeof(uint32_t) * CG_NODE) + (uint64_t)head->edges * sizeof(cg_edge) + (uint64_t)head->actors * sizeof(uint64_t) +
         (uint64_t)head->waiting * (CG_HASH + sizeof(uint64_t) * CG_NUMBERS) + (uint64_t)head->dependencies * CG_HASH;
}

/* Whether the lengths of the tables agree and they have room. Opening writes the counts alone: here it is lent others, and the tables stay. */
static int have_room(const Head *head, const cg_graph *g, const cg_queue *q) {
  uint32_t counts[CG_COUNTS], count[1];
  cg_graph graph = *g;
  cg_queue queue = *q;
  graph.counts = counts;
  queue.count = count;
  return g->counts_len == CG_COUNTS && q->count_len == 1 && cg_hub_open(&graph, head->actors) == CG_DONE && cg_hub_queue_open(&queue) == CG_DONE &&
         head->changes <= g->hashes_len / CG_HASH && head->edges <= g->edges_len && head->waiting <= q->hashes_len / CG_HASH;
}

/* The first pass: what is wrong with the file, and nothing lent is touched. Its length is asked before it is read: nonsense in the counts may make a very long one. */
static int looked_over(In *in, Head *head, const cg_graph *g, const cg_queue *q) {
  struct stat is;
  if (!take(in, head, sizeof *head)) {
    return in->failed ? SAVED_SYSTEM : SAVED_TORN;
  }
  if (memcmp(head->magic, empty_head.magic, sizeof head->magic) != 0 || head->version != empty_head.version || head->order != empty_head.order) {
    return SAVED_NOT_OURS;
  }
  if (fstat(in->file, &is) != 0) {
    return SAVED_SYSTEM;
  }
  if ((uint64_t)is.st_size != sizeof *head + parts_of(head) + sizeof in->sum || !take(in, NULL, parts_of(head)) || !ends_right(in)) {
    return in->failed ? SAVED_SYSTEM : SAVED_TORN;
  }
  return have_room(head, g, q) ? SAVED_DONE : SAVED_TOO_LARGE;
}

/* The second pass: the parts to their places. 0 where the file is not what the first pass saw, or a change that waits has more dependencies than its row holds. */
static int put_in_place(In *in, const Head *head, const cg_graph *g, const cg_queue *q, cg_keys *keys) {
  Head again;
  if (!take(in, &again, sizeof again) || memcmp(&again, head, sizeof again) != 0 || !take(in, g->hashes, CG_HASH * (size_t)head->changes) ||
      !take(in, g->nodes, sizeof *g->nodes * CG_NODE * head->changes) || !take(in, g->edges, sizeof *g->edges * head->edges) ||
      !take(in, keys->key, sizeof *keys->key * head->actors) || !take(in, q->hashes, CG_HASH * (size_t)head->waiting) ||
      !take(in, q->numbers, sizeof *q->numbers * CG_NUMBERS * head->waiting)) {
    return 0;
  }
  for (size_t i = 0; i < head->waiting; i++) {
    uint64_t dependencies = q->numbers[CG_NUMBERS * i + 4];
    if (dependencies > CG_DEPENDENCIES || !take(in, q->deps + CG_DEPS * i, CG_HASH * dependencies)) {
      return 0;
    }
  }
  if (head->changes > 0) {
    size_t row = g->clocks_len / (g->hashes_len / CG_HASH);
    memset(g->clocks, 0, sizeof *g->clocks * row * head->changes);
  }
  g->counts[0] = head->changes;
  g->counts[1] = head->edges;
  g->counts[2] = head->actors;
  q->count[0] = head->waiting;
  keys->count = head->actors;
  return ends_right(in);
}

/* The lengths were seen to agree, so both are opened. */
static void left_empty(const cg_graph *g, const cg_queue *q, cg_keys *keys) {
  uint32_t graph = cg_hub_open(g, 0), queue = cg_hub_queue_open(q);
  (void)graph;
  (void)queue;
  keys->count = 0;
}

int saved_read(const char *path, const cg_graph *g, const cg_queue *q, cg_keys *keys) {
  Head head;
  In in = {.file = opened(path, O_RDONLY)};
  if (in.file < 0) {
    return errno == ENOENT ? SAVED_NO_FILE : SAVED_SYSTEM;
  }
  int answer = looked_over(&in, &head, g, q);
  if (answer == SAVED_DONE && lseek(in.file, 0, SEEK_SET) != 0) {
    answer = SAVED_SYSTEM;
  }
  if (answer == SAVED_DONE) {
    in = (In){.file = in.file};
    if (!put_in_place(&in, &head, g, q, keys) || !is_valid(g, q, keys)) {
      left_empty(g, q, keys);
      answer = SAVED_NOT_VALID;
    }
  }
  let_go(in.file);
  return answer;
}
