/* Tests host/saved.c: a process that ends before each system call and inside a write after each byte, and a power loss there; each call failing; images of which each bit was
 * turned, or that were cut; what the tables' own check finds in such images when the checksum is right; records that are full, empty and not valid. The image is put
 * together here once more, by hand, as docs/SAVING.md has it. Lent tables end at a page that may not be touched.
 *
 *     saved_test [N]     N: inside a write the process ends at every N-th byte alone, which is for slow runs
 */
#include "guarded.h"

#include "check.h"

#include <errno.h>
#include <fcntl.h>
#include <sys/stat.h>
#include <sys/wait.h>

/* ---- the system as saved.c meets it here. Calls are counted from 1. */

enum { OPEN_DIRECTORY = 'd', OPEN = 'o', WRITE = 'w', FSYNC = 'f', CLOSE = 'c', RENAME = 'n', UNLINK = 'u', READ = 'r', SEEK = 's' };
enum { CALLS = 1024, NO_FILE = -1 };

/* What is lost at the end of the process: nothing, as where it is killed; file contents that were not made lasting; these and names. */
enum { NOTHING_LOST, CONTENTS_LOST, NAMES_LOST, LOSSES };

static struct {
  int refused;         /* the call that fails */
  int why;             /* its errno */
  int unlink_refused;  /* and unlink fails too */
  int ended;           /* the call before which the process ends */
  size_t inside;       /* or inside of which, after so many bytes */
  int lost;            /* what is lost then */
  size_t piece;        /* bytes that a call takes at most; 0 is any */
  int interrupted;     /* each call that can be is interrupted once */
  const char *swapped; /* a file that stands in the place of the read one from the second pass on */
} play;

static struct {
  int calls;
  char kind[CALLS];
  size_t size[CALLS];
  int again;
  char directory[64];
  /* what a power loss would take */
  int file, directory_file;
  int contents_lasting, names_lasting;
} seen;

static void play_nothing(void) {
  memset(&play, 0, sizeof play);
  memset(&seen, 0, sizeof seen);
  seen.file = seen.directory_file = NO_FILE;
  seen.contents_lasting = seen.names_lasting = 1;
}

/* The end of a process that saves to "record". */
static void end_here(int status) {
  if (play.lost != NOTHING_LOST && !seen.contents_lasting && ftruncate(seen.file, 0) != 0) {
    _exit(90);
  }
  if (play.lost == NAMES_LOST && !seen.names_lasting && rename("before", "record") != 0) {
    _exit(91);
  }
  _exit(status);
}

enum { ENDED = 40, SAVED = 41, NOT_SAVED = 42 };

/* Whether this call is to fail. */
static int fails(char kind, size_t size, int can_be_interrupted) {
  if (play.interrupted && can_be_interrupted && (seen.again = !seen.again)) {
    errno = EINTR;
    return 1;
  }
  seen.calls++;
  if (seen.calls < CALLS) {
    seen.kind[seen.calls] = kind;
    seen.size[seen.calls] = size;
  }
  if (seen.calls == play.ended && play.inside == 0) {
    end_here(ENDED);
  }
  errno = play.why;
  return seen.calls == play.refused;
}

static int played_open(const char *path, int flags, int mode) {
  if (fails(flags & O_DIRECTORY ? OPEN_DIRECTORY : OPEN, 0, 1)) {
    return -1;
  }
  int file = open(path, flags, mode);
  if (file >= 0 && flags & O_DIRECTORY) {
    seen.directory_file = file;
    snprintf(seen.directory, sizeof seen.directory, "%s", path);
  } else if (file >= 0 && flags & O_CREAT) {
    seen.file = play.lost != NOTHING_LOST ? dup(file) : NO_FILE;
    seen.contents_lasting = 0;
  }
  return file;
}

static ssize_t played_write(int file, const void *from, size_t size) {
  if (fails(WRITE, size, 1)) {
    return -1;
  }
  if (seen.calls == play.ended) {
    if (write(file, from, play.inside) != (ssize_t)play.inside) {
      _exit(92);
    }
    end_here(ENDED);
  }
  seen.contents_lasting = 0;
  return write(file, from, play.piece != 0 && play.piece < size ? play.piece : size);
}

/* A killed process loses nothing that was written, so nothing need go to the disk here. */
static int played_fsync(int file) {
  if (fails(FSYNC, 0, 1)) {
    return -1;
  }
  if (file == seen.directory_file) {
    seen.names_lasting = 1;
  } else {
    seen.contents_lasting = 1;
  }
  return 0;
}

/* What fails to close is closed all the same. */
static int played_close(int file) {
  int failed = fails(CLOSE, 0, 1), why = errno;
  close(file);
  errno = why;
  return failed ? -1 : 0;
}

static int played_rename(const char *from, const char *to) {
  if (fails(RENAME, 0, 0)) {
    return -1;
  }
  if (play.lost == NAMES_LOST) {
    unlink("before");
    if (link(to, "before") != 0) {
      _exit(93);
    }
    seen.names_lasting = 0;
  }
  return rename(from, to);
}

static int played_unlink(const char *path) {
  if (fails(UNLINK, 0, 0) || play.unlink_refused) {
    return -1;
  }
  return unlink(path);
}

static ssize_t played_read(int file, void *to, size_t size) {
  if (fails(READ, size, 1)) {
    return -1;
  }
  return read(file, to, play.piece != 0 && play.piece < size ? play.piece : size);
}

static off_t played_lseek(int file, off_t at, int whence) {
  if (fails(SEEK, 0, 0)) {
    return -1;
  }
  if (play.swapped != NULL) {
    int other = open(play.swapped, O_RDONLY);
    if (other < 0 || dup2(other, file) < 0 || close(other) != 0) {
      _exit(94);
    }
  }
  return lseek(file, at, whence);
}

#define open played_open
#define write played_write
#define fsync played_fsync
#define close played_close
#define rename played_rename
#define unlink played_unlink
#define read played_read
#define lseek played_lseek
#include "saved.c"
#undef open
#undef write
#undef fsync
#undef close
#undef rename
#undef unlink
#undef read
#undef lseek

/* ---- lent tables */

typedef struct Lent {
  cg_graph g;
  cg_queue q;
  cg_keys *keys;
} Lent;

typedef struct Room {
  size_t changes, edges, actors, waiting;
} Room;

static Lent lent_of(Room r, int fill) {
  Lent l;
  l.g = (cg_graph){guarded(32 * r.changes, fill), 32 * r.changes, guarded(24 * r.changes, fill), 6 * r.changes, guarded(8 * r.edges, fill), r.edges,
                   guarded(4 * r.changes * r.actors, fill), r.changes * r.actors, guarded(12, fill), 3};
  l.q = (cg_queue){guarded(32 * r.waiting, fill), 32 * r.waiting, guarded(40 * r.waiting, fill), 5 * r.waiting, guarded(1024 * r.waiting, fill), 1024 * r.waiting,
                   guarded(4, fill), 1};
  l.keys = guarded(sizeof *l.keys, fill);
  return l;
}

enum { TABLES = 10 };

typedef struct Bytes {
  uint8_t *start;
  size_t size;
} Bytes;

static void tables_of(const Lent *l, Bytes *table) {
  Bytes all[TABLES] = {{l->g.hashes, l->g.hashes_len},          {(uint8_t *)l->g.nodes, 4 * l->g.nodes_len},   {(uint8_t *)l->g.edges, 8 * l->g.edges_len},
                       {(uint8_t *)l->g.clocks, 4 * l->g.clocks_len}, {(uint8_t *)l->g.counts, 12},            {l->q.hashes, l->q.hashes_len},
                       {(uint8_t *)l->q.numbers, 8 * l->q.numbers_len}, {l->q.deps, l->q.deps_len},            {(uint8_t *)l->q.count, 4},
                       {(uint8_t *)l->keys, sizeof *l->keys}};
  memcpy(table, all, sizeof all);
}

static void unlend(Lent *l) {
  Bytes table[TABLES];
  tables_of(l, table);
  for (int i = 0; i < TABLES; i++) {
    unguard(table[i].start, table[i].size);
  }
}

/* Copies all bytes of one to the other, which has the same room. */
static void lent_copy(const Lent *to, const Lent *from) {
  Bytes a[TABLES], b[TABLES];
  tables_of(to, a);
  tables_of(from, b);
  for (int i = 0; i < TABLES; i++) {
    memcpy(a[i].start, b[i].start, a[i].size);
  }
}

static int all_same(const Lent *l, const Lent *other) {
  Bytes a[TABLES], b[TABLES];
  tables_of(l, a);
  tables_of(other, b);
  for (int i = 0; i < TABLES; i++) {
    if (memcmp(a[i].start, b[i].start, a[i].size) != 0) {
      return 0;
    }
  }
  return 1;
}

/* Whether an empty graph without actors, an empty queue and no keys stand there. */
static int is_empty(const Lent *l) { return l->g.counts[0] == 0 && l->g.counts[1] == 0 && l->g.counts[2] == 0 && l->q.count[0] == 0 && l->keys->count == 0; }

/* ---- images, put together by hand */

static uint32_t crc_of(const uint8_t *bytes, size_t size) {
  uint32_t crc = 0xFFFFFFFF;
  for (size_t i = 0; i < 8 * size; i++) {
    uint32_t bit = (crc ^ (uint32_t)(bytes[i / 8] >> i % 8)) & 1;
    crc = crc >> 1 ^ (bit ? 0xEDB88320 : 0);
  }
  return ~crc;
}

static void append(Bytes *image, const void *from, size_t size) {
  image->start = realloc(image->start, image->size + size + 1);
  if (size > 0) {
    memcpy(image->start + image->size, from, size);
  }
  image->size += size;
}

static void sum_again(Bytes *image) {
  uint32_t crc = crc_of(image->start, image->size - 4);
  memcpy(image->start + image->size - 4, &crc, 4);
}

static Bytes image_of(const Lent *l) {
  Bytes image = {NULL, 0};
  uint32_t changes = l->g.counts[0], edges = l->g.counts[1], actors = l->g.counts[2], waiting = l->q.count[0];
  uint32_t head[7] = {CG_VERSION, 0x01020304, changes, edges, actors, waiting, 0};
  for (size_t i = 0; i < waiting; i++) {
    head[6] += (uint32_t)l->q.numbers[5 * i + 4];
  }
  append(&image, "cgsaved1", 8);
  append(&image, head, sizeof head);
  append(&image, l->g.hashes, 32 * changes);
  append(&image, l->g.nodes, 24 * changes);
  append(&image, l->g.edges, 8 * edges);
  append(&image, l->keys->key, 8 * actors);
  append(&image, l->q.hashes, 32 * waiting);
  append(&image, l->q.numbers, 40 * waiting);
  for (size_t i = 0; i < waiting; i++) {
    append(&image, l->q.deps + 1024 * i, 32 * l->q.numbers[5 * i + 4]);
  }
  append(&image, "crc", 4);
  sum_again(&image);
  return image;
}

/* Whether the used parts of the tables are those of the image, and no clock is cached. */
static int holds(const Lent *l, Bytes image) {
  size_t row = l->g.hashes_len > 0 ? l->g.clocks_len / (l->g.hashes_len / 32) : 0;
  if (l->g.counts[0] > l->g.hashes_len / 32 || l->g.counts[1] > l->g.edges_len || l->g.counts[2] > 64 || l->q.count[0] > l->q.hashes_len / 32 ||
      l->keys->count != l->g.counts[2]) {
    return 0;
  }
  for (size_t i = 0; i < row * l->g.counts[0]; i++) {
    if (l->g.clocks[i] != 0) {
      return 0;
    }
  }
  for (size_t i = 0; i < l->q.count[0]; i++) {
    if (l->q.numbers[5 * i + 4] > 32) {
      return 0;
    }
  }
  Bytes now = image_of(l);
  int same = now.size == image.size && memcmp(now.start, image.start, now.size) == 0;
  free(now.start);
  return same;
}

/* A new file each time: some file systems go to the disk where one is cut and written again. */
static void write_bytes(const char *path, const uint8_t *start, size_t size) {
  unlink(path);
  int file = open(path, O_WRONLY | O_CREAT | O_EXCL, 0600);
  if (file < 0 || write(file, start, size) != (ssize_t)size || close(file) != 0) {
    perror(path);
    exit(2);
  }
}

static int file_is(const char *path, Bytes image) {
  uint8_t *bytes = malloc(image.size + 1);
  int file = open(path, O_RDONLY);
  ssize_t got = file < 0 ? -1 : read(file, bytes, image.size + 1);
  int same = got == (ssize_t)image.size && memcmp(bytes, image.start, image.size) == 0;
  close(file);
  free(bytes);
  return same;
}

static int is_there(const char *path) { return access(path, F_OK) == 0; }

static int save(const char *path, const Lent *l) { return saved_write(path, &l->g, &l->q, l->keys); }

static int bring(const char *path, const Lent *l) { return saved_read(path, &l->g, &l->q, l->keys); }

/* ---- two records. Hashes that are near differ in one bit. */

static const Room small = {6, 6, 4, 3};
static Lent old_record, new_record;
static Bytes old_image, new_image;

static const uint8_t *hash_of(char letter, int near) {
  static uint8_t hash[8][32];
  static int next = 0;
  next = (next + 1) % 8;
  for (int i = 0; i < 32; i++) {
    hash[next][i] = (uint8_t)(letter * 37 + i * (letter - 60));
  }
  hash[next][20] ^= (uint8_t)(near << 3);
  return hash[next];
}

static void grow(Lent *l, const uint8_t *hash, uint64_t actor, uint64_t sequence, uint64_t max_op, uint64_t op_count, const uint8_t *on, size_t on_count) {
  cg_change change = {hash, sequence, max_op, op_count, cg_list_of(on, on_count)};
  expect(cg_hub_add(&l->g, actor, &change, NULL) == CG_DONE, "a change of the records");
}

static void let_wait(Lent *l, const uint8_t *hash, uint64_t key, uint64_t sequence, const uint8_t *on, size_t on_count) {
  cg_change change = {hash, sequence, 1000, 2000, cg_list_of(on, on_count)};
  expect(cg_hub_batch_push(&l->q, key, &change) == CG_DONE, "a change that waits");
}

static Lent record_of(int larger) {
  Lent l = lent_of(small, 0);
  uint8_t both[64];
  memset(l.g.hashes, 0xEE, l.g.hashes_len);
  expect(cg_put_key(&l.g, l.keys, 0, 70) == CG_DONE && cg_put_key(&l.g, l.keys, 1, 12) == CG_DONE, "two actors");
  grow(&l, hash_of('A', 0), 0, 1, 3, 3, NULL, 0);
  grow(&l, hash_of('B', 0), 1, 1, 5, 2, hash_of('A', 0), 1);
  let_wait(&l, hash_of('W', 0), 12, 5, hash_of('X', 0), 1);
  if (larger) {
    expect(cg_put_key(&l.g, l.keys, 2, 71) == CG_DONE, "a third actor");
    grow(&l, hash_of('B', 1), 0, 2, 5, 2, hash_of('A', 0), 1);
    memcpy(both, hash_of('B', 0), 32);
    memcpy(both + 32, hash_of('B', 1), 32);
    grow(&l, hash_of('D', 0), 2, 1, 9, 0, both, 2);
    let_wait(&l, hash_of('W', 1), 12, 4, both, 2);
    l.g.clocks[0] = 1; /* the clock of A, cached */
  }
  return l;
}

/* ---- what goes out comes in again */

static void out_and_in(const char *path) {
  Lent l = lent_of(small, 0xEE), before = lent_of(small, 0xEE);
  play_nothing();
  expect(save(path, &new_record) == SAVED_DONE, "saved");
  expect(file_is(path, new_image), "the image is as put together by hand");
  expect(bring(path, &l) == SAVED_DONE && holds(&l, new_image), "read back");
  expect(memcmp(l.g.hashes + 32 * 4, before.g.hashes, 32 * 2) == 0 && memcmp(l.g.nodes + 6 * 4, before.g.nodes, 24 * 2) == 0 &&
             memcmp(l.g.edges + 4, before.g.edges, 8 * 2) == 0 && memcmp(l.g.clocks + 4 * 4, before.g.clocks, 4 * 4 * 2) == 0,
         "the tables past the graph stay");
  expect(memcmp(l.q.deps + 32, before.q.deps, 1024 - 32) == 0 && memcmp(l.q.deps + 1024 + 64, before.q.deps, 2048 - 64) == 0 &&
             memcmp(l.q.hashes + 64, before.q.hashes, 32) == 0 && memcmp(l.q.numbers + 10, before.q.numbers, 40) == 0 &&
             memcmp(l.keys->key + 3, before.keys->key, 8 * 61) == 0,
         "the tables past what waits, and the keys, stay");
  unlend(&l);
  unlend(&before);
}

static void paths(void) {
  char absolute[4096 + 16], here[4096];
  out_and_in("record");
  expect(strcmp(seen.directory, ".") == 0, "a path without a directory is in this one");
  expect(mkdir("below", 0700) == 0, "a directory");
  out_and_in("below/record");
  expect(is_there("below/record") && !is_there("below/record.new"), "in a directory below");
  snprintf(absolute, sizeof absolute, "%s/record", getcwd(here, sizeof here));
  out_and_in(absolute);
  play_nothing();
  play.refused = 2;
  play.why = EACCES;
  expect(save("/record", &new_record) == SAVED_SYSTEM && errno == EACCES && strcmp(seen.directory, "/") == 0, "in the root, where that is refused");
  memset(absolute, 'a', sizeof absolute);
  absolute[4096 - 4] = 0;
  play_nothing();
  expect(save(absolute, &new_record) == SAVED_SYSTEM && errno == ENAMETOOLONG && seen.calls == 0, "a path that leaves no room for .new");
  absolute[4096 - 5] = 0;
  expect(save(absolute, &new_record) == SAVED_SYSTEM && errno == ENAMETOOLONG && seen.calls > 0, "a path that the system refuses");
  unlink("below/record");
  rmdir("below");
}

static void texts(void) {
  for (int a = SAVED_DONE; a <= SAVED_SYSTEM; a++) {
    for (int b = a + 1; b <= SAVED_SYSTEM + 1; b++) {
      expect(strcmp(saved_text(a), saved_text(b)) != 0, "each answer has a text of its own");
    }
  }
  expect(summed(0, (const uint8_t *)"123456789", 9) == 0xCBF43926 && crc_of((const uint8_t *)"123456789", 9) == 0xCBF43926, "CRC-32 of 123456789");
}

/* ---- (a) the process ends, or the power is lost */

/* Saves the new record over the old one in a process of its own, which meets what `play` says; its exit status. */
static int saved_apart(void) {
  int status = 0;
  write_bytes("record", old_image.start, old_image.size);
  fflush(stdout);
  pid_t child = fork();
  if (child == 0) {
    end_here(save("record", &new_record) == SAVED_DONE ? SAVED : NOT_SAVED);
  }
  expect(child > 0 && waitpid(child, &status, 0) == child && WIFEXITED(status), "a process of its own");
  memset(&play, 0, sizeof play);
  return WEXITSTATUS(status);
}

/* Which record stands: 0 the old one, 1 the new one, -1 neither. */
static int standing(Lent *l) {
  if (bring("record", l) != SAVED_DONE) {
    return -1;
  }
  return holds(l, new_image) ? 1 : holds(l, old_image) ? 0 : -1;
}

static void ended(size_t every) {
  Lent l = lent_of(small, 0xEE);
  int stood[2] = {0, 0}, calls, write_call = 0;
  play_nothing();
  write_bytes("record", old_image.start, old_image.size);
  expect(save("record", &new_record) == SAVED_DONE && seen.calls < 20, "saved once, to see the calls");
  calls = seen.calls;
  for (int i = 1; i <= calls; i++) {
    write_call = seen.kind[i] == WRITE ? i : write_call;
  }
  expect(write_call > 0 && seen.size[write_call] == new_image.size, "one write");
  for (size_t piece = 0; piece <= 100; piece += 100) {
    for (int lost = NOTHING_LOST; lost < LOSSES; lost++) {
      for (int call = 1; call <= calls + (piece > 0 ? 5 : 0) + 1; call++) {
        play_nothing();
        play.ended = call;
        play.lost = lost;
        play.piece = piece;
        int status = saved_apart(), which = standing(&l);
        expect(status == ENDED || status == SAVED, "ended before a call, or saved");
        expect(which >= 0, "ended before a call: the old record or the new one");
        expect(status != SAVED || which == 1, "after the answer the new record stands");
        stood[which == 1]++;
      }
    }
  }
  for (size_t bytes = 1; bytes <= new_image.size; bytes += every) {
    play_nothing();
    play.ended = write_call;
    play.inside = bytes;
    expect(saved_apart() == ENDED && standing(&l) == 0, "ended inside a write: the old record");
  }
  expect(stood[0] > 0 && stood[1] > 0, "both records were seen");
  unlend(&l);
}

/* ---- (b) calls that fail */

static void refused(void) {
  Lent l = lent_of(small, 0xEE);
  int reasons[2] = {EIO, ENOSPC}, renamed = 0, calls;
  play_nothing();
  expect(save("record", &new_record) == SAVED_DONE, "saved once, to see the calls");
  calls = seen.calls;
  for (int i = 1; i <= calls; i++) {
    renamed = seen.kind[i] == RENAME ? i : renamed;
  }
  for (int call = 1; call <= calls; call++) {
    for (int i = 0; i < 4; i++) {
      write_bytes("record", old_image.start, old_image.size);
      play_nothing();
      play.refused = call;
      play.why = reasons[i % 2];
      play.unlink_refused = i >= 2;
      int answer = save("record", &new_record), why = errno;
      play_nothing();
      if (call == calls) {
        expect(answer == SAVED_DONE && standing(&l) == 1, "the directory is not closed well: saved");
      } else {
        expect(answer == SAVED_SYSTEM && why == reasons[i % 2], "a call fails: said so");
        expect(standing(&l) == (call > renamed), "a call fails: the old record stays, and after the renaming the new one");
      }
      expect(i >= 2 || !is_there("record.new"), "the new file is taken away");
      expect(save("record", &new_record) == SAVED_DONE && standing(&l) == 1 && !is_there("record.new"), "and the next time it is saved");
    }
  }
  for (int call = 1; call <= renamed; call++) {
    for (int end = call + 1; end <= call + 4; end++) {
      play_nothing();
      play.refused = call;
      play.why = EIO;
      play.ended = end;
      int status = saved_apart();
      expect((status == ENDED || status == NOT_SAVED) && standing(&l) == 0, "a call fails, and the process ends afterwards: the old record");
    }
  }
  unlend(&l);
}

static void pieces(void) {
  Lent l = lent_of(small, 0xEE);
  for (size_t piece = 0; piece <= 130; piece = 2 * piece + 1) {
    for (int interrupted = 0; interrupted < 2; interrupted++) {
      write_bytes("record", old_image.start, old_image.size);
      play_nothing();
      play.piece = piece;
      play.interrupted = interrupted;
      expect(save("record", &new_record) == SAVED_DONE, "short writes and interrupted calls: saved");
      expect(file_is("record", new_image) && !is_there("record.new"), "short writes and interrupted calls: the new record");
      expect(bring("record", &l) == SAVED_DONE && holds(&l, new_image), "short reads and interrupted calls");
    }
  }
  unlend(&l);
}

/* The contents are lasting before the name is, and then the directory. What an earlier process left in PATH.new is gone. */
static void order(void) {
  uint8_t rest[2048] = {0};
  play_nothing();
  write_bytes("record.new", rest, sizeof rest);
  expect(save("record", &new_record) == SAVED_DONE && strcmp(seen.kind + 1, "dowfcnfc") == 0, "the calls in their order");
  expect(file_is("record", new_image) && !is_there("record.new"), "over the rest of an earlier process");
}

static void refused_reading(void) {
  Lent l = lent_of(small, 0xEE), before = lent_of(small, 0xEE);
  int calls, sought = 0;
  write_bytes("record", new_image.start, new_image.size);
  play_nothing();
  expect(bring("record", &l) == SAVED_DONE, "read once, to see the calls");
  calls = seen.calls;
  for (int i = 1; i <= calls; i++) {
    sought = seen.kind[i] == SEEK ? i : sought;
  }
  for (int call = 1; call <= calls; call++) {
    lent_copy(&l, &before);
    play_nothing();
    play.refused = call;
    play.why = EIO;
    int answer = bring("record", &l), why = errno;
    if (call <= sought) {
      expect(answer == SAVED_SYSTEM && why == EIO && all_same(&l, &before), "the first pass fails: nothing is touched");
    } else if (call < calls) {
      expect(answer == SAVED_NOT_VALID && is_empty(&l), "the second pass fails: an empty record");
    } else {
      expect(answer == SAVED_DONE && holds(&l, new_image), "the file is not closed well: read");
    }
  }
  unlend(&l);
  unlend(&before);
}

/* The second pass finds another file than the first: a byte changed, the old record, another version with a right checksum, and at last the same file. */
static void swapped_reading(void) {
  Lent l = lent_of(small, 0xEE);
  Bytes other = image_of(&new_record);
  other.start[200] ^= 1;
  write_bytes("other", other.start, other.size);
  other.start[200] ^= 1;
  other.start[8] ^= 1;
  sum_again(&other);
  write_bytes("newer", other.start, other.size);
  write_bytes("shorter", old_image.start, old_image.size);
  write_bytes("record", new_image.start, new_image.size);
  const char *swapped[4] = {"other", "newer", "shorter", "record"};
  for (int i = 0; i < 4; i++) {
    play_nothing();
    play.swapped = swapped[i];
    expect(bring("record", &l) == (i < 3 ? SAVED_NOT_VALID : SAVED_DONE) && (i < 3 ? is_empty(&l) : holds(&l, new_image)), "another file at the second pass");
    unlink(swapped[i]);
  }
  free(other.start);
  unlend(&l);
}

/* ---- (c) changed and cut images */

static void changed(void) {
  Lent l = lent_of(small, 0xEE), before = lent_of(small, 0xEE);
  Bytes image = image_of(&new_record);
  play_nothing();
  for (size_t bit = 0; bit < 8 * image.size; bit++) {
    image.start[bit / 8] ^= (uint8_t)(1 << bit % 8);
    write_bytes("record", image.start, image.size);
    expect(bring("record", &l) == (bit / 8 < 16 ? SAVED_NOT_OURS : SAVED_TORN), "a bit is turned: refused");
    expect(all_same(&l, &before), "a bit is turned: nothing is touched");
    image.start[bit / 8] ^= (uint8_t)(1 << bit % 8);
  }
  for (size_t size = 0; size < image.size; size++) {
    write_bytes("record", image.start, size);
    expect(bring("record", &l) == SAVED_TORN && all_same(&l, &before), "a shorter file is torn");
  }
  size_t whole = image.size;
  uint8_t more[4096] = {0};
  for (size_t size = 1; size <= sizeof more; size *= 2) {
    append(&image, more, size);
    write_bytes("record", image.start, image.size);
    play.piece = 0;
    expect(bring("record", &l) == SAVED_TORN && all_same(&l, &before), "a longer file is torn");
    play.piece = whole;
    expect(bring("record", &l) == SAVED_TORN && all_same(&l, &before), "a longer file is torn, its end read by itself");
    image.size = whole;
  }
  memset(image.start + 100, 0, 200);
  write_bytes("record", image.start, image.size);
  expect(bring("record", &l) == SAVED_TORN && all_same(&l, &before), "zeros in the middle are torn");
  free(image.start);
  unlend(&l);
  unlend(&before);
}

/* ---- (d) the same with a checksum that is right: what the tables' own check finds */

enum { MARKS, COUNTS, HASH, ACTOR, SEQUENCE, MAX_OP, OP_COUNT, FIRST_EDGE, HEAD, TARGET, NEXT, KEY, WAITS_HASH, WAITS_KEY, WAITS_SEQUENCE, WAITS_MAX_OP, WAITS_OP_COUNT, WAITS_COUNT, WAITS_ON, PARTS };

/* The part in which a byte of the new record's image lies: 4 changes, 4 edges, 3 actors, 2 that wait, on 3. */
static int part_of(size_t at) {
  size_t size[7] = {16, 20, 4 * 32, 4 * 24, 4 * 8, 3 * 8, 2 * 32};
  int part[7] = {MARKS, COUNTS, HASH, ACTOR + (int)((at - 164) % 24 / 4), TARGET + (int)((at - 260) % 8 / 4), KEY, WAITS_HASH};
  for (int i = 0; i < 7; i++) {
    if (at < size[i]) {
      return part[i];
    }
    at -= size[i];
  }
  return at < 2 * 40 ? WAITS_KEY + (int)(at % 40 / 8) : WAITS_ON;
}

/* Of how many bits in the part, how many may be turned so that the tables are valid as before. By hand: docs/SAVING.md says for each why. */
static const struct {
  const char *what;
  int bits, valid;
} figures[PARTS] = {
    [MARKS] = {"magic, version and byte order", 128, 0},
    [COUNTS] = {"the counts", 160, 0},
    [HASH] = {"a hash", 1024, 1022},
    [ACTOR] = {"an actor", 128, 1},
    [SEQUENCE] = {"a sequence", 128, 0},
    [MAX_OP] = {"a max op", 128, 124},
    [OP_COUNT] = {"an op count", 128, 10},
    [FIRST_EDGE] = {"a first edge", 128, 0},
    [HEAD] = {"a head", 128, 0},
    [TARGET] = {"an edge's target", 128, 1},
    [NEXT] = {"an edge's next", 128, 0},
    [KEY] = {"a key", 192, 190},
    [WAITS_HASH] = {"a waiting change's hash", 512, 510},
    [WAITS_KEY] = {"a waiting change's key", 128, 128},
    [WAITS_SEQUENCE] = {"a waiting change's sequence", 128, 126},
    [WAITS_MAX_OP] = {"a waiting change's max op", 128, 128},
    [WAITS_OP_COUNT] = {"a waiting change's op count", 128, 128},
    [WAITS_COUNT] = {"a waiting change's number of dependencies", 128, 0},
    [WAITS_ON] = {"a waiting change's dependencies", 768, 768},
};

static void summed_again(void) {
  Lent l = lent_of(small, 0xEE), before = lent_of(small, 0xEE);
  Bytes image = image_of(&new_record);
  int bits[PARTS] = {0}, valid[PARTS] = {0};
  play_nothing();
  for (size_t bit = 0; bit < 8 * (image.size - 4); bit++) {
    int part = part_of(bit / 8);
    image.start[bit / 8] ^= (uint8_t)(1 << bit % 8);
    sum_again(&image);
    write_bytes("record", image.start, image.size);
    lent_copy(&l, &before);
    int answer = bring("record", &l);
    bits[part]++;
    valid[part] += answer == SAVED_DONE;
    if (part == MARKS || part == COUNTS) {
      expect(answer == (part == MARKS ? SAVED_NOT_OURS : SAVED_TORN) && all_same(&l, &before), figures[part].what);
    } else {
      expect(answer == SAVED_DONE ? holds(&l, image) : answer == SAVED_NOT_VALID && is_empty(&l), figures[part].what);
    }
    image.start[bit / 8] ^= (uint8_t)(1 << bit % 8);
  }
  for (int part = 0; part < PARTS; part++) {
    expect(bits[part] == figures[part].bits && valid[part] == figures[part].valid, figures[part].what);
  }
  free(image.start);
  unlend(&l);
  unlend(&before);
}

/* More dependencies than a row holds, in the last row that there is, and an image that has them all. */
static void many_dependencies(void) {
  Lent l = lent_of((Room){0, 0, 0, 1}, 0), wide = lent_of((Room){0, 0, 0, 2}, 0);
  memset(wide.q.deps, 5, wide.q.deps_len);
  wide.q.count[0] = 1;
  for (uint64_t count = 32; count <= 64; count++) {
    wide.q.numbers[4] = count;
    Bytes image = image_of(&wide);
    play_nothing();
    write_bytes("record", image.start, image.size);
    int answer = bring("record", &l);
    expect(count == 32 ? answer == SAVED_DONE && holds(&l, image) : answer == SAVED_NOT_VALID && is_empty(&l), "more dependencies than a row holds");
    free(image.start);
  }
  unlend(&l);
  unlend(&wide);
}

/* ---- (e) rooms, versions, places; a full record */

static void rooms(void) {
  Bytes image = image_of(&new_record);
  const char *what[5] = {"exactly the room", "a change too few", "an edge too few", "an actor too few", "room for one that waits too few"};
  play_nothing();
  write_bytes("record", image.start, image.size);
  for (int i = 0; i < 5; i++) {
    Room r = {4 - (i == 1), 4 - (i == 2), 3 - (i == 3), 2 - (i == 4)};
    Lent l = lent_of(r, 0xEE), before = lent_of(r, 0xEE);
    int answer = bring("record", &l);
    expect(i == 0 ? answer == SAVED_DONE && holds(&l, image) : answer == SAVED_TOO_LARGE && all_same(&l, &before), what[i]);
    unlend(&l);
    unlend(&before);
  }
  for (int i = 0; i < 7; i++) {
    Lent l = lent_of(small, 0xEE), before = lent_of(small, 0xEE);
    Lent short_one = l;
    size_t *len[7] = {&short_one.g.hashes_len, &short_one.g.nodes_len, &short_one.g.clocks_len, &short_one.g.counts_len, &short_one.q.numbers_len, &short_one.q.deps_len,
                      &short_one.q.count_len};
    (*len[i])--;
    expect(bring("record", &short_one) == SAVED_TOO_LARGE && all_same(&l, &before), "tables whose lengths disagree");
    unlend(&l);
    unlend(&before);
  }
  Room none = {0, 0, 0, 0};
  Lent empty = lent_of(none, 0), l = lent_of(none, 0xEE);
  Bytes nothing = image_of(&empty);
  expect(save("record", &empty) == SAVED_DONE && file_is("record", nothing) && nothing.size == 40, "an empty record");
  expect(bring("record", &l) == SAVED_DONE && is_empty(&l), "an empty record, read back");
  unlend(&empty);
  unlend(&l);
  free(nothing.start);
  free(image.start);
}

static void strangers(void) {
  Lent l = lent_of(small, 0xEE), before = lent_of(small, 0xEE);
  Bytes image = image_of(&new_record);
  uint32_t version = CG_VERSION + 1, order = 0x04030201, order_here;
  play_nothing();
  memcpy(image.start + 8, &version, 4);
  sum_again(&image);
  write_bytes("record", image.start, image.size);
  expect(bring("record", &l) == SAVED_NOT_OURS, "another version");
  version = CG_VERSION;
  memcpy(image.start + 8, &version, 4);
  memcpy(&order_here, image.start + 12, 4);
  memcpy(image.start + 12, &order, 4);
  sum_again(&image);
  write_bytes("record", image.start, image.size);
  expect(order_here == 0x01020304 && bring("record", &l) == SAVED_NOT_OURS, "another byte order");
  const char text[] = "a file of some other kind, longer than the head of an image";
  write_bytes("record", (const uint8_t *)text, sizeof text);
  expect(bring("record", &l) == SAVED_NOT_OURS, "a file of another kind");
  expect(bring("nowhere", &l) == SAVED_NO_FILE, "no file");
  expect(bring("record/record", &l) == SAVED_SYSTEM && errno == ENOTDIR, "a file in the place of a directory");
  expect(bring(".", &l) == SAVED_SYSTEM && errno == EISDIR, "a directory in the place of a file");
  expect(all_same(&l, &before), "none of these touches anything");
  free(image.start);
  unlend(&l);
  unlend(&before);
}

static void places(void) {
  play_nothing();
  expect(save("nowhere/record", &new_record) == SAVED_SYSTEM && errno == ENOENT, "no such directory");
  expect(save("record/record", &new_record) == SAVED_SYSTEM && errno == ENOTDIR, "a file in the place of the directory");
  expect(mkdir("taken", 0700) == 0 && save("taken", &new_record) == SAVED_SYSTEM && errno == EISDIR && !is_there("taken.new"), "a directory in the place of the record");
  expect(rename("taken", "taken.new") == 0 && save("taken", &new_record) == SAVED_SYSTEM && errno == EISDIR && !is_there("taken"), "a directory in the place of the new file");
  expect(rename("taken.new", "closed") == 0 && chmod("closed", 0500) == 0, "a directory that cannot be written");
  if (geteuid() != 0) { /* root writes it all the same */
    expect(save("closed/record", &new_record) == SAVED_SYSTEM && errno == EACCES, "a directory that cannot be written: refused");
  }
  expect(save("/proc/record", &new_record) == SAVED_SYSTEM, "a directory that nobody can write");
  rmdir("closed");
}

/* Everything at the hub's room: each change on the four before it, the last one on eight; 256 wait on 32 each. */
static Lent full_record(void) {
  Lent l = lent_of((Room){4096, 16384, 64, 256}, 0);
  uint32_t edge = 0;
  for (uint32_t k = 0; k < 4096; k++) {
    uint32_t on = k == 0 ? 0 : k == 4095 ? 8 : 4, node[6] = {k % 64, k / 64 + 1, k + 1, 1, on > 0 ? edge + 1 : 0, k == 4095};
    memcpy(l.g.nodes + 6 * k, node, sizeof node);
    memset(l.g.hashes + 32 * k, 7, 32);
    memcpy(l.g.hashes + 32 * k, &k, 4);
    for (uint32_t i = 1; i <= on; i++, edge++) {
      l.g.edges[edge] = (cg_edge){i > k ? 0 : k - i, i < on ? edge + 2 : 0};
    }
  }
  for (uint32_t i = 0; i < 256; i++) {
    uint64_t numbers[5] = {i % 3, i + 1, i, UINT64_MAX - i, 32};
    memcpy(l.q.numbers + 5 * i, numbers, sizeof numbers);
    memset(l.q.hashes + 32 * i, 9, 32);
    memcpy(l.q.hashes + 32 * i, &i, 4);
    for (int byte = 0; byte < 1024; byte++) {
      l.q.deps[1024 * i + byte] = (uint8_t)(i + byte);
    }
  }
  for (uint64_t actor = 0; actor < 64; actor++) {
    l.keys->key[actor] = UINT64_MAX - 1000 * actor;
  }
  l.g.counts[0] = 4096;
  l.g.counts[1] = edge;
  l.g.counts[2] = l.keys->count = 64;
  l.q.count[0] = 256;
  return l;
}

typedef struct Answers {
  uint8_t missing[32 * 4096];
  cg_list list;
  cg_clock clock;
  uint8_t heads[32 * 4096];
  uint64_t heads_bytes;
} Answers;

static void ask(const Lent *l, const uint8_t *have, Answers *a) {
  expect(cg_hub_missing(&l->g, cg_list_of(have, 2), a->missing, sizeof a->missing, &a->list) == CG_DONE, "what is missing");
  expect(cg_hub_clock_of(&l->g, cg_list_of(have, 2), &a->clock) == CG_DONE, "a clock");
  expect(cg_hub_heads(&l->g, a->heads, sizeof a->heads, &a->heads_bytes) == CG_DONE, "the heads");
}

static int same_answers(const Answers *a, const Answers *b) {
  return a->list.bytes == b->list.bytes && memcmp(a->missing, b->missing, a->list.bytes) == 0 && a->clock.count == b->clock.count &&
         memcmp(a->clock.entries, b->clock.entries, 4 * a->clock.count) == 0 && a->heads_bytes == b->heads_bytes && memcmp(a->heads, b->heads, a->heads_bytes) == 0;
}

static void answers_of_small(void) {
  static Answers before, after;
  Lent l = lent_of(small, 0xEE);
  uint8_t have[64];
  memcpy(have, hash_of('B', 0), 32);
  memcpy(have + 32, hash_of('Z', 0), 32);
  play_nothing();
  expect(save("record", &new_record) == SAVED_DONE && bring("record", &l) == SAVED_DONE, "out and in");
  ask(&new_record, have, &before);
  ask(&l, have, &after);
  expect(same_answers(&before, &after) && before.list.bytes == 64 && before.heads_bytes == 32 && before.clock.count == 3, "the answers are the same, and two changes are missing");
  unlend(&l);
}

static void full(void) {
  static Answers before, after;
  Room bench = {CG_BENCH_CHANGES, CG_BENCH_EDGES, CG_BENCH_ACTORS, CG_WAITING}, hub = {4096, 16384, 64, 256}, fewer = {4095, 16384, 64, 256};
  Lent record = full_record(), l = lent_of(hub, 0xEE), small_one = lent_of(bench, 0xEE), one_less = lent_of(fewer, 0xEE);
  Lent untouched = lent_of(bench, 0xEE), untouched_too = lent_of(fewer, 0xEE);
  Bytes image = image_of(&record);
  struct stat file;
  play_nothing();
  expect(record.g.counts[1] == 16384 && save("record", &record) == SAVED_DONE && file_is("record", image), "a full record");
  expect(stat("record", &file) == 0 && file.st_size == 641576, "a file of docs/SAVING.md's length");
  expect(bring("record", &small_one) == SAVED_TOO_LARGE && all_same(&small_one, &untouched), "the bench's room is too small");
  expect(bring("record", &one_less) == SAVED_TOO_LARGE && all_same(&one_less, &untouched_too), "room for a change less is too small");
  expect(bring("record", &l) == SAVED_DONE && holds(&l, image), "a full record, read back");
  ask(&record, record.g.hashes + 32 * 2000, &before);
  ask(&l, record.g.hashes + 32 * 2000, &after);
  expect(same_answers(&before, &after) && before.list.bytes == 32 * (4096 - 2002) && before.heads_bytes == 32 && before.clock.count == 64, "the answers are the same");
  free(image.start);
  unlend(&record);
  unlend(&l);
  unlend(&small_one);
  unlend(&one_less);
  unlend(&untouched);
  unlend(&untouched_too);
}

/* Of a change whose max op is below its dependency's: adding takes it, loading does not, and it goes out and in. */
static void not_to_be_loaded(void) {
  Lent l = lent_of(small, 0), again = lent_of(small, 0xEE), loaded = lent_of(small, 0xEE), before = lent_of(small, 0xEE);
  expect(cg_put_key(&l.g, l.keys, 0, 1) == CG_DONE, "an actor");
  grow(&l, hash_of('A', 0), 0, 1, 3, 3, NULL, 0);
  grow(&l, hash_of('B', 0), 0, 2, 2, 1, hash_of('A', 0), 1);
  uint64_t actors[2] = {0, 0}, sequences[2] = {1, 2}, max_ops[2] = {3, 2}, op_counts[2] = {3, 1}, dep_counts[2] = {0, 1}, dep_values[1] = {0};
  cg_columns c = {l.g.hashes, 64, actors, 2, sequences, 2, max_ops, 2, op_counts, 2, dep_counts, 2, dep_values, 1, cg_list_of(hash_of('B', 0), 1), 1};
  expect(cg_hub_load(&loaded.g, &c) == CG_COLUMNS_DISAGREE && all_same(&loaded, &before), "loading refuses it");
  Bytes image = image_of(&l);
  play_nothing();
  expect(save("record", &l) == SAVED_DONE && bring("record", &again) == SAVED_DONE && holds(&again, image), "it goes out and in");
  max_ops[1] = 3;
  expect(cg_hub_load(&loaded.g, &c) == CG_DONE, "with a max op that is not below, loading takes it");
  free(image.start);
  unlend(&l);
  unlend(&again);
  unlend(&loaded);
  unlend(&before);
}

/* ---- (f) what is not valid is not written */

static void not_valid(void) {
  Lent l = record_of(1), right = record_of(1);
  struct {
    void *at;
    size_t size;
    uint64_t value;
    const char *what;
  } harm[9] = {
      {&l.g.nodes[7], 4, 2, "a sequence left out"},
      {&l.g.clocks[4], 4, 2, "a cached clock that is none"},
      {&l.g.counts[0], 4, 7, "more changes than room"},
      {&l.q.count[0], 4, 4, "more waiting than room"},
      {&l.q.numbers[4], 8, 33, "33 dependencies"},
      {&l.q.numbers[1], 8, 4, "a key and sequence that wait twice"},
      {&l.keys->count, 8, 2, "a key too few"},
      {&l.keys->count, 8, 4, "a key too many"},
      {&l.keys->key[2], 8, 12, "a key twice"},
  };
  write_bytes("record", old_image.start, old_image.size);
  for (int i = 0; i < 9; i++) {
    memcpy(harm[i].at, &harm[i].value, harm[i].size);
    play_nothing();
    expect(save("record", &l) == SAVED_NOT_VALID && seen.calls == 0, harm[i].what);
    expect(file_is("record", old_image) && !is_there("record.new"), "no file is touched");
    lent_copy(&l, &right);
  }
  expect(save("record", &l) == SAVED_DONE && file_is("record", new_image) && all_same(&l, &right), "the record that was not harmed is saved, and saving changes nothing");
  unlend(&l);
  unlend(&right);
}

int main(int argc, char **argv) {
  char place[4096];
  size_t every = argc > 1 ? strtoul(argv[1], NULL, 10) : 1;
  const char *where = getenv("TMPDIR");
  snprintf(place, sizeof place, "%s/saved_test.XXXXXX", where != NULL ? where : "/tmp");
  if (mkdtemp(place) == NULL || chdir(place) != 0) {
    perror(place);
    return 2;
  }
  old_record = record_of(0);
  new_record = record_of(1);
  old_image = image_of(&old_record);
  new_image = image_of(&new_record);
  paths();
  texts();
  order();
  ended(every > 0 ? every : 1);
  refused();
  pieces();
  refused_reading();
  swapped_reading();
  changed();
  summed_again();
  many_dependencies();
  rooms();
  strangers();
  places();
  answers_of_small();
  full();
  not_to_be_loaded();
  not_valid();
  free(old_image.start);
  free(new_image.start);
  const char *left[3] = {"record", "record.new", "before"};
  for (int i = 0; i < 3; i++) {
    unlink(left[i]);
  }
  expect(chdir("/") == 0 && rmdir(place) == 0, "nothing else is left behind");
  return summed_up("saved");
}
