/* Tests the hub of example.c, since it is there to be copied. Devices come at random times and each has its changes; the line delivers them in any order, twice, and with errors; the hub
 * settles now and then. What a device was told to be added or to wait must from then on be in the graph or in the queue; whatever was not told is sent again. At the end the graph
 * has every change, for the device that made it. In some rounds the queue is full for a while, in some the record has not room for all: then nothing that was told is lost either.
 *
 *     example_test [ROUNDS]
 */
#include <stdio.h>
#include <stdlib.h>

/* The hub writes nothing here. */
static int quiet(const char *format, ...) {
  (void)format;
  return 0;
}
#define printf quiet
#define main example_main
#include "example.c"
#undef main
#undef printf

#include "check.h"

enum { ROUNDS = 6, CHANGES = 330, DEVICES = 9, SMALL = 200, TRIES = 400 };

static uint64_t seed = 7;

static size_t chance(size_t below) {
  seed = seed * 6364136223846793005u + 1442695040888963407u;
  return (size_t)(seed >> 33) % below;
}

typedef struct Made {
  uint8_t hash[CG_HASH], on[3 * CG_HASH];
  uint64_t key;
  cg_change change;
  int told;
} Made;

static Made made[CHANGES];
static uint64_t device_keys[DEVICES];
static int come[DEVICES];

/* A history: each change on some before it, most on their device's last one; three in four where `late` on the very first, so that they all wait for it. */
static void make(int late) {
  size_t last[DEVICES];
  uint64_t count[DEVICES] = {0};
  for (size_t d = 0; d < DEVICES; d++) {
    device_keys[d] = (d * 5 + 3) % DEVICES * 1000 + chance(1000);
    come[d] = 0;
  }
  for (size_t k = 0; k < CHANGES; k++) {
    Made *m = &made[k];
    size_t d = chance(DEVICES), n = 0;
    memset(m, 0, sizeof *m);
    memset(m->hash, 1 + (int)chance(255), CG_HASH);
    memcpy(m->hash, &k, sizeof k);
    if (count[d] > 0 && chance(4) > 0) {
      memcpy(m->on + CG_HASH * n++, made[last[d]].hash, CG_HASH);
    }
    while (k > 0 && n < 3 && chance(3) > 0) {
      memcpy(m->on + CG_HASH * n++, made[chance(k)].hash, CG_HASH);
    }
    if (late && k > 0 && n == 0) {
      memcpy(m->on + CG_HASH * n++, made[0].hash, CG_HASH);
    }
    m->key = device_keys[d];
    m->change = (cg_change){m->hash, ++count[d], k + 1, 1, cg_list_of(m->on, n)};
    last[d] = k;
  }
}

/* What no hub may take. */
static void deliver_garbled(const Made *m) {
  cg_change wrong = m->change;
  uint8_t hash[CG_HASH];
  memset(hash, 0, CG_HASH);
  wrong.hash = hash;
  uint64_t key = m->key;
  switch (chance(4)) {
  case 0:
    key = 999999;
    break;
  case 1:
    wrong.op_count = wrong.max_op + 1;
    break;
  case 2:
    wrong.dependencies = cg_list_of(hash, 1);
    break;
  default:
    wrong.sequence = 0;
  }
  uint32_t number = receive(key, &wrong);
  expect(number == CG_NO_ACTOR || number == CG_WRONG_OPS || number == CG_UNKNOWN_DEPENDENCY || number == CG_WRONG_SEQUENCE, "garbled: refused at once");
}

/* Where a hash stands in a table of so many, or so many. */
static size_t found(const uint8_t *hashes, size_t count, const uint8_t *hash) {
  size_t k = 0;
  while (k < count && memcmp(hashes + CG_HASH * k, hash, CG_HASH) != 0) {
    k++;
  }
  return k;
}

/* Whether the hub has the change: 2 in the graph, for its own device; 1 in the queue. Read off the tables, which is quicker than 100,000 checks of them. */
static int has(const Made *m) {
  size_t node = found(hub.hashes, hub.counts[0], m->hash);
  if (node < hub.counts[0]) {
    const uint32_t *numbers = hub.nodes + CG_NODE * node;
    expect(numbers[0] == cg_actor_of(&keys, m->key) && numbers[1] == m->change.sequence, "for its own device");
    return 2;
  }
  return found(hub.queue.hashes, hub.queue.count[0], m->hash) < hub.queue.count[0];
}

static uint32_t settle_and_tell(void) {
  uint32_t number = settle();
  for (size_t k = 0; k < CHANGES; k++) {
    int there = has(&made[k]);
    expect(there > 0 || !made[k].told, "what was told is there");
    made[k].told = there;
  }
  return number;
}

static void play(int late, int small) {
  uint32_t number = open_hub(), worst = 0;
  if (small) {
    graph.hashes_len = CG_HASH * SMALL, graph.nodes_len = CG_NODE * SMALL, graph.clocks_len = CG_HUB_ACTORS * SMALL;
  }
  expect(number == CG_DONE, "opened");
  make(late);
  size_t added = 0, most = 0;
  for (int try = 0; try < TRIES && added < CHANGES; try++) {
    size_t some = 1 + chance(120);
    for (size_t i = 0; i < some; i++) {
      Made *m = &made[late && try < 8 ? 1 + chance(CHANGES - 1) : chance(CHANGES)];
      size_t d = chance(DEVICES);
      if (!come[d] && chance(20) == 0) {
        come[d] = device(device_keys[d]) == CG_DONE;
      }
      if (chance(10) == 0) {
        deliver_garbled(m);
      } else if (made[0].told != 2 || m->told != 2 || chance(5) == 0) {
        number = receive(m->key, &m->change);
        expect(number == CG_DONE || number == CG_ALREADY_KNOWN || number == CG_ALREADY_WAITING || number == CG_NO_ACTOR || number == CG_NO_QUEUE_ROOM, "received");
      }
    }
    number = settle_and_tell();
    worst = number > worst ? number : worst;
    added = hub.counts[0];
    most = hub.queue.count[0] > most ? hub.queue.count[0] : most;
  }
  expect(added == (small ? SMALL : CHANGES), "all that there is room for is added");
  expect(worst == (small ? CG_NO_NODE_ROOM : CG_DONE), "the hub says that it is full, and nothing else");
  expect(!late || most == CG_WAITING, "the queue was full");
}

int main(int argc, char **argv) {
  int rounds = argc > 1 ? atoi(argv[1]) : ROUNDS;
  for (int round = 0; round < rounds; round++) {
    play(round % 3 == 1, round % 4 == 3);
  }
  return summed_up("the example's hub");
}
