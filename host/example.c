/* A hub in small. The first part is to be copied: devices that come, the way of a received change, tablets that ask. The second plays a morning with it, and the third shows every
 * refusal by its words. It writes what host/example.out has.
 *
 *     host/archive.sh && cc -Iinclude host/example.c target/libchangegraph.a -o example && ./example
 */
#include <stdio.h>
#include <string.h>

#include "changegraph_hub.h"

/* ---- the hub
 *
 *   device -- receive --> batch -- hand over --> queue -- release --> add --> graph -- missing --> tablet
 *                                                  ^                   |
 *                                                  '---- waits on -----'
 *
 * A device keeps its change until the hub has told it that the change is added or waits, and the hub tells it once that is saved. What is refused or was lost on the way the device
 * sends again. So nothing that is dropped here is lost, and whatever is sent twice is noticed. */

static cg_hub hub; /* all tables: below 2 MiB, nothing is allocated */
static cg_keys keys;
static cg_graph graph;
static cg_queue queue, batch;

/* Opening may meet any memory; static memory is open already. */
static uint32_t open_hub(void) {
  graph = cg_graph_of_hub(&hub);
  queue = cg_queue_of_hub(&hub);
  batch = cg_batch_of_hub(&hub);
  keys.count = 0;
  uint32_t number = cg_hub_open(&graph, 0);
  number = number == CG_DONE ? cg_hub_queue_open(&queue) : number;
  return number == CG_DONE ? cg_hub_queue_open(&batch) : number;
}

/* A device comes. Actors stand in the order of their keys, so that numbers past it move; changes that wait have keys, which do not. */
static uint32_t device(uint64_t key) { return cg_put_key(&graph, &keys, cg_place_of(&keys, key), key); }

/* Notes what became of a change; the device is told once the record is saved. */
static void say(const char *what, uint64_t key, const cg_change *change, uint32_t number) {
  printf("  %s: %c, device %u, sequence %u: %s\n", what, change->hash[0], (unsigned)key, (unsigned)change->sequence, cg_text(number));
}

/* What can never be added is refused at once; it would wait for nothing, and keep its device and sequence taken. */
static uint32_t never_added(uint64_t key, const cg_change *change) {
  uint64_t last = 0;
  uint64_t actor = cg_actor_of(&keys, key);
  uint32_t number = cg_hub_seq_for_actor(&graph, actor, &last);
  if (number != CG_DONE || actor == CG_NOBODY) {
    return number != CG_DONE ? number : CG_NO_ACTOR;
  }
  if (change->sequence <= last) {
    return CG_WRONG_SEQUENCE;
  }
  if (change->max_op > UINT32_MAX || change->op_count > change->max_op) {
    return CG_WRONG_OPS;
  }
  for (size_t at = 0; at + CG_HASH <= change->dependencies.bytes; at += CG_HASH) {
    if (memcmp(change->dependencies.hashes + at, change->hash, CG_HASH) == 0) {
      return CG_UNKNOWN_DEPENDENCY;
    }
  }
  return CG_DONE;
}

/* Whether the queue has the change already, or another of the same device and sequence: then handing the batch over would be refused whole. */
static uint32_t waits_already(uint64_t key, const cg_change *change) {
  uint64_t yes = 0;
  uint32_t number = cg_hub_queue_has_hash(&queue, change->hash, &yes);
  if (number == CG_DONE && yes == 0) {
    number = cg_hub_queue_has_actor_seq(&queue, key, change->sequence, &yes);
  }
  return number == CG_DONE && yes == 1 ? CG_ALREADY_WAITING : number;
}

/* A change comes in: into the batch, unless it is known, can never be added, or waits. CG_ALREADY_KNOWN, also where the batch has it, is no fault: it came twice.
 * CG_ALREADY_WAITING is none for the same change; for another one of the same device and sequence it is the device's. With CG_NO_QUEUE_ROOM the batch is full: settle, and push
 * again. */
static uint32_t receive(uint64_t key, const cg_change *change) {
  uint64_t yes = 0;
  uint32_t number = cg_hub_has_change(&graph, change->hash, &yes);
  if (number == CG_DONE && yes == 1) {
    return CG_ALREADY_KNOWN;
  }
  number = number == CG_DONE ? never_added(key, change) : number;
  number = number == CG_DONE ? waits_already(key, change) : number;
  return number == CG_DONE ? cg_hub_batch_push(&batch, key, change) : number;
}

/* What became of a record that is out of the queue: LATER is what may still be added, now or another time. */
typedef enum Fate { LATER, ADDED, REFUSED } Fate;

/* A round of adding: the sequence that comes next for each actor, 0 where it was not asked yet, and why the hub must stop, if it must. */
typedef struct Round {
  uint64_t next[CG_HUB_ACTORS];
  uint32_t stop;
} Round;

/* Whether the device has still to come to the sequence. */
static int still_to_come(uint64_t actor, uint64_t sequence, Round *round) {
  uint64_t last = 0;
  if (actor == CG_NOBODY) {
    return 0;
  }
  if (round->next[actor] == 0 && cg_hub_seq_for_actor(&graph, actor, &last) == CG_DONE) {
    round->next[actor] = last + 1;
  }
  return sequence > round->next[actor];
}

static Fate place(uint64_t key, const cg_change *change, Round *round) {
  uint64_t actor = cg_actor_of(&keys, key);
  if (round->stop != CG_DONE || still_to_come(actor, change->sequence, round)) {
    return LATER;
  }
  uint32_t number = cg_hub_add(&graph, actor, change, NULL);
  switch (number) {
  case CG_DONE:
    round->next[actor]++;
    say("added", key, change, number);
    return ADDED;
  case CG_ALREADY_KNOWN: /* accepted long ago */
    say("added", key, change, number);
    return ADDED;
  case CG_UNKNOWN_DEPENDENCY: /* one that is not added yet, or not at all */
    return LATER;
  case CG_NO_NODE_ROOM:
  case CG_NO_EDGE_ROOM:
  case CG_NOT_VALID: /* the record is full, or its tables were damaged (then the saved one is read): a person must act */
    round->stop = number;
    return LATER;
  default: /* its actor was taken away meanwhile */
    say("refused", key, change, number);
    return REFUSED;
  }
}

/* Adds what can be added of the first records of the batch's tables; the rest waits on. Release looks at dependencies alone, so a device's third may stand before its second: it goes
 * over them again while one more went in. Nothing is lost where the hub must stop: what is not added waits, and where there is no room to wait it was not told to any device. */
static uint32_t place_all(size_t records) {
  Fate fate[CG_WAITING] = {LATER};
  Round round = {{0}, CG_DONE};
  for (int more = 1; more;) {
    more = 0;
    for (size_t i = 0; i < records; i++) {
      if (fate[i] == LATER) {
        cg_change change = cg_change_at(&batch, i);
        fate[i] = place(cg_key_at(&batch, i), &change, &round);
        more |= fate[i] == ADDED;
      }
    }
  }
  for (size_t i = 0; i < records; i++) {
    if (fate[i] == LATER) {
      cg_change change = cg_change_at(&batch, i);
      uint32_t number = cg_let_wait(&queue, cg_key_at(&batch, i), &change);
      say(number == CG_DONE ? "waits on" : "sent again", cg_key_at(&batch, i), &change, number);
    }
  }
  return round.stop;
}

/* Hands the batch over, releases what is ready and adds it. Where the queue does not take the batch, what can be added of it is added past the queue, since that may be what the queue
 * waits for, and the rest is sent again. Released records are out of the queue and stand in the tables of the batch, which is empty by then. */
static uint32_t settle(void) {
  uint64_t records = 0;
  uint32_t number = cg_hub_hand_over(&queue, &batch);
  if (number == CG_NO_QUEUE_ROOM || number == CG_ALREADY_WAITING) {
    printf("  hand over: %s\n", cg_text(number));
    uint32_t stop = place_all(hub.batch.count[0]);
    number = cg_hub_queue_open(&batch);
    number = number == CG_DONE ? stop : number;
  }
  if (number == CG_DONE) {
    number = cg_hub_release(&graph, &queue, &batch, &records);
  }
  if (number == CG_DONE) {
    number = place_all((size_t)records);
  }
  return number; /* here the record is saved, and then the devices are told what was added and what waits: docs/SAVING.md */
}

/* What a tablet is missing, in the order in which it can take it. What came in is settled first; then the batch is empty, and the answer goes into its dependencies, which have room
 * for the longest. It is sent before the next change is received, which is written there. */
static uint32_t missing(cg_list have, cg_list *answer) {
  uint32_t number = hub.batch.count[0] > 0 ? settle() : CG_DONE;
  return number == CG_DONE ? cg_hub_missing(&graph, have, hub.batch.deps, sizeof hub.batch.deps, answer) : number;
}

/* Whether a tablet has seen a change: by the history itself, which is right on every graph. What lies in the history is removed from the list of that one hash. */
static uint32_t seen(cg_list have, const uint8_t *hash, int *yes) {
  uint64_t bytes = 0, known = 0;
  uint8_t left[CG_HASH];
  uint32_t number = cg_hub_has_change(&graph, hash, &known);
  if (number == CG_DONE) {
    number = cg_hub_remove_ancestors(&graph, cg_list_of(hash, 1), have, left, sizeof left, &bytes);
  }
  *yes = number == CG_DONE && known == 1 && bytes == 0;
  return number;
}

/* ---- a morning. Here a hash is one letter 32 times; a real one comes with the change. */

static uint8_t letters[2][CG_DEPENDENCIES * CG_HASH];

static cg_list list(int room, const char *text) {
  size_t n = strlen(text);
  for (size_t i = 0; i < n; i++) {
    memset(letters[room] + CG_HASH * i, text[i], CG_HASH);
  }
  return cg_list_of(letters[room], n);
}

static void comes(uint64_t key, char letter, uint64_t sequence, uint64_t max_op, const char *on) {
  uint8_t hash[CG_HASH];
  memset(hash, letter, CG_HASH);
  cg_change change = {hash, sequence, max_op, 1, list(0, on)};
  uint32_t number = receive(key, &change);
  say("received", key, &change, number);
}

static void settled(void) {
  uint32_t number = settle();
  printf("  settled: %s; %u wait", cg_text(number), (unsigned)hub.queue.count[0]);
  for (size_t i = 0; hub.queue.count[0] < 8 && i < hub.queue.count[0]; i++) {
    printf(" %c", cg_change_at(&queue, i).hash[0]);
  }
  printf("\n");
}

static void asks(const char *tablet, const char *has) {
  cg_list answer = {NULL, 0};
  uint32_t number = missing(list(0, has), &answer);
  printf("  %s has \"%s\": %s, missing \"", tablet, has, cg_text(number));
  for (size_t i = 0; i < answer.bytes; i += CG_HASH) {
    printf("%c", answer.hashes[i]);
  }
  printf("\"\n");
}

static void has_seen(const char *has, char letter) {
  int yes = 0;
  char text[2] = {letter, 0};
  uint32_t number = seen(list(0, has), list(1, text).hashes, &yes);
  printf("  who has \"%s\" has seen %c: %s, %s\n", has, letter, cg_text(number), yes ? "yes" : "no");
}

static void show_keys(void) {
  printf("  actors:");
  for (uint64_t a = 0; a < keys.count; a++) {
    printf(" %u is device %u;", (unsigned)a, (unsigned)keys.key[a]);
  }
  printf("\n");
}

static void morning(void) {
  printf("open: %s\n", cg_text(open_hub()));
  printf("device 500: %s\n", cg_text(device(500)));
  printf("device 700: %s\n", cg_text(device(700)));
  show_keys();

  printf("changes come in any order, and twice\n");
  comes(700, 'c', 2, 3, "b");
  comes(700, 'b', 1, 2, "a");
  comes(700, 'b', 1, 2, "a");
  settled();
  comes(700, 'b', 1, 2, "a");

  printf("device 600 comes, and stands between the two: %s\n", cg_text(device(600)));
  show_keys();

  printf("what they wait for comes\n");
  comes(500, 'a', 1, 1, "");
  settled();
  comes(500, 'a', 1, 1, "");
  comes(600, 'd', 1, 4, "c");
  comes(600, 'f', 3, 6, "d"); /* its third, before its second */
  comes(500, 'g', 2, 7, "f");
  comes(800, 'h', 1, 7, "d"); /* nobody has this key */
  comes(600, 'e', 2, 0, "d"); /* one op, and a max op of 0 */
  comes(600, 'e', 2, 5, "e"); /* on itself */
  settled();
  comes(600, 'e', 2, 5, "d");
  settled();
  comes(600, 'i', 2, 8, "d"); /* its second, for the second time */
  printf("device 900 comes: %s\n", cg_text(device(900)));
  comes(900, 'j', 1, 8, "a");
  printf("and goes before its change is added: %s\n", cg_text(cg_take_key(&graph, &keys, cg_actor_of(&keys, 900))));
  settled();

  printf("tablets ask\n");
  asks("a new tablet", "");
  asks("tablet 1", "b");
  asks("tablet 2", "d");
  has_seen("b", 'a');
  has_seen("b", 'd');

  cg_clock clock;
  uint32_t number = cg_hub_clock_of(&graph, list(0, "d"), &clock);
  printf("  clock of d: %s:", cg_text(number));
  for (uint32_t a = 0; number == CG_DONE && a < clock.count; a++) {
    printf(" device %u up to %u;", (unsigned)keys.key[a], (unsigned)clock.entries[a]);
  }
  printf("\n");
}

/* The queue is full of changes that wait for y, which does not come; z, which can be added, comes all the same. */
static void full_queue(void) {
  printf("a full queue\n");
  uint8_t hash[CG_HASH];
  cg_change change = {hash, 0, 0, 1, list(0, "y")};
  for (uint32_t n = 0; n < CG_WAITING; n++) {
    memset(hash, '*', CG_HASH);
    memcpy(hash + 1, &n, sizeof n);
    change.sequence = n + 3, change.max_op = n + 9;
    uint32_t number = receive(500, &change);
    if (number != CG_DONE) {
      say("received", 500, &change, number);
    }
  }
  settled();
  comes(600, 'x', 5, 9, "y");
  comes(600, 'z', 4, 8, "d");
  settled();
}

/* ---- every number, by a call that answers it. Nothing that was lent has changed after any of them. */

static void refused(const char *what, uint32_t number) { printf("  %2u %s: %s\n", (unsigned)number, what, cg_text(number)); }

static uint32_t add(const cg_graph *g, uint64_t actor, char letter, uint64_t sequence, uint64_t max_op, uint64_t op_count, cg_list on) {
  cg_change change = {list(1, (char[2]){letter, 0}).hashes, sequence, max_op, op_count, on};
  uint64_t unknown = 0;
  uint32_t number = cg_hub_add(g, actor, &change, &unknown);
  if (number == CG_UNKNOWN_DEPENDENCY) {
    printf("     the first unknown one is %c:\n", on.hashes[CG_HASH * unknown]);
  }
  return number;
}

static void refusals_of_add(void) {
  uint8_t many[CG_HASH * (CG_DEPENDENCIES + 1)];
  memset(many, 'a', sizeof many);
  cg_list none = cg_list_of(NULL, 0), too_many = {many, sizeof many}, bytes = {many, 31};
  refused("a list of dependencies of 31 bytes", add(&graph, 0, 'h', 2, 9, 1, bytes));
  refused("a change that is known", add(&graph, 0, 'a', 1, 1, 1, none));
  refused("a change on one that is not", add(&graph, 0, 'h', 2, 9, 1, list(0, "ay")));
  refused("a change of nobody", add(&graph, 64, 'h', 1, 9, 1, none));
  refused("a sequence left out", add(&graph, 0, 'h', 4, 9, 1, none));
  refused("more ops than the max op", add(&graph, 0, 'h', 3, 9, 10, none));
  refused("33 dependencies", add(&graph, 0, 'h', 3, 9, 1, too_many));

  /* A graph of other room: the same struct, over its own tables. Here 1 change, no edge, 1 actor. */
  uint8_t hashes[CG_HASH];
  uint32_t nodes[CG_NODE], clocks[1], counts[CG_COUNTS];
  cg_graph small = {hashes, sizeof hashes, nodes, CG_NODE, NULL, 0, clocks, 1, counts, CG_COUNTS};
  refused("a small graph opened", cg_hub_open(&small, 1));
  refused("its only change", add(&small, 0, 'a', 1, 1, 1, none));
  refused("a second one", add(&small, 0, 'b', 2, 2, 1, list(0, "a")));
  cg_edge edges[1];
  uint8_t two_hashes[2 * CG_HASH];
  uint32_t two_nodes[2 * CG_NODE], two_clocks[2];
  small = (cg_graph){two_hashes, sizeof two_hashes, two_nodes, 2 * CG_NODE, edges, 1, two_clocks, 2, counts, CG_COUNTS};
  refused("room for 2 changes, 1 edge", cg_hub_open(&small, 1));
  refused("the first", add(&small, 0, 'a', 1, 1, 1, none));
  refused("the second, twice on the first", add(&small, 0, 'b', 2, 2, 1, list(0, "aa")));
}

static void refusals(void) {
  uint8_t hash[CG_HASH], little[CG_HASH - 1];
  uint64_t one[1] = {1};
  cg_change change = {list(0, "y").hashes, 9, 9, 1, {NULL, 0}};
  refused("device 500 taken away", cg_take_key(&graph, &keys, 0));
  refused("an actor put in at place 9", cg_hub_insert_actor(&graph, 9));
  refused("the hash of change 4000", cg_hub_index_to_hash(&graph, 4000, hash));
  refused("the owner of op 999", cg_hub_owner(&graph, 0, 999, hash));
  refused("heads into 31 bytes", cg_hub_heads(&graph, little, sizeof little, NULL));
  refused("y pushed", cg_hub_batch_push(&batch, 500, &change));
  change.hash = list(0, "x").hashes;
  refused("x pushed, of y's device and sequence", cg_hub_batch_push(&batch, 500, &change));
  refused("the batch opened again", cg_hub_queue_open(&batch));
  uint32_t count[1] = {0};
  cg_queue none = {NULL, 0, NULL, 0, NULL, 0, count, 1};
  refused("a push to a batch without room", cg_hub_batch_push(&none, 500, &change));
  cg_columns columns = {hash, CG_HASH, one, 1, one, 1, one, 1, one, 1, one, 1, NULL, 0, {NULL, 0}, 1};
  refused("columns that name no such actor", cg_hub_load(&graph, &columns));
  hub.nodes[1] = 7; /* a sequence that is wrong: the next call finds it, and so does every later one */
  refused("a damaged table", cg_hub_len(&graph, NULL));
}

int main(void) {
  morning();
  full_queue();
  printf("every number\n");
  refusals_of_add();
  refusals();
  return 0;
}
