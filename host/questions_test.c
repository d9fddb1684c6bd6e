/* Tests the questions from C: each answer on the worked example, each number that a question can give and their order, buffers of the exact length, one short and
 * one long, places for what is told, tables of the exact length, one short and one long, and tables damaged in each field that validity names.
 * Every answer but 0 must leave every byte of the tables, the buffer and the places. Tables and buffers end at a page that may not be touched. */
#include "graph.h"

#include "check.h"

static void expect_of(int right, const char *question, const char *what) {
  char both[256];
  snprintf(both, sizeof both, "%s: %s", question, what);
  expect(right, both);
}

/* ---- tables as they are lent */

typedef struct Lent {
  uint8_t *hashes;
  size_t hashes_len;
  uint32_t *nodes;
  size_t nodes_len;
  cg_edge *edges;
  size_t edges_len;
  uint32_t *clocks;
  size_t clocks_len;
  uint32_t *counts;
  size_t counts_len;
} Lent;

#define TABLES(t) (t)->hashes, (t)->hashes_len, (t)->nodes, (t)->nodes_len, (t)->edges, (t)->edges_len, (t)->clocks, (t)->clocks_len, (t)->counts, (t)->counts_len

static Lent lent_of(const Graph *g) {
  return (Lent){g->hashes, 32 * g->changes, g->nodes, 6 * g->changes, g->edges, g->edge_room, g->clocks, g->changes * g->actors, g->counts, 3};
}

static size_t size_of(const Lent *t) {
  return t->hashes_len + 4 * t->nodes_len + sizeof(cg_edge) * t->edges_len + 4 * t->clocks_len + 4 * t->counts_len;
}

static uint8_t *copy_of(const Lent *t) {
  const void *from[5] = {t->hashes, t->nodes, t->edges, t->clocks, t->counts};
  size_t parts[5] = {t->hashes_len, 4 * t->nodes_len, sizeof(cg_edge) * t->edges_len, 4 * t->clocks_len, 4 * t->counts_len};
  uint8_t *copy = malloc(size_of(t) + 1);
  size_t at = 0;
  for (int i = 0; i < 5; i++) {
    memcpy(copy + at, from[i], parts[i]);
    at += parts[i];
  }
  return copy;
}

/* The worked example: H1, then H2 and H3 on it. */
static Graph worked(void) {
  Graph g = graph_of(4, 4, 3, 0xEE);
  uint32_t one[1] = {1};
  expect_of(open_graph(&g, 2) == CG_DONE, "worked", "open");
  expect_of(add(&g, 1, 0, 1, 3, 3, one, 0) == CG_DONE, "worked", "add H1");
  expect_of(add(&g, 2, 1, 1, 5, 2, one, 1) == CG_DONE, "worked", "add H2");
  expect_of(add(&g, 3, 0, 2, 5, 2, one, 1) == CG_DONE, "worked", "add H3");
  return g;
}

/* ---- each question with arguments of its own, and its answer on the worked example */

static uint8_t h1[32], h2[32], h3[32], h9[32];

static uint32_t clock_of(const Lent *t, void *out, size_t n, uint64_t *told, size_t m) { return cg_clock_of(TABLES(t), h2, 32, out, n, told, m); }
static uint32_t missing(const Lent *t, void *out, size_t n, uint64_t *told, size_t m) { return cg_missing(TABLES(t), h2, 32, out, n, told, m); }
static uint32_t owner(const Lent *t, void *out, size_t n, uint64_t *told, size_t m) { return cg_owner(TABLES(t), 0, 4, out, n, told, m); }
static uint32_t heads(const Lent *t, void *out, size_t n, uint64_t *told, size_t m) { return cg_heads(TABLES(t), out, n, told, m); }
static uint32_t head_indexes(const Lent *t, void *out, size_t n, uint64_t *told, size_t m) { return cg_head_indexes(TABLES(t), out, n, told, m); }
static uint32_t index_to_hash(const Lent *t, void *out, size_t n, uint64_t *told, size_t m) { return cg_index_to_hash(TABLES(t), 1, out, n, told, m); }
static uint32_t hash_for_actor_seq(const Lent *t, void *out, size_t n, uint64_t *told, size_t m) { return cg_get_hash_for_actor_seq(TABLES(t), 0, 2, out, n, told, m); }
static uint32_t actor_ids(const Lent *t, void *out, size_t n, uint64_t *told, size_t m) { return cg_actor_ids(TABLES(t), 0, out, n, told, m); }
static uint32_t hash_to_index(const Lent *t, void *out, size_t n, uint64_t *told, size_t m) { (void)out; (void)n; return cg_hash_to_index(TABLES(t), h3, 32, told, m); }
static uint32_t has_change(const Lent *t, void *out, size_t n, uint64_t *told, size_t m) { (void)out; (void)n; return cg_has_change(TABLES(t), h3, 32, told, m); }
static uint32_t seq_for_actor(const Lent *t, void *out, size_t n, uint64_t *told, size_t m) { (void)out; (void)n; return cg_seq_for_actor(TABLES(t), 0, told, m); }
static uint32_t max_op_for_actor(const Lent *t, void *out, size_t n, uint64_t *told, size_t m) { (void)out; (void)n; return cg_max_op_for_actor(TABLES(t), 0, told, m); }
static uint32_t max_op(const Lent *t, void *out, size_t n, uint64_t *told, size_t m) { (void)out; (void)n; return cg_max_op(TABLES(t), told, m); }
static uint32_t len(const Lent *t, void *out, size_t n, uint64_t *told, size_t m) { (void)out; (void)n; return cg_len(TABLES(t), told, m); }
static uint32_t num_actors(const Lent *t, void *out, size_t n, uint64_t *told, size_t m) { (void)out; (void)n; return cg_num_actors(TABLES(t), told, m); }

static uint32_t clock_at(const Lent *t, void *out, size_t n, uint64_t *told, size_t m) { return cg_clock_at(TABLES(t), h2, 32, out, n, told, m); }
static uint32_t deps_for_hash(const Lent *t, void *out, size_t n, uint64_t *told, size_t m) { return cg_deps_for_hash(TABLES(t), h3, 32, out, n, told, m); }
static uint8_t both_heads[64];
static uint32_t heads_are_current(const Lent *t, void *out, size_t n, uint64_t *told, size_t m) { (void)out; (void)n; return cg_heads_are_current(TABLES(t), both_heads, 64, told, m); }
static uint32_t chained(const Lent *t, void *out, size_t n, uint64_t *told, size_t m) { (void)out; (void)n; return cg_chained(TABLES(t), told, m); }

/* Of H1, H2 and H3 outside the history of H2: H3 alone. */
static uint8_t all_three[96];
static uint32_t remove_ancestors(const Lent *t, void *out, size_t n, uint64_t *told, size_t m) { return cg_remove_ancestors(TABLES(t), all_three, 96, h2, 32, out, n, told, m); }

static const uint32_t three_five[2] = {3, 5}, ones[2] = {1, 1}, one_two[2] = {1, 2}, zero_one[2] = {0, 1};

typedef struct Question {
  const char *name;
  uint32_t (*ask)(const Lent *, void *, size_t, uint64_t *, size_t);
  size_t element;     /* bytes of an element of the buffer, 0 where there is none */
  const void *answer; /* what the buffer holds */
  uint64_t told;
} Question;

static const Question questions[] = {
    {"clock_of", clock_of, 4, ones, 2},
    {"missing", missing, 1, h3, 32},
    {"owner", owner, 1, h3, 32},
    {"heads", heads, 1, both_heads, 64},
    {"head_indexes", head_indexes, 4, one_two, 2},
    {"index_to_hash", index_to_hash, 1, h2, 32},
    {"get_hash_for_actor_seq", hash_for_actor_seq, 1, h3, 32},
    {"actor_ids", actor_ids, 4, zero_one, 2},
    {"hash_to_index", hash_to_index, 0, NULL, 2},
    {"has_change", has_change, 0, NULL, 1},
    {"seq_for_actor", seq_for_actor, 0, NULL, 2},
    {"max_op_for_actor", max_op_for_actor, 0, NULL, 5},
    {"max_op", max_op, 0, NULL, 5},
    {"len", len, 0, NULL, 3},
    {"num_actors", num_actors, 0, NULL, 2},
    {"clock_at", clock_at, 4, three_five, 2},
    {"deps_for_hash", deps_for_hash, 1, h1, 32},
    {"remove_ancestors", remove_ancestors, 1, h3, 32},
    {"heads_are_current", heads_are_current, 0, NULL, 1},
    {"chained", chained, 0, NULL, 1},
};
enum { QUESTIONS = sizeof questions / sizeof questions[0] };

/* ---- the answers on valid tables: the buffer exact, one long and one short; a place, two places and none */

static void answers(void) {
  Graph g = worked();
  Lent t = lent_of(&g);
  uint8_t *before = copy_of(&t);
  for (size_t i = 0; i < QUESTIONS; i++) {
    const Question *q = &questions[i];
    size_t takes = q->element == 0 ? 0 : (size_t)q->told;
    for (int step = -1; step <= 1; step++) {
      if (q->element == 0 && step != 0) {
        continue;
      }
      size_t room = (size_t)((long)takes + step);
      for (size_t places = 0; places <= 2; places++) {
        uint8_t *out = guarded(q->element * room, 0xCC);
        uint64_t *told = guarded(8 * places, 0xDD);
        uint32_t r = q->ask(&t, out, room, told, places);
        size_t wrote = 0;
        if (step < 0) {
          expect_of(r == CG_SHORT_BUFFER, q->name, "a buffer one short");
        } else {
          expect_of(r == CG_DONE, q->name, "a buffer of the length, or one long");
          wrote = q->element * takes;
          expect_of(wrote == 0 || memcmp(out, q->answer, wrote) == 0, q->name, "the answer");
          expect_of(places == 0 || told[0] == q->told, q->name, "what is told");
        }
        for (size_t b = wrote; b < q->element * room; b++) {
          expect_of(out[b] == 0xCC, q->name, "what lies past the answer, or before a refusal, stays");
        }
        for (size_t p = step < 0 ? 0 : 1; p < places; p++) {
          expect_of(told[p] == 0xDDDDDDDDDDDDDDDDu, q->name, "the other places stay");
        }
        unguard(out, q->element * room);
        unguard(told, 8 * places);
      }
    }
    uint8_t *after = copy_of(&t);
    expect_of(memcmp(before, after, size_of(&t)) == 0, q->name, "the tables stay");
    free(after);
  }
  free(before);
}

/* ---- tables that are not valid: 1, and every byte stays */

static void refused(const Lent *t, const char *what) {
  uint8_t *before = copy_of(t);
  for (size_t i = 0; i < QUESTIONS; i++) {
    const Question *q = &questions[i];
    uint8_t out[256];
    uint64_t told[2] = {77, 78};
    memset(out, 0xCC, sizeof out);
    expect_of(q->ask(t, out, sizeof out / 4, told, 2) == CG_NOT_VALID, q->name, what);
    expect_of(q->ask(t, out, 0, told, 0) == CG_NOT_VALID, q->name, "1 comes before 15");
    for (size_t b = 0; b < sizeof out; b++) {
      expect_of(out[b] == 0xCC, q->name, "1 leaves the buffer");
    }
    expect_of(told[0] == 77 && told[1] == 78, q->name, "1 leaves the places");
    uint8_t *after = copy_of(t);
    expect_of(memcmp(before, after, size_of(t)) == 0, q->name, "1 leaves the tables");
    free(after);
  }
  free(before);
}

static void damaged(void) {
  Graph g = worked();
  Lent t = lent_of(&g);
  Harm harm[HARMS];
  harms_of(&g, harm);
  for (size_t i = 0; i < HARMS; i++) {
    uint32_t old = *harm[i].at;
    *harm[i].at = harm[i].value;
    refused(&t, harm[i].what);
    *harm[i].at = old;
  }
  for (size_t i = 0; i < QUESTIONS; i++) {
    uint8_t out[256];
    uint64_t told[1];
    expect_of(questions[i].ask(&t, out, 64, told, 1) == CG_DONE, questions[i].name, "the mended tables are valid");
  }
}

/* Each table one element short and one long. The edges' length is the edge room itself, so one short of those in use, and one above 16,384. */
static void lengths(void) {
  Graph g = worked();
  Lent t = lent_of(&g);
  size_t right[5] = {t.hashes_len, t.nodes_len, t.edges_len, t.clocks_len, t.counts_len};
  size_t element[5] = {1, 4, sizeof(cg_edge), 4, 4};
  const void *from[5] = {g.hashes, g.nodes, g.edges, g.clocks, g.counts};
  for (int table = 0; table < 5; table++) {
    for (int step = -1; step <= 1; step += 2) {
      size_t n[5];
      void *part[5];
      memcpy(n, right, sizeof n);
      n[table] = table != 2 ? (size_t)((long)n[table] + step) : step < 0 ? 1 : CG_HUB_EDGES + 1;
      for (int k = 0; k < 5; k++) {
        part[k] = guarded(element[k] * n[k], 0);
        memcpy(part[k], from[k], element[k] * (n[k] < right[k] ? n[k] : right[k]));
      }
      Lent wrong = {part[0], n[0], part[1], n[1], part[2], n[2], part[3], n[3], part[4], n[4]};
      refused(&wrong, "a length that disagrees");
      for (int k = 0; k < 5; k++) {
        unguard(part[k], element[k] * n[k]);
      }
    }
  }
}

/* ---- what each question refuses by itself, and what comes first */

static void own_refusals(void) {
  Graph g = worked();
  Lent t = lent_of(&g);
  uint8_t *before = copy_of(&t), list[65], out[128];
  uint32_t entries[8];
  uint64_t told[1] = {77};
  memset(list, 7, sizeof list);
  memcpy(list, h2, 32);
  memset(out, 0xCC, sizeof out);
  memset(entries, 0xCC, sizeof entries);
  const size_t wrong[3] = {31, 33, 65};
  for (int i = 0; i < 3; i++) {
    expect_of(cg_clock_of(TABLES(&t), list, wrong[i], entries, 8, told, 1) == CG_MALFORMED, "clock_of", "a list that is no multiple of 32");
    expect_of(cg_clock_of(TABLES(&t), list, wrong[i], entries, 0, told, 1) == CG_MALFORMED, "clock_of", "2 comes before 15");
    expect_of(cg_missing(TABLES(&t), list, wrong[i], out, 128, told, 1) == CG_MALFORMED, "missing", "a list that is no multiple of 32");
    expect_of(cg_missing(TABLES(&t), list, wrong[i], out, 0, told, 1) == CG_MALFORMED, "missing", "2 comes before 15");
    expect_of(cg_clock_at(TABLES(&t), list, wrong[i], entries, 8, told, 1) == CG_MALFORMED, "clock_at", "a list that is no multiple of 32");
    expect_of(cg_clock_at(TABLES(&t), list, wrong[i], entries, 0, told, 1) == CG_MALFORMED, "clock_at", "2 comes before 15");
    expect_of(cg_deps_for_hash(TABLES(&t), list, wrong[i], out, 128, told, 1) == CG_MALFORMED, "deps_for_hash", "a hash that is not 32 bytes");
    expect_of(cg_deps_for_hash(TABLES(&t), list, wrong[i], out, 0, told, 1) == CG_MALFORMED, "deps_for_hash", "2 comes before 15");
    expect_of(cg_remove_ancestors(TABLES(&t), list, wrong[i], h2, 32, out, 128, told, 1) == CG_MALFORMED, "remove_ancestors", "a list that is no multiple of 32");
    expect_of(cg_remove_ancestors(TABLES(&t), h2, 32, list, wrong[i], out, 128, told, 1) == CG_MALFORMED, "remove_ancestors", "heads that are no multiple of 32");
    expect_of(cg_remove_ancestors(TABLES(&t), h2, 32, list, wrong[i], out, 0, told, 1) == CG_MALFORMED, "remove_ancestors", "2 comes before 15");
    expect_of(cg_heads_are_current(TABLES(&t), list, wrong[i], told, 1) == CG_MALFORMED, "heads_are_current", "a list that is no multiple of 32");
    expect_of(cg_hash_to_index(TABLES(&t), list, wrong[i], told, 1) == CG_MALFORMED, "hash_to_index", "a hash that is not 32 bytes");
    expect_of(cg_has_change(TABLES(&t), list, wrong[i], told, 1) == CG_MALFORMED, "has_change", "a hash that is not 32 bytes");
  }
  expect_of(cg_hash_to_index(TABLES(&t), list, 0, told, 1) == CG_MALFORMED, "hash_to_index", "a hash of no bytes");
  expect_of(cg_has_change(TABLES(&t), list, 0, told, 1) == CG_MALFORMED, "has_change", "a hash of no bytes");
  expect_of(cg_hash_to_index(TABLES(&t), h9, 32, told, 1) == CG_NOT_FOUND, "hash_to_index", "an unknown hash");
  const uint64_t nowhere[3] = {3, 4, UINT64_MAX};
  for (int i = 0; i < 3; i++) {
    expect_of(cg_index_to_hash(TABLES(&t), nowhere[i], out, 128, told, 1) == CG_NOT_FOUND, "index_to_hash", "no such node");
    expect_of(cg_index_to_hash(TABLES(&t), nowhere[i], out, 0, told, 1) == CG_NOT_FOUND, "index_to_hash", "13 comes before 15");
  }
  const uint64_t pairs[6][2] = {{0, 0}, {0, 3}, {1, 2}, {2, 1}, {UINT64_MAX, 1}, {0, UINT64_MAX}};
  for (int i = 0; i < 6; i++) {
    expect_of(cg_get_hash_for_actor_seq(TABLES(&t), pairs[i][0], pairs[i][1], out, 128, told, 1) == CG_NOT_FOUND, "get_hash_for_actor_seq", "no such change");
    expect_of(cg_get_hash_for_actor_seq(TABLES(&t), pairs[i][0], pairs[i][1], out, 0, told, 1) == CG_NOT_FOUND, "get_hash_for_actor_seq", "13 comes before 15");
  }
  const uint64_t ops[6][2] = {{0, 0}, {0, 6}, {1, 3}, {2, 1}, {UINT64_MAX, 1}, {0, UINT64_MAX}};
  for (int i = 0; i < 6; i++) {
    expect_of(cg_owner(TABLES(&t), ops[i][0], ops[i][1], out, 128, told, 1) == CG_NO_OWNER, "owner", "no change owns the op");
    expect_of(cg_owner(TABLES(&t), ops[i][0], ops[i][1], out, 0, told, 1) == CG_NO_OWNER, "owner", "14 comes before 15");
  }
  for (size_t b = 0; b < sizeof out; b++) {
    expect_of(out[b] == 0xCC, "all", "a refusal leaves the buffer");
  }
  for (size_t e = 0; e < 8; e++) {
    expect_of(entries[e] == 0xCCCCCCCCu, "all", "a refusal leaves the entries");
  }
  expect_of(told[0] == 77, "all", "a refusal leaves the place");
  uint8_t *after = copy_of(&t);
  expect_of(memcmp(before, after, size_of(&t)) == 0, "all", "a refusal leaves the tables");
  free(after);
  free(before);
}

/* ---- further answers */

static void further(void) {
  Graph g = worked();
  Lent t = lent_of(&g);
  uint8_t list[96], out[128];
  uint32_t entries[8];
  uint64_t told[1] = {0};

  expect_of(cg_clock_of(TABLES(&t), list, 0, entries, 2, told, 1) == CG_DONE && told[0] == 2 && entries[0] == 0 && entries[1] == 0, "clock_of", "nothing of an empty list");
  expect_of(cg_clock_of(TABLES(&t), h9, 32, entries, 2, told, 1) == CG_DONE && entries[0] == 0 && entries[1] == 0, "clock_of", "nothing of an unknown hash");
  memcpy(list, h2, 32);
  memcpy(list + 32, h9, 32);
  memcpy(list + 64, h3, 32);
  expect_of(cg_clock_of(TABLES(&t), list, 96, entries, 2, told, 1) == CG_DONE && entries[0] == 2 && entries[1] == 1, "clock_of", "both heads, and an unknown hash between them");

  expect_of(cg_clock_at(TABLES(&t), list, 96, entries, 2, told, 1) == CG_DONE && entries[0] == 5 && entries[1] == 5, "clock_at", "both heads");
  expect_of(cg_clock_at(TABLES(&t), h9, 32, entries, 2, told, 1) == CG_DONE && entries[0] == 0 && entries[1] == 0, "clock_at", "nothing of an unknown hash");
  expect_of(cg_deps_for_hash(TABLES(&t), h9, 32, out, 0, told, 1) == CG_DONE && told[0] == 0, "deps_for_hash", "none of an unknown hash, and no buffer is needed");
  expect_of(cg_deps_for_hash(TABLES(&t), h1, 32, out, 0, told, 1) == CG_DONE && told[0] == 0, "deps_for_hash", "none of the first");
  expect_of(cg_remove_ancestors(TABLES(&t), list, 96, h9, 32, out, 96, told, 1) == CG_DONE && told[0] == 96 && memcmp(out, h2, 32) == 0 && memcmp(out + 32, h3, 32) == 0 && memcmp(out + 64, h9, 32) == 0,
         "remove_ancestors", "unknown heads take nothing away; ascending");
  expect_of(cg_remove_ancestors(TABLES(&t), list, 96, both_heads, 64, out, 32, told, 1) == CG_DONE && told[0] == 32 && memcmp(out, h9, 32) == 0, "remove_ancestors", "an unknown hash stays");
  expect_of(cg_remove_ancestors(TABLES(&t), both_heads, 64, both_heads, 64, out, 0, told, 1) == CG_DONE && told[0] == 0, "remove_ancestors", "heads are in their own history, and no buffer is needed");
  expect_of(cg_heads_are_current(TABLES(&t), list, 96, told, 1) == CG_DONE && told[0] == 0, "heads_are_current", "no with an unknown hash");
  expect_of(cg_heads_are_current(TABLES(&t), h2, 32, told, 1) == CG_DONE && told[0] == 0, "heads_are_current", "no with a head left out");
  expect_of(cg_heads_are_current(TABLES(&t), h2, 0, told, 1) == CG_DONE && told[0] == 0, "heads_are_current", "no of an empty list");
  memcpy(list + 32, h3, 32);
  memcpy(list, h3, 32);
  memcpy(list + 64, h2, 32);
  expect_of(cg_heads_are_current(TABLES(&t), list, 96, told, 1) == CG_DONE && told[0] == 1, "heads_are_current", "order and repeats are ignored");

  memset(out, 0xCC, sizeof out);
  expect_of(cg_missing(TABLES(&t), list, 0, out, 0, told, 1) == CG_DONE && told[0] == 96 && out[0] == 0xCC, "missing", "an empty have-list writes nothing, and 15 is not given");
  expect_of(cg_missing_shown(t.hashes, out, 0) == t.hashes && cg_missing_shown(t.hashes, out, 32) == out, "missing", "what is shown");
  expect_of(memcmp(cg_missing_shown(t.hashes, out, 0), h1, 32) == 0 && memcmp(cg_missing_shown(t.hashes, out, 0) + 64, h3, 32) == 0, "missing", "the table's own bytes");
  expect_of(cg_missing(TABLES(&t), h9, 32, out, 96, told, 1) == CG_DONE && told[0] == 96 && memcmp(out, t.hashes, 96) == 0, "missing", "to an unknown hash all is missing, through the buffer");
  expect_of(cg_missing(TABLES(&t), list, 96, out, 0, told, 1) == CG_DONE && told[0] == 0, "missing", "to who has both heads nothing is missing, and no buffer is needed");

  expect_of(cg_owner(TABLES(&t), 0, 1, out, 32, told, 1) == CG_DONE && memcmp(out, h1, 32) == 0, "owner", "the first op");
  expect_of(cg_owner(TABLES(&t), 0, 3, out, 32, told, 1) == CG_DONE && memcmp(out, h1, 32) == 0, "owner", "the last op of the first change");
  expect_of(cg_owner(TABLES(&t), 0, 5, out, 32, told, 1) == CG_DONE && memcmp(out, h3, 32) == 0, "owner", "the last op");
  expect_of(cg_owner(TABLES(&t), 1, 4, out, 32, told, 1) == CG_DONE && memcmp(out, h2, 32) == 0, "owner", "the other actor's");

  expect_of(cg_hash_to_index(TABLES(&t), h1, 32, told, 1) == CG_DONE && told[0] == 0, "hash_to_index", "the first");
  expect_of(cg_has_change(TABLES(&t), h9, 32, told, 1) == CG_DONE && told[0] == 0, "has_change", "no for an unknown hash");
  expect_of(cg_has_change(TABLES(&t), h1, 32, told, 1) == CG_DONE && told[0] == 1, "has_change", "yes for a known one");
  expect_of(cg_seq_for_actor(TABLES(&t), 1, told, 1) == CG_DONE && told[0] == 1, "seq_for_actor", "one change");
  expect_of(cg_seq_for_actor(TABLES(&t), 2, told, 1) == CG_DONE && told[0] == 0, "seq_for_actor", "0 for an unknown actor");
  expect_of(cg_max_op_for_actor(TABLES(&t), UINT64_MAX, told, 1) == CG_DONE && told[0] == 0, "max_op_for_actor", "0 for an unknown actor");

  expect_of(cg_actor_ids(TABLES(&t), 1, entries, 0, told, 1) == CG_DONE && told[0] == 0, "actor_ids", "none is unused, and no buffer is needed");
  expect_of(cg_actor_ids(TABLES(&t), 2, entries, 1, told, 1) == CG_SHORT_BUFFER, "actor_ids", "all, one short");
  expect_of(cg_actor_ids(TABLES(&t), UINT64_MAX, entries, 2, told, 1) == CG_DONE && told[0] == 2 && entries[1] == 1, "actor_ids", "every number above 2 lists all");
  expect_of(cg_insert_actor(TABLES(&t), 1) == CG_DONE, "insert_actor", "an actor without changes");
  expect_of(cg_actor_ids(TABLES(&t), 0, entries, 3, told, 1) == CG_DONE && told[0] == 2 && entries[0] == 0 && entries[1] == 2, "actor_ids", "those with changes");
  expect_of(cg_actor_ids(TABLES(&t), 1, entries, 3, told, 1) == CG_DONE && told[0] == 1 && entries[0] == 1, "actor_ids", "the one without");
  expect_of(cg_actor_ids(TABLES(&t), 2, entries, 3, told, 1) == CG_DONE && told[0] == 3 && entries[2] == 2, "actor_ids", "all");
  expect_of(cg_clock_of(TABLES(&t), h2, 32, entries, 3, told, 1) == CG_DONE && entries[0] == 1 && entries[1] == 0 && entries[2] == 1, "clock_of", "the entry moved with its actor");

  /* Sequence 1 with max op 9, then 2 with max op 4. */
  Graph p = graph_of(2, 1, 1, 0); /* neither depends on the other */
  Lent u = lent_of(&p);
  expect_of(open_graph(&p, 1) == CG_DONE && add(&p, 1, 0, 1, 9, 1, NULL, 0) == CG_DONE && add(&p, 2, 0, 2, 4, 1, NULL, 0) == CG_DONE, "max_op", "two changes");
  expect_of(cg_max_op_for_actor(TABLES(&u), 0, told, 1) == CG_DONE && told[0] == 4, "max_op_for_actor", "the last change's, not the largest");
  expect_of(cg_max_op(TABLES(&u), told, 1) == CG_DONE && told[0] == 9, "max_op", "the largest");
  expect_of(cg_missing(TABLES(&u), h2, 32, out, 0, told, 1) == CG_DONE && told[0] == 0, "missing", "not chained: nothing is missing though H1 is outside the history");

  expect_of(cg_clock_at(TABLES(&u), h2, 32, entries, 1, told, 1) == CG_DONE && entries[0] == 4, "clock_at", "the max op at the largest sequence, not the largest");
  expect_of(cg_chained(TABLES(&u), told, 1) == CG_DONE && told[0] == 0, "chained", "no where sequence 2 does not name sequence 1");

  /* Two heads whose hashes descend: they are listed in the order of their hashes. */
  Graph two = graph_of(2, 0, 1, 0);
  Lent w = lent_of(&two);
  expect_of(open_graph(&two, 1) == CG_DONE && add(&two, 9, 0, 1, 1, 1, NULL, 0) == CG_DONE && add(&two, 2, 0, 2, 2, 1, NULL, 0) == CG_DONE, "heads", "two changes");
  expect_of(cg_heads(TABLES(&w), out, 64, told, 1) == CG_DONE && told[0] == 64 && memcmp(out, h2, 32) == 0 && memcmp(out + 32, h9, 32) == 0, "heads", "ascending");
  expect_of(cg_head_indexes(TABLES(&w), entries, 2, told, 1) == CG_DONE && told[0] == 2 && entries[0] == 1 && entries[1] == 0, "head_indexes", "in the order of the hashes");

  /* An empty graph, and room 0. */
  Graph none = graph_of(0, 0, 0, 0);
  Lent v = lent_of(&none);
  expect_of(open_graph(&none, 0) == CG_DONE, "all", "room 0");
  expect_of(cg_heads(TABLES(&v), out, 0, told, 1) == CG_DONE && told[0] == 0, "heads", "no heads");
  expect_of(cg_clock_of(TABLES(&v), h1, 32, entries, 0, told, 1) == CG_DONE && told[0] == 0, "clock_of", "a clock of no entries");
  expect_of(cg_len(TABLES(&v), told, 1) == CG_DONE && told[0] == 0, "len", "no changes");
  expect_of(cg_heads_are_current(TABLES(&v), h1, 0, told, 1) == CG_DONE && told[0] == 1, "heads_are_current", "no heads are listed by no list");
  expect_of(cg_chained(TABLES(&v), told, 1) == CG_DONE && told[0] == 1, "chained", "an empty graph is chained");
  expect_of(cg_missing(TABLES(&v), h1, 0, out, 0, told, 1) == CG_DONE && told[0] == 0, "missing", "nothing of nothing");
}

/* A line of 200 changes by two actors in turn, with cached clocks on it: change k has the clock k / 2 + 1 and (k + 1) / 2. */
static void line(void) {
  Graph g = graph_of(200, 200, 2, 0);
  Lent t = lent_of(&g);
  expect_of(open_graph(&g, 2) == CG_DONE, "line", "open");
  for (uint32_t k = 0; k < 200; k++) {
    uint32_t last = k;
    expect_of(add(&g, k + 1, k % 2, k / 2 + 1, k + 1, 1, &last, k > 0 ? 1 : 0) == CG_DONE, "line", "add");
  }
  uint8_t hash[32], *out = guarded(32 * 200, 0);
  uint64_t told[1];
  for (uint32_t k = 0; k < 200; k++) {
    uint32_t entries[2];
    hash_of(k + 1, hash);
    expect_of(cg_clock_of(TABLES(&t), hash, 32, entries, 2, told, 1) == CG_DONE && entries[0] == k / 2 + 1 && entries[1] == (k + 1) / 2, "line", "the clock of a change");
    expect_of(cg_missing(TABLES(&t), hash, 32, out, 32 * 200, told, 1) == CG_DONE && told[0] == 32 * (199 - k) && memcmp(out, g.hashes + 32 * (k + 1), told[0]) == 0, "line", "the rest is missing");
    expect_of(cg_owner(TABLES(&t), k % 2, k + 1, out, 32, told, 1) == CG_DONE && memcmp(out, hash, 32) == 0, "line", "the owner of its op");
    expect_of(cg_hash_to_index(TABLES(&t), hash, 32, told, 1) == CG_DONE && told[0] == k, "line", "its node");
  }
  unguard(out, 32 * 200);
}

int main(void) {
  hash_of(1, h1);
  hash_of(2, h2);
  hash_of(3, h3);
  hash_of(9, h9);
  memcpy(both_heads, h2, 32);
  memcpy(both_heads + 32, h3, 32);
  memcpy(all_three, h1, 32);
  memcpy(all_three + 32, both_heads, 64);
  answers();
  damaged();
  lengths();
  own_refusals();
  further();
  line();
  return summed_up("questions");
}
