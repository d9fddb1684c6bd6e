/* The answers of a session in words: each answer line as it is, two spaces, #, the line of the list that it answers, and what it means. Taking away what stands
 * from the two spaces on gives the answer back. */
#ifndef EXPLAIN_H
#define EXPLAIN_H

#include "reasons.h"

#include "changegraph.h"

/* What the numbers mean that `add` and `owner` answer with in a session; no others occur. */
static const char *const meanings[] = {
    [CG_DONE] = "accepted",
    [CG_ALREADY_KNOWN] = "known already: it counts as accepted, and nothing changed",
    [CG_UNKNOWN_DEPENDENCY] = "refused: the dependency named here is unknown (the first such one in the line); add that change first",
    [CG_NO_ACTOR] = "refused: no such actor",
    [CG_WRONG_SEQUENCE] = "refused: the sequence is not the actor's count of changes plus 1",
    [CG_WRONG_OPS] = "refused: the max op is above 4,294,967,295, or the op count above the max op",
    [CG_MANY_DEPENDENCIES] = "refused: more than 32 dependencies",
    [CG_NO_NODE_ROOM] = "refused: no room; a session holds 256 changes",
    [CG_NO_EDGE_ROOM] = "refused: no room for the dependencies; a session holds 1,024 in all",
    [CG_NO_OWNER] = "no change owns this op",
};

/* What the answers so far add up to. */
typedef struct Tally {
  uint64_t actors;
  uint64_t changes[CG_BENCH_ACTORS];
  uint64_t dependencies;
} Tally;

static inline void put_text(FILE *out, Text t) { fwrite(t.bytes, 1, t.length, out); }

static inline int is_none(Text t) { return t.length == 1 && t.bytes[0] == '-'; }

/* How many members a list has. */
static inline uint64_t members(Text list) {
  uint64_t n = !is_none(list);
  for (size_t i = 0; i < list.length; i++) {
    n += list.bytes[i] == ',';
  }
  return n;
}

static inline const char *meaning(uint64_t number) {
  const char *words = number < sizeof meanings / sizeof *meanings ? meanings[number] : NULL;
  return words == NULL ? "a number that this tool does not know" : words;
}

/* The figures that a number of `add` is about. The list is right where there is an answer, and an actor that is not refused is below CG_BENCH_ACTORS. */
static inline void put_figures(FILE *out, uint64_t number, Text line, const Tally *tally) {
  uint64_t actor = value_of(field_of(line, 2));
  switch (number) {
  case CG_DONE:
    fprintf(out, ", change %u of actor %u", (unsigned)tally->changes[actor], (unsigned)actor);
    break;
  case CG_NO_ACTOR:
    fprintf(out, " (the list has %u, numbered from 0)", (unsigned)tally->actors);
    break;
  case CG_WRONG_SEQUENCE:
    fprintf(out, " (which is %u for actor %u)", (unsigned)tally->changes[actor] + 1, (unsigned)actor);
    break;
  case CG_MANY_DEPENDENCIES:
    fprintf(out, " (%u)", (unsigned)members(field_of(line, 6)));
    break;
  case CG_NO_EDGE_ROOM:
    fprintf(out, " (%u are in use, and here are %u)", (unsigned)tally->dependencies, (unsigned)members(field_of(line, 6)));
    break;
  default:
    break;
  }
}

static inline void explain_add(FILE *out, Text line, Text answer, Tally *tally) {
  uint64_t number = value_of(field_of(answer, 1));
  if (number == CG_DONE) {
    tally->changes[value_of(field_of(line, 2))]++;
    tally->dependencies += members(field_of(line, 6));
  }
  fputs(meaning(number), out);
  put_figures(out, number, line, tally);
}

static inline void explain_clock(FILE *out, Text entries) {
  size_t start = 0;
  for (unsigned actor = 0; start < entries.length; actor++) {
    size_t end = start;
    while (end < entries.length && entries.bytes[end] != ',') {
      end++;
    }
    Text entry = {entries.bytes + start, end - start};
    fprintf(out, "%sactor %u: ", actor > 0 ? "; " : "", actor);
    if (value_of(entry) == 0) {
      fputs("nothing", out);
    } else {
      fputs("up to its change ", out);
      put_text(out, entry);
    }
    start = end + 1;
  }
}

static inline void explain_list(FILE *out, Text list, const char *none, const char *one, const char *several) {
  uint64_t n = members(list);
  if (n > 1) {
    put_number(out, n);
  }
  fputs(n == 0 ? none : n == 1 ? one : several, out);
}

static inline void explain_owner(FILE *out, Text line, Text answer) {
  if (answer.length < 2 * CG_HASH) {
    fputs(meaning(value_of(answer)), out);
    fputs(": ", out);
  } else {
    fputs("the change that owns ", out);
  }
  fputs("counter ", out);
  put_text(out, field_of(line, 2));
  fputs(" of actor ", out);
  put_text(out, field_of(line, 1));
}

/* By the first letter, which no two kinds of answer share. */
static inline void explain_line(FILE *out, Text line, Text answer, Tally *tally) {
  Text first = field_of(answer, 1);
  switch (answer.bytes[0]) {
  case 'a':
    explain_add(out, line, answer, tally);
    break;
  case 'h':
    explain_list(out, first, "no heads: there is no change yet", "1 head: the change that no other depends on", " heads: the changes that no other depends on");
    break;
  case 'c':
    explain_clock(out, first);
    break;
  case 'm':
    explain_list(out, first, "nothing is missing", "1 change is missing", " changes are missing, in the order in which they were added");
    break;
  case 'o':
    explain_owner(out, line, first);
    break;
  default:
    fputs("bad: no line from here on is answered; standard error says why", out);
  }
}

/* All answer lines. The third line of the list has the first answer, and every line after it one, up to the bad one. */
static inline void explain(FILE *out, Text list, Text answers) {
  Tally tally = {0};
  tally.actors = value_of(field_of(line_at(list, 2).text, 1));
  next_line(&list);
  next_line(&list);
  for (size_t number = 3; answers.length > 0; number++) {
    Text line = next_line(&list).text;
    Text answer = next_line(&answers).text;
    put_text(out, answer);
    fputs("  # line ", out);
    if (answer.bytes[0] == 'b') {
      put_text(out, field_of(answer, 1));
    } else {
      fprintf(out, "%u", (unsigned)number);
    }
    fputs(": ", out);
    explain_line(out, line, answer, &tally);
    fputc('\n', out);
  }
}

#endif
