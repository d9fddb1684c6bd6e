/* Answers a change list: session [--explain] [FILE]. The answer goes to standard output, byte for byte as cg_session gives it, or with --explain in words beside
 * each line (explain.h). Where it ends at a bad line, standard error says what is wrong with that line and what to do about it (reasons.h). `help` below has the
 * exit status and the limits. */
#include "explain.h"
#include "reasons.h"

#include "changegraph.h"

#include <errno.h>
#include <stdio.h>
#include <string.h>

enum {
  LIST_ROOM = 1 << 20,
  ANSWER_ROOM = 1 << 24,
  SMALL_ROOM = 65536 /* of the program `bench`, each way */
};

enum { ANSWERED = 0, BAD_LINE = 1, NO_ANSWER = 2 };

static const char usage[] = "usage: session [--explain] [FILE]\n";

static const char help[] =
    "\n"
    "Answers the change list in FILE, or on standard input where FILE is - or absent. docs/CHANGE-LIST.md says how a list is written.\n"
    "\n"
    "  --explain   write beside each answer which line it answers and what it means\n"
    "  --help, -h  write this\n"
    "\n"
    "Standard output has the answer; anything else is said on standard error.\n"
    "\n"
    "Exit status\n"
    "  0  answered\n"
    "  1  the answer ends with a `bad` line; the answers before it stand, and standard error says what is wrong with the line\n"
    "  2  no whole answer: the list cannot be read, or is too long, or its answer is too long or cannot be written; or the command is wrong\n"
    "\n"
    "Limits\n"
    "  a list of 1,048,576 bytes, an answer of 16,777,216 bytes\n"
    "  The program `bench` has 65,536 bytes each way, and beyond them writes nothing; a note says where that would be so.\n";

typedef struct Options {
  int help;
  int explained;
  const char *file; /* NULL for standard input */
} Options;

static uint8_t list[LIST_ROOM + 1];
static uint8_t answer[ANSWER_ROOM];

/* Gives 0 where the command is wrong, and says what is. */
static int read_options(int argc, char **argv, Options *options) {
  int files = 0;
  int names_alone = 0;
  for (int i = 1; i < argc; i++) {
    const char *arg = argv[i];
    if (names_alone || arg[0] != '-' || arg[1] == 0) {
      files++;
      options->file = strcmp(arg, "-") == 0 ? NULL : arg;
    } else if (strcmp(arg, "--") == 0) {
      names_alone = 1;
    } else if (strcmp(arg, "--explain") == 0) {
      options->explained = 1;
    } else if (strcmp(arg, "--help") == 0 || strcmp(arg, "-h") == 0) {
      options->help = 1;
      return 1;
    } else {
      fprintf(stderr, "session: no such option: %s\n", arg);
      return 0;
    }
  }
  if (files > 1) {
    fprintf(stderr, "session: more than one file\n");
    return 0;
  }
  return 1;
}

/* Reads the whole list. Gives 0 where that cannot be done, and says why. */
static int read_list(const char *file, const char *name, size_t *length) {
  FILE *in = file == NULL ? stdin : fopen(file, "rb");
  if (in == NULL) {
    fprintf(stderr, "%s: cannot be opened: %s\n", name, strerror(errno));
    return 0;
  }
  errno = 0;
  *length = fread(list, 1, sizeof list, in);
  int failed = ferror(in);
  if (failed) {
    fprintf(stderr, "%s: cannot be read: %s\n", name, strerror(errno));
  }
  if (file != NULL) {
    fclose(in);
  }
  if (!failed && *length > LIST_ROOM) {
    fprintf(stderr, "%s: the list is longer than 1,048,576 bytes, which is the room for a list; ask fewer questions at a time\n", name);
  }
  return !failed && *length <= LIST_ROOM;
}

/* Gives 0 where standard output does not take all that was written, and says why. */
static int written(void) {
  if (fflush(stdout) != 0 || ferror(stdout)) {
    fprintf(stderr, "standard output: cannot be written: %s\n", strerror(errno));
    return 0;
  }
  return 1;
}

/* Where the list or its answer is too long for the program `bench`, says so. */
static void note_length(const char *name, const char *what, size_t length) {
  if (length > SMALL_ROOM) {
    fprintf(stderr, "%s: note: %s has ", name, what);
    put_number(stderr, length);
    fprintf(stderr, " bytes; the program `bench`, which has room for 65,536, would write nothing\n");
  }
}

/* The number of the bad line with which the answer ends; 0 for none. */
static size_t bad_line(Text answers) {
  Text last = {answers.bytes, 0};
  while (answers.length > 0) {
    last = next_line(&answers).text;
  }
  return last.length > 0 && last.bytes[0] == 'b' ? (size_t)value_of(field_of(last, 1)) : 0;
}

/* What is wrong with the bad line, and what to do about it. */
static void report(const char *name, Text text, size_t number) {
  Line line = line_at(text, number);
  Finding found = judge(phase_of(number), line);
  fprintf(stderr, "%s: line %zu is bad (", name, number);
  put_number(stderr, line.text.length);
  fprintf(stderr, " byte%s); no line from here on is answered\n", line.text.length == 1 ? "" : "s");
  show(stderr, line, found);
  say(stderr, line, found);
}

/* Reads the list, writes its answer and what there is to say; gives the exit status. */
static int answer_list(const Options *options) {
  const char *name = options->file == NULL ? "standard input" : options->file;
  size_t read = 0;
  if (!read_list(options->file, name, &read)) {
    return NO_ANSWER;
  }
  uint64_t length = 0;
  if (cg_session(list, read, answer, sizeof answer, &length, 1) != CG_DONE) {
    fprintf(stderr, "%s: the answer is longer than 16,777,216 bytes, which is the room for an answer; ask fewer questions at a time\n", name);
    return NO_ANSWER;
  }
  Text text = {list, read};
  Text answers = {answer, length};
  if (options->explained) {
    explain(stdout, text, answers);
  } else {
    fwrite(answer, 1, length, stdout);
  }
  if (!written()) {
    return NO_ANSWER;
  }
  note_length(name, "the list", read);
  note_length(name, "the answer", length);
  size_t bad = bad_line(answers);
  if (bad == 0) {
    return ANSWERED;
  }
  report(name, text, bad);
  return BAD_LINE;
}

int main(int argc, char **argv) {
  Options options = {0, 0, NULL};
  if (!read_options(argc, argv, &options)) {
    fprintf(stderr, "%sTry: session --help\n", usage);
    return NO_ANSWER;
  }
  if (options.help) {
    printf("%s%s", usage, help);
    return written() ? ANSWERED : NO_ANSWER;
  }
  return answer_list(&options);
}
