/* Holds the parser of host/reasons.c against cg_session: of every list that is tried both must call the same line bad, or none. The lists: some by hand, with the
 * reason that is to be found and each reason among them; every list that is one byte away from one with all kinds of lines; and right lists changed at random,
 * from a fixed seed. What is said of a bad line must have only letters that print, and never be that nothing is wrong. Each list ends at a page that may not be
 * touched. reasons_test [N] tries one in N of the changed lists, for slow runs. Prints what failed; exit status 1 where anything did. */
#include "guarded.h"

#include "check.h"
#include "reasons.h"

#include "changegraph.h"

enum { ROOM = 1 << 16, RANDOM_LISTS = 100000 };

static uint8_t *guarded_end; /* of ROOM bytes; past it nothing may be touched */
static uint8_t answer[1 << 22];
static char said[1 << 12];
static FILE *said_to;
static size_t one_in = 1;
static size_t lists = 0;
static size_t bad_lists = 0;
static size_t met[REASONS];

/* ---- one list */

/* The number in the answer's last line where that is `bad`, else 0. */
static size_t session_says(Text list) {
  uint64_t length = 0;
  expect(cg_session(list.bytes, list.length, answer, sizeof answer - 1, &length, 1) == CG_DONE, "the answer fits");
  size_t start = length;
  while (start > 0 && (start == length || answer[start - 1] != '\n')) {
    start--;
  }
  answer[length] = 0;
  unsigned number = 0;
  return length > 0 && sscanf((const char *)answer + start, "bad\t%u\n", &number) == 1 ? number : 0;
}

/* Prints what prints as it is, and else only the marks for a tab and a cut. */
static int prints(const char *text) {
  for (; *text != 0; text++) {
    if (strncmp(text, "⇥", 3) == 0 || strncmp(text, "…", 3) == 0) {
      text += 2;
    } else if (*text != '\n' && (*text < ' ' || *text > '~')) {
      return 0;
    }
  }
  return 1;
}

/* What the tool says of the line, as text. */
static const char *words_for(Line line, Finding found) {
  memset(said, 0, 8);
  rewind(said_to);
  show(said_to, line, found);
  say(said_to, line, found);
  fputc(0, said_to);
  fflush(said_to);
  return said;
}

static void print_list(const char *what, Text list, size_t session, size_t parser, Reason reason) {
  printf("%s: bad line %zu by the session, %zu by the parser (reason %d):\n", what, session, parser, (int)reason);
  for (size_t i = 0; i < list.length && i < 400; i++) {
    uint8_t b = list.bytes[i];
    printf(b < ' ' || b > '~' ? "\\x%02x" : "%c", b);
  }
  printf("\n");
}

/* Gives the reason that the parser finds. */
static Reason agree(const char *what, const uint8_t *bytes, size_t length) {
  uint8_t *start = guarded_end - length;
  memcpy(start, bytes, length);
  Text list = {start, length};
  Finding found;
  size_t parser = first_bad(list, &found);
  size_t session = session_says(list);
  int right = parser == session;
  lists++;
  if (session > 0) {
    Line line = line_at(list, session);
    Finding again = judge(phase_of(session), line);
    const char *words = words_for(line, again);
    bad_lists++;
    met[again.reason]++;
    right = right && again.reason != NOTHING_WRONG && again.at <= line.text.length && prints(words);
  }
  checks++;
  if (!right && ++failures <= 5) {
    print_list(what, list, session, parser, found.reason);
  }
  return found.reason;
}

/* ---- by hand */

#define H1 "1111111111111111111111111111111111111111111111111111111111111111"
#define H2 "abcdefabcdefabcdefabcdefabcdefabcdefabcdefabcdefabcdef0123456789"
#define H63 "111111111111111111111111111111111111111111111111111111111111111"
#define HA "11111111111111111111111111111111111111111111111111111111111111A1"
#define HG "1111111111111111g11111111111111111111111111111111111111111111111"
#define START "change list\t1\nactors\t2\n"
#define MOST "18446744073709551615"

typedef struct Case {
  Reason reason;
  size_t line;
  const char *list;
  size_t length;
} Case;

#define CASE(reason, line, list) {reason, line, list, sizeof(list) - 1}

static const Case whole_lines[] = {
    CASE(FIRST_MISSING, 1, ""),
    CASE(SECOND_MISSING, 2, "change list\t1\n"),
    CASE(NO_LF, 1, "change list\t1"),
    CASE(NO_LF, 2, "change list\t1\nactors\t2"),
    CASE(NO_LF, 4, START "heads\nheads"),
    CASE(UTF_16, 1, "\xff\xfe" "c\0h\0a\0n\0g\0e\0 \0l\0i\0s\0t\0\t\0" "1\0\n\0"),
    CASE(UTF_16, 1, "\xfe\xff\0c\0h\0a\0n\0g\0e\0 \0l\0i\0s\0t\0\t\0" "1\0\n"),
    CASE(UTF_16, 1, "c\0h\0a\0n\0g\0e\0 \0l\0i\0s\0t\0\t\0" "1\0\n\0"),
    CASE(BYTE_ORDER_MARK, 1, "\xef\xbb\xbf" START),
    CASE(BYTE_ORDER_MARK, 3, START "\xef\xbb\xbf" "heads\n"),
    CASE(CR_AT_END, 1, "change list\t1\r\nactors\t2\r\n"),
    CASE(CR_AT_END, 3, START "heads\r\n"),
    CASE(CR_AT_END, 3, START "\r\n"),
    CASE(CR_INSIDE, 1, "change list\t1\ractors\t2\rheads\r"),
    CASE(NUL_BYTE, 3, START "heads\0\n"),
    CASE(NUL_BYTE, 3, START "\0\n"),
    CASE(BLANK_LINE, 1, "\n" START),
    CASE(BLANK_LINE, 2, "change list\t1\n\nactors\t2\n"),
    CASE(BLANK_LINE, 4, START "heads\n\n"),
    CASE(ONLY_BLANKS, 3, START " \n"),
    CASE(ONLY_BLANKS, 3, START "\t\t\n"),
    CASE(NOT_ASCII, 3, START "clock\t\xe2\x80\x93\n"),
    CASE(NOT_ASCII, 3, START "owner\t\xc2\xa0" "1\t1\n"),
    CASE(NOT_ASCII, 3, START "heads\x80\n"),
    CASE(CONTROL_BYTE, 3, START "heads\x7f\n"),
    CASE(CONTROL_BYTE, 3, START "heads\x1f\n"),
    CASE(CONTROL_BYTE, 3, START "\x1b[A\n"),
    CASE(COMMENT, 1, "# mine\n" START),
    CASE(COMMENT, 3, START "// heads\n"),
    CASE(COMMENT, 3, START "--\n"),
};

static const Case first_lines[] = {
    CASE(NOTHING_WRONG, 0, START),
    CASE(NOTHING_WRONG, 0, "change list\t1\nactors\t1\n"),
    CASE(NOTHING_WRONG, 0, "change list\t1\nactors\t16\n"),
    CASE(HEADER_ABSENT, 1, "actors\t2\nheads\n"),
    CASE(HEADER_ABSENT, 1, "heads\n"),
    CASE(HEADER_UNLIKE, 1, "changelist\t1\nactors\t2\n"),
    CASE(HEADER_UNLIKE, 1, "change lists\t1\nactors\t2\n"),
    CASE(HEADER_UNLIKE, 1, "change\tlist\t1\nactors\t2\n"),
    CASE(HEADER_UNLIKE, 1, "x"),
    CASE(HEADER_CAPITALS, 1, "Change List\t1\nactors\t2\n"),
    CASE(HEADER_SPACE, 1, "change list 1\nactors\t2\n"),
    CASE(HEADER_SPACE, 1, "change list  1\nactors\t2\n"),
    CASE(SPACE_BY_TAB, 1, "change list \t1\nactors\t2\n"),
    CASE(SPACE_BY_TAB, 1, "change list\t 1\nactors\t2\n"),
    CASE(SPACE_AT_END, 1, "change list\t1 \nactors\t2\n"),
    CASE(SPACE_AT_START, 1, " change list\t1\nactors\t2\n"),
    CASE(TAB_AT_START, 1, "\tchange list\t1\nactors\t2\n"),
    CASE(HEADER_FIELDS, 1, "change list\nactors\t2\n"),
    CASE(HEADER_FIELDS, 1, "change list\t1\t\nactors\t2\n"),
    CASE(HEADER_FIELDS, 1, "change list\t1\t1\nactors\t2\n"),
    CASE(HEADER_VERSION, 1, "change list\t2\nactors\t2\n"),
    CASE(HEADER_VERSION, 1, "change list\t01\nactors\t2\n"),
    CASE(HEADER_VERSION, 1, "change list\t\nactors\t2\n"),
    CASE(HEADER_AGAIN, 2, "change list\t1\nchange list\t1\n"),
    CASE(HEADER_AGAIN, 4, START "heads\nchange list\t1\nactors\t2\n"),
    CASE(ACTORS_ABSENT, 2, "change list\t1\nheads\n"),
    CASE(ACTORS_ABSENT, 2, "change list\t1\nx\n"),
    CASE(WORD_NEAR, 2, "change list\t1\nActors\t2\n"),
    CASE(WORD_JOINED, 2, "change list\t1\nactors=2\n"),
    CASE(SPACE_INSIDE, 2, "change list\t1\nactors 2\n"),
    CASE(FEW_FIELDS, 2, "change list\t1\nactors\n"),
    CASE(NUMBER_EMPTY, 2, "change list\t1\nactors\t\n"),
    CASE(NUMBER_ZERO, 2, "change list\t1\nactors\t02\n"),
    CASE(ACTORS_RANGE, 2, "change list\t1\nactors\t0\n"),
    CASE(ACTORS_RANGE, 2, "change list\t1\nactors\t17\n"),
    CASE(ACTORS_RANGE, 2, "change list\t1\nactors\t" MOST "\n"),
    CASE(NUMBER_LARGE, 2, "change list\t1\nactors\t18446744073709551617\n"),
    CASE(ACTORS_AGAIN, 3, START "actors\t2\n"),
};

static const Case words_and_fields[] = {
    CASE(NOTHING_WRONG, 0, START "heads\nheads\nclock\t-\nmissing\t-\nowner\t0\t0\n"),
    CASE(NOTHING_WRONG, 0, START "clock\t" H1 "," H1 "," H2 "\n"),
    CASE(NOTHING_WRONG, 0, START "owner\t" MOST "\t" MOST "\n"),
    CASE(NOTHING_WRONG, 0, START "add\t" H2 "\t" MOST "\t" MOST "\t" MOST "\t" MOST "\t-\n"),
    CASE(WORD_UNKNOWN, 3, START "x\n"),
    CASE(WORD_UNKNOWN, 3, START "quit\n"),
    CASE(WORD_NEAR, 3, START "\"heads\"\n"),
    CASE(WORD_NEAR, 3, START "HEADS\n"),
    CASE(WORD_NEAR, 3, START "hedas\n"),
    CASE(WORD_NEAR, 3, START "Add\t" H1 "\t0\t1\t1\t1\t-\n"),
    CASE(WORD_JOINED, 3, START "heads;\n"),
    CASE(WORD_JOINED, 3, START "add," H1 ",0,1,1,1,-\n"),
    CASE(TAB_AT_START, 3, START "\theads\n"),
    CASE(TAB_AT_END, 3, START "heads\t\n"),
    CASE(TAB_AT_END, 3, START "clock\t-\t\n"),
    CASE(TWO_TABS, 3, START "owner\t\t0\t1\n"),
    CASE(TWO_TABS, 3, START "add\t\t" H1 "\t0\t1\t1\t1\t-\n"),
    CASE(SPACE_AT_START, 3, START " heads\n"),
    CASE(SPACE_AT_END, 3, START "heads \n"),
    CASE(SPACE_BY_TAB, 3, START "owner\t 0\t1\n"),
    CASE(SPACE_BY_COMMA, 3, START "clock\t" H1 ", " H1 "\n"),
    CASE(SPACE_INSIDE, 3, START "owner 0 1\n"),
    CASE(SPACE_INSIDE, 3, START "owner\t0 1\n"),
    CASE(FEW_FIELDS, 3, START "clock\n"),
    CASE(FEW_FIELDS, 3, START "missing\n"),
    CASE(FEW_FIELDS, 3, START "owner\t0\n"),
    CASE(FEW_FIELDS, 3, START "add\n"),
    CASE(FEW_FIELDS, 3, START "add\t" H1 "\t0\t1\t1\t1\n"),
    CASE(MANY_FIELDS, 3, START "heads\t-\n"),
    CASE(MANY_FIELDS, 3, START "clock\t" H1 "\t" H1 "\n"),
    CASE(MANY_FIELDS, 3, START "owner\t0\t1\t2\n"),
    CASE(MANY_FIELDS, 3, START "add\t" H1 "\t0\t1\t1\t1\t-\t-\n"),
    CASE(NUMBER_EMPTY, 3, START "owner\t\t1\n"),
    CASE(NUMBER_DASH, 3, START "owner\t-\t1\n"),
    CASE(NUMBER_SIGN, 3, START "owner\t0\t+1\n"),
    CASE(NUMBER_SIGN, 3, START "owner\t0\t-1\n"),
    CASE(NUMBER_BYTE, 3, START "owner\t0\t1.5\n"),
    CASE(NUMBER_BYTE, 3, START "owner\t0\t1,000\n"),
    CASE(NUMBER_BYTE, 3, START "owner\t0\t0x1\n"),
    CASE(NUMBER_ZERO, 3, START "owner\t00\t1\n"),
    CASE(NUMBER_ZERO, 3, START "add\t" H1 "\t0\t01\t1\t1\t-\n"),
    CASE(NUMBER_LARGE, 3, START "owner\t0\t18446744073709551616\n"),
    CASE(NUMBER_LARGE, 3, START "owner\t0\t99999999999999999999\n"),
    CASE(NUMBER_LARGE, 3, START "owner\t0\t100000000000000000000\n"),
};

static const Case hashes_and_lists[] = {
    CASE(HASH_EMPTY, 3, START "add\t\t0\t1\t1\t1\t-\n"),
    CASE(HASH_DASH, 3, START "add\t-\t0\t1\t1\t1\t-\n"),
    CASE(HASH_LIST, 3, START "add\t" H1 "," H2 "\t0\t1\t1\t1\t-\n"),
    CASE(HASH_PREFIX, 3, START "add\t0x" H1 "\t0\t1\t1\t1\t-\n"),
    CASE(HASH_PREFIX, 3, START "clock\t0X" H1 "\n"),
    CASE(HASH_BYTE, 3, START "add\t" HG "\t0\t1\t1\t1\t-\n"),
    CASE(HASH_BYTE, 3, START "clock\t" H63 "G\n"),
    CASE(HASH_BYTE, 3, START "clock\t" H1 ";" H2 "\n"),
    CASE(HASH_LENGTH, 3, START "add\t" H63 "\t0\t1\t1\t1\t-\n"),
    CASE(HASH_LENGTH, 3, START "add\t" H63 "11\t0\t1\t1\t1\t-\n"),
    CASE(HASH_LENGTH, 3, START "missing\t" H1 "," H63 "\n"),
    CASE(HASH_LENGTH, 3, START "missing\t0\n"),
    CASE(HASH_CAPITAL, 3, START "add\t" HA "\t0\t1\t1\t1\t-\n"),
    CASE(HASH_CAPITAL, 3, START "clock\t" H1 "," HA "\n"),
    CASE(LIST_EMPTY, 3, START "clock\t\n"),
    CASE(LIST_EMPTY, 3, START "add\t" H1 "\t0\t1\t1\t1\t\n"),
    CASE(COMMA_FIRST, 3, START "clock\t," H1 "\n"),
    CASE(COMMA_FIRST, 3, START "clock\t,\n"),
    CASE(COMMA_LAST, 3, START "clock\t" H1 ",\n"),
    CASE(COMMA_TWICE, 3, START "missing\t" H1 ",," H2 "\n"),
    CASE(DASH_JOINED, 3, START "clock\t-," H1 "\n"),
    CASE(DASH_JOINED, 3, START "clock\t" H1 ",-\n"),
    CASE(DASH_JOINED, 3, START "clock\t-,-\n"),
};

static void by_hand(const Case *cases, size_t count) {
  for (size_t i = 0; i < count; i++) {
    const Case *c = &cases[i];
    Finding found;
    size_t line = first_bad((Text){(const uint8_t *)c->list, c->length}, &found);
    expect(line == c->line && found.reason == c->reason, c->list);
    agree("by hand", (const uint8_t *)c->list, c->length);
  }
}

/* A list whose third line is `clock` with so many hashes. */
static size_t long_clock(uint8_t *out, int hashes) {
  size_t n = (size_t)sprintf((char *)out, START "clock\t");
  for (int i = 0; i < hashes; i++) {
    n += (size_t)sprintf((char *)out + n, "%s" H2, i > 0 ? "," : "");
  }
  out[n++] = '\n';
  return n;
}

/* A list whose third line is `add` with 35 dependencies, the last number lengthened so that the line has so many bytes. */
static size_t long_add(uint8_t *out, size_t line) {
  size_t before = strlen(START);
  size_t n = (size_t)sprintf((char *)out, START "add\t" H1 "\t" MOST "\t" MOST "\t");
  size_t rest = 1 + 35 * 64 + 34; /* a tab and the dependencies */
  size_t digits = before + line - n - rest;
  for (size_t i = 0; i < digits; i++) {
    out[n++] = i == digits / 2 ? '\t' : '1';
  }
  out[n++] = '\t';
  for (int i = 0; i < 35; i++) {
    n += (size_t)sprintf((char *)out + n, "%s" H2, i > 0 ? "," : "");
  }
  out[n++] = '\n';
  return n;
}

static void long_lines(void) {
  static uint8_t list[ROOM];
  expect(agree("36 hashes, 2,345 bytes", list, long_clock(list, 36)) == NOTHING_WRONG, "36 hashes");
  expect(agree("37 hashes, 2,410 bytes", list, long_clock(list, 37)) == LONG_LINE, "37 hashes");
  expect(long_add(list, 2400) == strlen(START) + 2401, "the line has the length that is to be tried");
  expect(agree("2,400 bytes", list, long_add(list, 2400)) == NOTHING_WRONG, "2,400 bytes");
  expect(agree("2,401 bytes", list, long_add(list, 2401)) == LONG_LINE, "2,401 bytes");
}

/* ---- one byte away */

static const char odd_bytes[] = "\t\n\r ,-+.0189/:@AFGafgz`#\\\"\x01\x7f\x80\xe2\xff"; /* and NUL, which ends it */

static const char every_kind[] = "change list\t1\nactors\t16\nheads\nclock\t-\nmissing\t" H1 "," H2 "\nowner\t0\t" MOST "\nadd\t" H2 "\t0\t1\t3\t3\t" H1 "\n";

/* Whether this one of the changed lists is tried. */
static int taken(void) {
  static size_t turn = 0;
  return turn++ % one_in == 0;
}

/* The list with `out` bytes at `at` taken out and a byte put in their place, where there is one. */
static void with(const char *list, size_t length, size_t at, size_t out, int byte) {
  static uint8_t changed[ROOM];
  if (!taken()) {
    return;
  }
  size_t n = at;
  memcpy(changed, list, at);
  if (byte >= 0) {
    changed[n++] = (uint8_t)byte;
  }
  memcpy(changed + n, list + at + out, length - at - out);
  agree("one byte away", changed, n + length - at - out);
}

static void one_byte_away(const char *list, size_t length) {
  for (size_t at = 0; at < length; at++) {
    with(list, length, at, 1, -1);
    with(list, length, at, length - at, -1);
    with(list, length, at, 0, (uint8_t)list[at]);
    for (int byte = 0; byte < 256; byte++) {
      with(list, length, at, 1, byte);
    }
    for (size_t i = 0; i < sizeof odd_bytes; i++) {
      with(list, length, at, 0, (uint8_t)odd_bytes[i]);
    }
  }
}

/* ---- at random */

static uint64_t state = 0x9e3779b97f4a7c15u;

static size_t below(size_t n) {
  state ^= state << 13;
  state ^= state >> 7;
  state ^= state << 17;
  return (size_t)((state >> 11) % n);
}

typedef struct List {
  uint8_t bytes[ROOM];
  size_t length;
} List;

/* Takes the bytes from `from` to `to` out and puts others in their place. */
static void replace(List *list, size_t from, size_t to, const void *with_bytes, size_t count) {
  static uint8_t copy[ROOM];
  if (list->length - (to - from) + count > ROOM) {
    return;
  }
  memcpy(copy, with_bytes, count);
  memmove(list->bytes + from + count, list->bytes + to, list->length - to);
  memcpy(list->bytes + from, copy, count);
  list->length += count - (to - from);
}

/* The part around a random place that `first` and `second` bound: a field between tabs and LFs, or a line. */
static void around(const List *list, uint8_t first, uint8_t second, size_t *from, size_t *to) {
  *from = below(list->length + 1);
  *to = *from;
  while (*from > 0 && list->bytes[*from - 1] != first && list->bytes[*from - 1] != second) {
    (*from)--;
  }
  while (*to < list->length && list->bytes[*to] != first && list->bytes[*to] != second) {
    (*to)++;
  }
}

static const char *const odd_fields[] = {
    /* numbers */
    "", "-", "0", "00", "1", "01", "16", "17", "+1", "-1", "1.0", "0x10", " 1", "1 ", MOST, "18446744073709551616", "18446744073709551620",
    "28446744073709551615", "99999999999999999999", "184467440737095516150",
    /* hashes and lists */
    H1, H2, H63, H1 "1", HA, HG, H1 "," H2, "-," H1, H1 ",-", H1 ",", "," H1, H1 ",," H2, ",", "-,-",
    /* words */
    "heads", "clock", "missing", "owner", "add", "actors", "change list", "Heads", "head", "adds",
};

static void change_bytes(List *list) {
  size_t at = below(list->length + 1);
  size_t to = at + below(70) % (list->length - at + 1);
  uint8_t byte = below(3) == 0 ? (uint8_t)below(256) : (uint8_t)odd_bytes[below(sizeof odd_bytes)];
  size_t other = below(list->length + 1);
  switch (below(6)) {
  case 0:
    replace(list, at, at + (at < list->length), &byte, 1);
    break;
  case 1:
    replace(list, at, at, &byte, 1);
    break;
  case 2:
    replace(list, at, at + (at < list->length), "", 0);
    break;
  case 3:
    replace(list, at, to, "", 0);
    break;
  case 4:
    replace(list, other, other, list->bytes + at, to - at);
    break;
  default:
    replace(list, at, list->length, "", 0);
  }
}

static void change_field(List *list) {
  size_t from;
  size_t to;
  around(list, '\t', '\n', &from, &to);
  if (below(3) > 0) {
    const char *field = odd_fields[below(sizeof odd_fields / sizeof *odd_fields)];
    replace(list, from, to, field, strlen(field));
    return;
  }
  char digits[24]; /* near the largest number, or a digit more or fewer */
  size_t n = (size_t)sprintf(digits, "%s", below(2) == 0 ? MOST : "184467440737095516159");
  digits[below(n)] = (char)('0' + below(10));
  replace(list, from, to, digits, n - below(2));
}

static void change_lines(List *list) {
  size_t from;
  size_t to;
  around(list, '\n', '\n', &from, &to);
  to += to < list->length;
  size_t at;
  size_t end;
  around(list, '\n', '\n', &at, &end);
  static uint8_t line[ROOM];
  memcpy(line, list->bytes + from, to - from);
  if (below(3) > 0) {
    replace(list, at, at, line, to - from);
    from += at <= from ? to - from : 0;
  }
  if (below(2) > 0) {
    replace(list, from, from + (to - from) % (list->length - from + 1), "", 0);
  }
}

static void change_case(List *list) {
  size_t at = below(list->length + 1);
  while (at < list->length && (list->bytes[at] | 32) < 'a') {
    at++;
  }
  if (at < list->length) {
    list->bytes[at] ^= 32;
  }
}

static void at_random(const char *const *bases, const size_t *lengths, size_t count) {
  static List list;
  for (size_t i = 0; i < RANDOM_LISTS; i++) {
    if (!taken()) {
      continue;
    }
    size_t base = below(16) == 0 ? count - 1 : below(count - 1);
    memcpy(list.bytes, bases[base], lengths[base]);
    list.length = lengths[base];
    for (size_t changes = 1 + below(3); changes > 0; changes--) {
      size_t kind = below(8);
      (kind < 3 ? change_bytes : kind < 5 ? change_field : kind < 7 ? change_lines : change_case)(&list);
    }
    agree("at random", list.bytes, list.length);
  }
}

static const char worked[] = START "add\t" H1 "\t0\t1\t3\t3\t-\nadd\t" H2 "\t1\t1\t5\t2\t" H1 "\nadd\t" H63 "2\t0\t2\t5\t2\t" H1 "\nheads\nclock\t" H2 "\nmissing\t" H2
                                   "\nowner\t0\t4\nadd\t" H2 "\t1\t9\t9\t9\t" H63 "4\nadd\t" H63 "5\t0\t3\t6\t1\t" H63 "4\n";

int main(int argc, char **argv) {
  static uint8_t longest[ROOM];
  size_t longest_length = long_add(longest, 2400);
  const char *bases[] = {worked, every_kind, START, START "owner\t1\t1\nowner\t0\t" MOST "\nheads\nheads\n", (const char *)longest};
  size_t lengths[] = {strlen(worked), strlen(every_kind), strlen(START), strlen(bases[3]), longest_length};
  one_in = argc > 1 ? (size_t)strtoul(argv[1], NULL, 10) : 1;
  guarded_end = (uint8_t *)guarded(ROOM, 0) + ROOM;
  said_to = fmemopen(said, sizeof said, "w");
  if (one_in == 0 || said_to == NULL) {
    fprintf(stderr, "usage: reasons_test [N]\n");
    return 2;
  }
  by_hand(whole_lines, sizeof whole_lines / sizeof *whole_lines);
  by_hand(first_lines, sizeof first_lines / sizeof *first_lines);
  by_hand(words_and_fields, sizeof words_and_fields / sizeof *words_and_fields);
  by_hand(hashes_and_lists, sizeof hashes_and_lists / sizeof *hashes_and_lists);
  long_lines();
  for (int reason = NOTHING_WRONG + 1; reason < REASONS; reason++) {
    expect(met[reason] > 0, "each reason is met by hand");
  }
  one_byte_away(every_kind, strlen(every_kind));
  at_random(bases, lengths, sizeof bases / sizeof *bases);
  fclose(said_to);
  unguard(guarded_end - ROOM, ROOM);
  printf("reasons: %zu lists, %zu of them with a bad line\n", lists, bad_lists);
  return summed_up("reasons");
}
