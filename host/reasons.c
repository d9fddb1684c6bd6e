/* The parser of one line of a change list, and the words for what it finds wrong. See reasons.h.
 *
 * Each check below is by itself a reason for which a line is bad, and a line that passes all of them is right. So their order decides only which of several
 * faults is told: first what spoils a whole file, then the word, then the fields from left to right. */
#include "reasons.h"

#include <string.h>

enum {
  LINE_LIMIT = 2400, /* bytes before the LF */
  HASH_DIGITS = 64,
  MOST_ACTORS = 16,
  MOST_FIELDS = 6,
  WIDTH = 100, /* columns of a line that are shown */
  BEHIND = 20, /* of them at least so many from the place of the finding on, where the line has them */
  NAMED = 24   /* columns of a word that a sentence shows */
};

typedef enum Kind { HASH, NUMBER, LIST } Kind;

typedef struct Field {
  Kind kind;
  const char *name;
} Field;

typedef struct Word {
  const char *name;
  int fields;
  Field field[MOST_FIELDS];
} Word;

enum { ADD, HEADS, CLOCK, MISSING, OWNER, ACTORS, WORDS };

static const Word words[WORDS] = {
    [ADD] = {"add", 6, {{HASH, "hash"}, {NUMBER, "actor"}, {NUMBER, "sequence"}, {NUMBER, "max op"}, {NUMBER, "op count"}, {LIST, "dependencies"}}},
    [HEADS] = {"heads", 0, {{LIST, ""}}},
    [CLOCK] = {"clock", 1, {{LIST, "list of hashes"}}},
    [MISSING] = {"missing", 1, {{LIST, "list of hashes"}}},
    [OWNER] = {"owner", 2, {{NUMBER, "actor"}, {NUMBER, "counter"}}},
    [ACTORS] = {"actors", 1, {{NUMBER, "number of actors"}}},
};

static const char header[] = "change list";
static const char version[] = "1";

/* ---- bytes */

static int is_digit(uint8_t b) { return '0' <= b && b <= '9'; }
static int is_upper(uint8_t b) { return 'A' <= b && b <= 'Z'; }
static int is_letter(uint8_t b) { return is_upper(b) || ('a' <= b && b <= 'z'); }
static int is_hex(uint8_t b) { return is_digit(b) || ('a' <= b && b <= 'f'); }
static int is_capital_hex(uint8_t b) { return 'A' <= b && b <= 'F'; }
static int is_no_hex(uint8_t b) { return !is_hex(b) && !is_capital_hex(b); }
static int is_no_digit(uint8_t b) { return !is_digit(b); }
static int is_no_blank(uint8_t b) { return b != ' ' && b != '\t'; }
static int is_high(uint8_t b) { return b >= 0x80; }
static int is_control(uint8_t b) { return (b < ' ' && b != '\t') || b == 0x7f; }
static uint8_t lower(uint8_t b) { return is_upper(b) ? (uint8_t)(b + 'a' - 'A') : b; }

static int same(Text t, const char *word) { return t.length == strlen(word) && memcmp(t.bytes, word, t.length) == 0; }

static int starts(Text t, const char *word) { return t.length >= strlen(word) && memcmp(t.bytes, word, strlen(word)) == 0; }

static int starts_in_any_case(Text t, const char *word) {
  size_t i = 0;
  while (word[i] != 0 && i < t.length && lower(t.bytes[i]) == (uint8_t)word[i]) {
    i++;
  }
  return word[i] == 0;
}

static Text part(Text t, size_t from, size_t to) { return (Text){t.bytes + from, to - from}; }

/* The place of the first byte that `is` from `from` on; the length where there is none. */
static size_t first_that(Text t, size_t from, int (*is)(uint8_t)) {
  while (from < t.length && !is(t.bytes[from])) {
    from++;
  }
  return from;
}

static size_t first_byte(Text t, size_t from, uint8_t byte) {
  while (from < t.length && t.bytes[from] != byte) {
    from++;
  }
  return from;
}

static size_t count_byte(Text t, uint8_t byte) {
  size_t n = 0;
  for (size_t i = 0; i < t.length; i++) {
    n += t.bytes[i] == byte;
  }
  return n;
}

/* ---- lines and fields */

Line next_line(Text *list) {
  size_t end = first_byte(*list, 0, '\n');
  Line line = {part(*list, 0, end), end < list->length};
  size_t next = end + (size_t)line.ended;
  *list = part(*list, next, list->length);
  return line;
}

Line line_at(Text list, size_t number) {
  Line line = next_line(&list);
  while (number > 1) {
    line = next_line(&list);
    number--;
  }
  return line;
}

Phase phase_of(size_t number) { return number == 1 ? FIRST : number == 2 ? SECOND : ASKING; }

Text field_of(Text line, size_t number) {
  size_t start = 0;
  while (number > 0 && start <= line.length) {
    start = first_byte(line, start, '\t') + 1;
    number--;
  }
  if (start > line.length) {
    return part(line, line.length, line.length);
  }
  return part(line, start, first_byte(line, start, '\t'));
}

uint64_t value_of(Text digits) {
  uint64_t v = 0;
  for (size_t i = 0; i < digits.length; i++) {
    v = v * 10 + (uint64_t)(digits.bytes[i] - '0');
  }
  return v;
}

/* ---- what is found */

static Finding nothing(void) { return (Finding){NOTHING_WRONG, 0, 0, -1, 0, 0}; }

static Finding found_at(Reason reason, size_t at) { return (Finding){reason, at, 0, -1, 0, 0}; }

/* The finding inside a part of a line, as one of the line. */
static Finding moved(Finding f, size_t by) {
  f.at += by;
  return f;
}

/* ---- numbers, hashes, lists; places count from the field's start */

static int above_64_bits(Text digits) {
  uint64_t v = 0;
  for (size_t i = 0; i < digits.length; i++) {
    uint64_t d = (uint64_t)(digits.bytes[i] - '0');
    if (v > (UINT64_MAX - d) / 10) {
      return 1;
    }
    v = v * 10 + d;
  }
  return 0;
}

static Finding judge_number(Text t) {
  if (t.length == 0) {
    return found_at(NUMBER_EMPTY, 0);
  }
  if (same(t, "-")) {
    return found_at(NUMBER_DASH, 0);
  }
  if (t.bytes[0] == '+' || t.bytes[0] == '-') {
    return found_at(NUMBER_SIGN, 0);
  }
  size_t other = first_that(t, 0, is_no_digit);
  if (other < t.length) {
    return found_at(NUMBER_BYTE, other);
  }
  if (t.bytes[0] == '0' && t.length > 1) {
    return found_at(NUMBER_ZERO, 0);
  }
  return above_64_bits(t) ? found_at(NUMBER_LARGE, 0) : nothing();
}

/* A hash that is not empty, `-` or a list. */
static Finding judge_digits(Text t) {
  size_t other = first_that(t, 0, is_no_hex);
  if (other < t.length) {
    return found_at(other == 1 && starts_in_any_case(t, "0x") ? HASH_PREFIX : HASH_BYTE, other);
  }
  if (t.length != HASH_DIGITS) {
    Finding f = found_at(HASH_LENGTH, t.length < HASH_DIGITS ? t.length : HASH_DIGITS);
    f.count = t.length;
    return f;
  }
  size_t capital = first_that(t, 0, is_capital_hex);
  return capital < t.length ? found_at(HASH_CAPITAL, capital) : nothing();
}

static Finding judge_hash(Text t) {
  if (t.length == 0) {
    return found_at(HASH_EMPTY, 0);
  }
  if (same(t, "-")) {
    return found_at(HASH_DASH, 0);
  }
  size_t comma = first_byte(t, 0, ',');
  return comma < t.length ? found_at(HASH_LIST, comma) : judge_digits(t);
}

/* A hash of a list that is not `-`; the list has more on either side where `first` or `last` is 0. */
static Finding judge_member(Text t, int first, int last) {
  if (t.length == 0) {
    return found_at(first ? COMMA_FIRST : last ? COMMA_LAST : COMMA_TWICE, 0);
  }
  return same(t, "-") ? found_at(DASH_JOINED, 0) : judge_digits(t);
}

static Finding judge_list(Text t) {
  if (t.length == 0) {
    return found_at(LIST_EMPTY, 0);
  }
  if (same(t, "-")) {
    return nothing();
  }
  size_t start = 0;
  for (size_t member = 1; start <= t.length; member++) {
    size_t end = first_byte(t, start, ',');
    Finding f = judge_member(part(t, start, end), start == 0, end == t.length);
    if (f.reason != NOTHING_WRONG) {
      f.member = member;
      return moved(f, start);
    }
    start = end + 1;
  }
  return nothing();
}

static Finding judge_field(Kind kind, Text t) { return kind == HASH ? judge_hash(t) : kind == NUMBER ? judge_number(t) : judge_list(t); }

/* ---- the fields of a line whose word is known */

/* Too few or too many fields: `count` of them. */
static Finding judge_count(int word, Text t, size_t count) {
  Finding f = found_at(FEW_FIELDS, t.length);
  f.word = word;
  f.count = count;
  if (count < (size_t)words[word].fields) {
    return f;
  }
  f.reason = MANY_FIELDS;
  f.at = (size_t)(field_of(t, (size_t)words[word].fields + 1).bytes - t.bytes);
  if (t.bytes[t.length - 1] == '\t') {
    f.reason = TAB_AT_END;
    f.at = t.length - 1;
  }
  for (size_t i = 1; i < t.length; i++) {
    if (t.bytes[i - 1] == '\t' && t.bytes[i] == '\t') {
      f.reason = TWO_TABS;
      f.at = i;
      break;
    }
  }
  return f;
}

static Finding judge_fields(int word, Text t) {
  size_t count = count_byte(t, '\t');
  if (count != (size_t)words[word].fields) {
    return judge_count(word, t, count);
  }
  for (int i = 1; i <= words[word].fields; i++) {
    Text field = field_of(t, (size_t)i);
    Finding f = judge_field(words[word].field[i - 1].kind, field);
    if (f.reason != NOTHING_WRONG) {
      f.word = word;
      f.field = i;
      return moved(f, (size_t)(field.bytes - t.bytes));
    }
  }
  return nothing();
}

/* ---- the word */

static int least(int a, int b, int c) { return a < b ? (a < c ? a : c) : (b < c ? b : c); }

/* How many letters must be changed, put in or taken out to make the one of the other, whatever their case; for a word too long to be meant, many. */
static int distance(Text t, const char *word) {
  enum { LONGEST = 12, FAR = 99 };
  int row[LONGEST + 1];
  size_t n = strlen(word);
  if (t.length > LONGEST || n > LONGEST) {
    return FAR;
  }
  for (size_t j = 0; j <= n; j++) {
    row[j] = (int)j;
  }
  for (size_t i = 1; i <= t.length; i++) {
    int corner = row[0];
    row[0] = (int)i;
    for (size_t j = 1; j <= n; j++) {
      int above = row[j];
      row[j] = least(above + 1, row[j - 1] + 1, corner + (lower(t.bytes[i - 1]) != (uint8_t)word[j - 1]));
      corner = above;
    }
  }
  return row[n];
}

static int may_stand(Phase phase, int word) { return (phase == SECOND) == (word == ACTORS); }

/* A line whose word is none of the known ones, so a known one that it starts with is not all of it. */
static Finding judge_unknown(Phase phase, Text word) {
  Finding f = found_at(phase == SECOND ? ACTORS_ABSENT : WORD_UNKNOWN, 0);
  int nearest = 3;
  for (int w = 0; w < WORDS; w++) {
    if (!may_stand(phase, w)) {
      continue;
    }
    size_t n = strlen(words[w].name);
    if (starts(word, words[w].name) && !is_letter(word.bytes[n]) && !is_digit(word.bytes[n])) {
      f = found_at(WORD_JOINED, n);
      f.word = w;
      return f;
    }
    int d = distance(word, words[w].name);
    if (d < nearest && d <= (n > 3 ? 2 : 1)) {
      f.reason = WORD_NEAR;
      f.word = w;
      nearest = d;
    }
  }
  return f;
}

static int known(Text word) {
  for (int w = 0; w < WORDS; w++) {
    if (same(word, words[w].name)) {
      return w;
    }
  }
  return -1;
}

/* The bytes before the first tab or space. */
static Text word_of(Text t) {
  size_t tab = first_byte(t, 0, '\t');
  size_t space = first_byte(t, 0, ' ');
  return part(t, 0, tab < space ? tab : space);
}

/* The space at `at`, which is not the line's first byte. No line has one but the first, inside `change list`. */
static Finding judge_space(Text t, size_t at) {
  if (first_that(t, at, is_no_blank) == t.length) {
    return found_at(SPACE_AT_END, at);
  }
  if (t.bytes[at - 1] == '\t' || t.bytes[at + 1] == '\t') {
    return found_at(SPACE_BY_TAB, at);
  }
  return found_at(t.bytes[at - 1] == ',' || t.bytes[at + 1] == ',' ? SPACE_BY_COMMA : SPACE_INSIDE, at);
}

/* ---- a line */

/* The first line where it starts with its words: what follows them. */
static Finding judge_version(Text t) {
  size_t n = strlen(header);
  size_t space = first_byte(t, n, ' ');
  if (space < t.length) {
    Finding f = judge_space(t, space);
    return f.reason == SPACE_INSIDE && space == n ? found_at(HEADER_SPACE, n) : f;
  }
  if (t.length > n && t.bytes[n] != '\t') {
    return found_at(HEADER_UNLIKE, n);
  }
  Finding f = found_at(HEADER_FIELDS, t.length);
  f.count = count_byte(t, '\t');
  if (f.count == 0) {
    return f;
  }
  Text number = field_of(t, 1);
  if (!same(number, version)) {
    return found_at(HEADER_VERSION, n + 1);
  }
  f.at = n + 1 + number.length;
  return f.count == 1 ? nothing() : f;
}

/* The first line. */
static Finding judge_header(Text t) {
  if (starts(t, header)) {
    return judge_version(t);
  }
  if (starts_in_any_case(t, header)) {
    return found_at(HEADER_CAPITALS, 0);
  }
  return found_at(known(word_of(t)) >= 0 ? HEADER_ABSENT : HEADER_UNLIKE, 0);
}

/* Any other line. */
static Finding judge_words(Phase phase, Text t) {
  Text word = word_of(t);
  int w = known(word);
  if (starts(t, header)) {
    return found_at(HEADER_AGAIN, 0);
  }
  if (w < 0) {
    return judge_unknown(phase, word);
  }
  if (!may_stand(phase, w)) {
    return found_at(phase == SECOND ? ACTORS_ABSENT : ACTORS_AGAIN, 0);
  }
  size_t space = first_byte(t, 0, ' ');
  if (space < t.length) {
    return judge_space(t, space);
  }
  Finding f = judge_fields(w, t);
  if (f.reason != NOTHING_WRONG || w != ACTORS) {
    return f;
  }
  uint64_t actors = value_of(field_of(t, 1));
  if (actors < 1 || actors > MOST_ACTORS) {
    return (Finding){ACTORS_RANGE, strlen(words[ACTORS].name) + 1, 0, ACTORS, 1, 0};
  }
  return nothing();
}

/* How no line starts, whichever it is; it has a byte that is no blank. */
static Finding judge_start(Text t) {
  if (t.bytes[0] == ' ' || t.bytes[0] == '\t') {
    return found_at(t.bytes[0] == ' ' ? SPACE_AT_START : TAB_AT_START, 0);
  }
  int comment = t.bytes[0] == '#' || t.bytes[0] == ';' || starts(t, "//") || starts(t, "--");
  return comment ? found_at(COMMENT, 0) : nothing();
}

/* A text of two bytes a letter, with its mark or without. */
static int is_utf_16(Text t) {
  const uint8_t *b = t.bytes;
  return starts(t, "\xff\xfe") || starts(t, "\xfe\xff") || (t.length >= 4 && ((b[0] == 0 && b[2] == 0) || (b[1] == 0 && b[3] == 0)));
}

/* Bytes that no line has, and how no line starts. */
static Finding judge_bytes(Phase phase, Text t) {
  if (phase == FIRST && is_utf_16(t)) {
    return found_at(UTF_16, 0);
  }
  if (starts(t, "\xef\xbb\xbf")) {
    return found_at(BYTE_ORDER_MARK, 0);
  }
  size_t cr = first_byte(t, 0, '\r');
  if (cr < t.length) {
    return found_at(cr + 1 == t.length ? CR_AT_END : CR_INSIDE, cr);
  }
  size_t nul = first_byte(t, 0, 0);
  if (nul < t.length) {
    return found_at(NUL_BYTE, nul);
  }
  if (t.length > LINE_LIMIT) {
    Finding f = found_at(LONG_LINE, LINE_LIMIT);
    f.count = t.length;
    return f;
  }
  if (first_that(t, 0, is_no_blank) == t.length) {
    return found_at(t.length == 0 ? BLANK_LINE : ONLY_BLANKS, 0);
  }
  size_t high = first_that(t, 0, is_high);
  if (high < t.length) {
    return found_at(NOT_ASCII, high);
  }
  size_t control = first_that(t, 0, is_control);
  return control < t.length ? found_at(CONTROL_BYTE, control) : judge_start(t);
}

Finding judge(Phase phase, Line line) {
  if (line.text.length == 0 && !line.ended) {
    return phase == ASKING ? nothing() : found_at(phase == FIRST ? FIRST_MISSING : SECOND_MISSING, 0);
  }
  Finding f = judge_bytes(phase, line.text);
  if (f.reason == NOTHING_WRONG) {
    f = phase == FIRST ? judge_header(line.text) : judge_words(phase, line.text);
  }
  return f.reason == NOTHING_WRONG && !line.ended ? found_at(NO_LF, line.text.length) : f;
}

size_t first_bad(Text list, Finding *found) {
  for (size_t number = 1;; number++) {
    Line line = next_line(&list);
    *found = judge(phase_of(number), line);
    if (found->reason != NOTHING_WRONG) {
      return number;
    }
    if (!line.ended) {
      return 0;
    }
  }
}

/* ---- the words. {field} and the like are filled in by `put_slot`. */

typedef struct Sentences {
  const char *wrong;
  const char *remedy;
} Sentences;

static const Sentences sentences[REASONS] = {
    [NOTHING_WRONG] = {"This tool finds nothing wrong with the line, though the session calls it bad.",
                       "That is a defect of the tool (host/reasons.c): please report it, with the list."},
    [FIRST_MISSING] = {"The list is empty.", "Its first line is `change list`, tab, `1`; its second is `actors`, tab, and how many there are."},
    [SECOND_MISSING] = {"The list ends after its first line.", "The second line is `actors`, tab, and how many there are, 1 to 16."},
    [NO_LF] = {"The line has no LF at its end.", "Every line ends in LF, the last one too: press Enter after it, and see whether the file was cut off."},
    [UTF_16] = {"The file is in UTF-16, which has two bytes for each letter.",
                "Save it as plain text (ASCII, or UTF-8 without a byte-order mark), or convert it: iconv -f UTF-16 -t ASCII OLD >NEW"},
    [BYTE_ORDER_MARK] = {"The line begins with a byte-order mark: the bytes EF BB BF, which some editors put before a text.",
                         "Save the file as UTF-8 without the mark."},
    [CR_AT_END] = {"The line ends in a CR, as lines of files from Windows do.",
                   "Lines end in LF alone: save the file with Unix line ends, or take the CRs out: tr -d '\\r' <OLD >NEW"},
    [CR_INSIDE] = {"Byte {place} is a CR.", "Lines end in LF alone; where the file has a CR in place of each LF, turn them into LFs: tr '\\r' '\\n' <OLD >NEW"},
    [NUL_BYTE] = {"Byte {place} is NUL, a byte of the value 0.", "A change list is plain text: see whether the file is damaged, or is no text at all."},
    [LONG_LINE] = {"The line has {count} bytes; at most 2,400 may stand before its LF.", "Name fewer hashes in it, and see whether an LF is missing."},
    [BLANK_LINE] = {"The line is blank.", "A change list has no blank lines, not even at its end: take the line out."},
    [ONLY_BLANKS] = {"The line has only spaces or tabs.", "A change list has no blank lines, not even at its end: take the line out."},
    [NOT_ASCII] = {"Byte {place} is {byte}, which is not plain ASCII.",
                   "It may belong to a long dash, a curly quote or a non-breaking space from a word processor: type the plain character."},
    [CONTROL_BYTE] = {"Byte {place} is {byte}, a control character, which prints nothing.", "Take it out."},
    [TAB_AT_START] = {"The line begins with a tab.", "It must begin with its word: take the tab out."},
    [TAB_AT_END] = {"The line ends in a tab, after which an empty field stands.", "{wants}; the line has {count}. Take the tab out."},
    [TWO_TABS] = {"Two tabs stand side by side, the second at byte {place}, with an empty field between them.", "{wants}; the line has {count}. Take one tab out."},
    [SPACE_AT_START] = {"The line begins with a space.", "It must begin with its word: take the space out."},
    [SPACE_AT_END] = {"From byte {place} on the line has only blanks.", "Nothing stands after the last field: take them out."},
    [SPACE_BY_TAB] = {"A space stands beside a tab, at byte {place}.", "Fields are parted by one tab and nothing else: take the space out."},
    [SPACE_BY_COMMA] = {"A space stands beside a comma, at byte {place}.", "The hashes of a list are parted by a comma and nothing else: take the space out."},
    [SPACE_INSIDE] = {"Byte {place} is a space.",
                      "Fields are parted by one tab, and have no space in them: write a tab, and see that your editor does not turn tabs into spaces."},
    [HEADER_ABSENT] = {"The first line is missing: the list begins with a line that may only follow it.", "Put `change list`, tab, `1` before it."},
    [HEADER_UNLIKE] = {"The first line is not `change list`, tab, `1`.", "It must be exactly that; see whether the file is a change list at all."},
    [HEADER_CAPITALS] = {"The first line has capital letters.", "It is exactly `change list`, tab, `1`, in small letters."},
    [HEADER_SPACE] = {"A space stands between `change list` and what follows.", "Write one tab there, and see that your editor does not turn tabs into spaces."},
    [HEADER_FIELDS] = {"After `change list` comes one field, the version `1`; the line has {count}.", "The first line is exactly `change list`, tab, `1`."},
    [HEADER_VERSION] = {"The version of the list is not `1`.", "Only version 1 is answered here: the first line is exactly `change list`, tab, `1`."},
    [HEADER_AGAIN] = {"`change list` may stand on line 1 alone.", "Where two lists stand in one file, make two files of it, each answered by itself."},
    [ACTORS_ABSENT] = {"The second line must begin with `actors`; this one begins with `{text}`.", "Write `actors`, tab, and how many there are, 1 to 16."},
    [ACTORS_RANGE] = {"{field} is not 1 to 16.", "A session has at least one actor and room for 16, which are numbered from 0."},
    [ACTORS_AGAIN] = {"`actors` may stand on line 2 alone.", "The number of actors is the same for the whole list: take the line out."},
    [COMMENT] = {"The line looks like a comment.", "A change list has no comments: take the line out."},
    [WORD_UNKNOWN] = {"No line begins with `{text}`.",
                      "From the third line on a line begins with `add`, `heads`, `clock`, `missing` or `owner`, in small letters."},
    [WORD_NEAR] = {"No line begins with `{text}`.", "Perhaps `{word}` is meant, in small letters and spelt like this."},
    [WORD_JOINED] = {"After the word `{word}` stands `{byte}`.", "The word ends at a tab where fields follow, and else with the line."},
    [FEW_FIELDS] = {"{wants}; the line has {count}.", "Write every field, with one tab before each."},
    [MANY_FIELDS] = {"{wants}; the line has {count}.", "Take out what is too much; the hashes of a list are parted by commas and not by tabs."},
    [NUMBER_EMPTY] = {"{field} is empty.", "Write a number there."},
    [NUMBER_DASH] = {"{field} is `-`, which means a list of no hashes.", "Write a number there."},
    [NUMBER_SIGN] = {"{field} begins with `{byte}`.", "Numbers have no sign: write the digits alone."},
    [NUMBER_BYTE] = {"{field} has `{byte}` in it, at byte {place}.", "Numbers are decimal: write the digits 0 to 9 alone, without letters, points or commas."},
    [NUMBER_ZERO] = {"{field} begins with a 0 that is not all of it.", "Leave leading zeros out."},
    [NUMBER_LARGE] = {"{field} is above 18,446,744,073,709,551,615, the largest number that a line may have.", "See whether two numbers ran together."},
    [HASH_EMPTY] = {"{field} is empty.", "Write the 64 hex digits of the hash there."},
    [HASH_DASH] = {"{field} is `-`, which means a list of no hashes.", "One hash must stand there: 64 hex digits."},
    [HASH_LIST] = {"{field} has a comma in it, at byte {place}.", "One hash must stand there, no list."},
    [HASH_PREFIX] = {"{hash} begins with `0{byte}`.", "Write the 64 hex digits alone."},
    [HASH_BYTE] = {"{hash} has `{byte}` in it, at byte {place}.", "A hash has 64 hex digits, 0 to 9 and a to f, and nothing else."},
    [HASH_LENGTH] = {"{hash} has {count} hex digit{s}.", "A hash has exactly 64: copy it again whole."},
    [HASH_CAPITAL] = {"{hash} has a capital `{byte}` in it, at byte {place}.", "Hashes are written in small letters: turn A to F into a to f."},
    [LIST_EMPTY] = {"{field} is empty.", "Write `-` for a list of no hashes."},
    [COMMA_FIRST] = {"{field} begins with a comma.", "A comma stands between two hashes: take it out, or put the hash before it that is missing."},
    [COMMA_LAST] = {"{field} ends in a comma.", "A comma stands between two hashes: take it out, or put the hash after it that is missing."},
    [COMMA_TWICE] = {"{field} has two commas side by side, the second at byte {place}.", "Take one out, or put the hash between them that is missing."},
    [DASH_JOINED] = {"{hash} is `-`.", "`-` means a list of no hashes and stands alone: leave it out where there are hashes."},
};

void put_number(FILE *out, uint64_t value) {
  if (value >= 1000) {
    put_number(out, value / 1000);
    fprintf(out, ",%03u", (unsigned)(value % 1000));
  } else {
    fprintf(out, "%u", (unsigned)value);
  }
}

/* How a byte is shown, and the columns that it takes. */
static size_t shown(uint8_t b, char out[5]) {
  if (b == '\t') {
    memcpy(out, "⇥", sizeof "⇥");
    return 1;
  }
  if (b == '\r' || b == '\\') {
    memcpy(out, b == '\r' ? "\\r" : "\\\\", 3);
    return 2;
  }
  if (b < ' ' || b > '~') {
    return (size_t)sprintf(out, "\\x%02X", b);
  }
  out[0] = (char)b;
  out[1] = 0;
  return 1;
}

static size_t columns(Text t) {
  char buffer[5];
  size_t sum = 0;
  for (size_t i = 0; i < t.length; i++) {
    sum += shown(t.bytes[i], buffer);
  }
  return sum;
}

/* Shows what fits into so many columns, and … where that is not all. */
static void put_shown(FILE *out, Text t, size_t width) {
  char buffer[5];
  size_t used = 0;
  for (size_t i = 0; i < t.length; i++) {
    used += shown(t.bytes[i], buffer);
    if (used > width) {
      fputs("…", out);
      return;
    }
    fputs(buffer, out);
  }
}

void show(FILE *out, Line line, Finding found) {
  Text t = line.text;
  size_t from = found.at;
  if (t.length == 0) {
    return;
  }
  while (from > 0 && columns(part(t, from - 1, found.at)) <= WIDTH - BEHIND) {
    from--;
  }
  fputs(from > 0 ? "    …" : "    ", out);
  put_shown(out, part(t, from, t.length), WIDTH);
  fprintf(out, "\n    %*s^\n", (int)(columns(part(t, from, found.at)) + (from > 0)), "");
}

/* "`add` wants 6 fields after it: hash, actor" and so on */
static void put_wants(FILE *out, const Word *w) {
  fprintf(out, "`%s` wants ", w->name);
  if (w->fields == 0) {
    fputs("no field after it", out);
    return;
  }
  fprintf(out, "%d field%s after it: ", w->fields, w->fields == 1 ? "" : "s");
  for (int i = 0; i < w->fields; i++) {
    fprintf(out, "%s%s%s", i > 0 ? ", " : "", w->field[i].name, w->field[i].kind == LIST ? " (`-` for none)" : "");
  }
}

static void put_field(FILE *out, Finding f, const char *start) {
  fprintf(out, "%sield %d of `%s` (%s)", start, f.field, words[f.word].name, words[f.word].field[f.field - 1].name);
}

static void put_slot(FILE *out, const char *slot, Text line, Finding f) {
  char buffer[5];
  if (strncmp(slot, "{field}", 7) == 0) {
    put_field(out, f, "F");
  } else if (strncmp(slot, "{hash}", 6) == 0 && f.member > 0) {
    fprintf(out, "Hash %u in ", (unsigned)f.member);
    put_field(out, f, "f");
  } else if (strncmp(slot, "{hash}", 6) == 0) {
    put_field(out, f, "F");
  } else if (strncmp(slot, "{byte}", 6) == 0) {
    shown(line.bytes[f.at], buffer);
    fputs(buffer, out);
  } else if (strncmp(slot, "{place}", 7) == 0) {
    put_number(out, f.at + 1);
  } else if (strncmp(slot, "{count}", 7) == 0) {
    put_number(out, f.count);
  } else if (strncmp(slot, "{s}", 3) == 0) {
    fputs(f.count == 1 ? "" : "s", out);
  } else if (strncmp(slot, "{word}", 6) == 0) {
    fputs(words[f.word].name, out);
  } else if (strncmp(slot, "{text}", 6) == 0) {
    put_shown(out, word_of(line), NAMED);
  } else {
    put_wants(out, &words[f.word]);
  }
}

static void put_sentence(FILE *out, const char *sentence, Text line, Finding f) {
  fputs("    ", out);
  for (const char *p = sentence; *p != 0; p++) {
    if (*p == '{') {
      put_slot(out, p, line, f);
      p = strchr(p, '}');
    } else {
      fputc(*p, out);
    }
  }
  fputc('\n', out);
}

void say(FILE *out, Line line, Finding found) {
  put_sentence(out, sentences[found.reason].wrong, line.text, found);
  put_sentence(out, sentences[found.reason].remedy, line.text, found);
  if (!line.ended && line.text.length > 0 && found.reason != NO_LF) {
    put_sentence(out, "The line has no LF at its end either.", line.text, found);
  }
}
