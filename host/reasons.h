/* Why a line of a change list is bad. `judge` reads one line by the rules of crates/paper/specs (Text, Command, Session) and gives the first thing that it
 * finds wrong, or NOTHING_WRONG; `say` writes what that is, and what to do about it, for the person who made the list.
 *
 * No answer is made here: which line is bad is cg_session's to say. host/reasons_test.c holds the two against each other. */
#ifndef REASONS_H
#define REASONS_H

#include <stddef.h>
#include <stdint.h>
#include <stdio.h>

/* Some bytes of a list; they need not be text. */
typedef struct Text {
  const uint8_t *bytes;
  size_t length;
} Text;

/* A line without its LF, or what stands after the last LF, which has `ended` 0 and may be empty. */
typedef struct Line {
  Text text;
  int ended;
} Line;

/* What a line may be: the header, the number of actors, or a line that asks. */
typedef enum Phase { FIRST, SECOND, ASKING } Phase;

typedef enum Reason {
  NOTHING_WRONG,
  /* any line */
  FIRST_MISSING,
  SECOND_MISSING,
  NO_LF,
  UTF_16,
  BYTE_ORDER_MARK,
  CR_AT_END,
  CR_INSIDE,
  NUL_BYTE,
  LONG_LINE,
  BLANK_LINE,
  ONLY_BLANKS,
  NOT_ASCII,
  CONTROL_BYTE,
  /* blanks where they do not belong */
  TAB_AT_START,
  TAB_AT_END,
  TWO_TABS,
  SPACE_AT_START,
  SPACE_AT_END,
  SPACE_BY_TAB,
  SPACE_BY_COMMA,
  SPACE_INSIDE,
  /* the first two lines, and the same further down */
  HEADER_ABSENT,
  HEADER_UNLIKE,
  HEADER_CAPITALS,
  HEADER_SPACE,
  HEADER_FIELDS,
  HEADER_VERSION,
  HEADER_AGAIN,
  ACTORS_ABSENT,
  ACTORS_RANGE,
  ACTORS_AGAIN,
  /* the word that a line begins with, and how many fields follow */
  COMMENT,
  WORD_UNKNOWN,
  WORD_NEAR,
  WORD_JOINED,
  FEW_FIELDS,
  MANY_FIELDS,
  /* a number */
  NUMBER_EMPTY,
  NUMBER_DASH,
  NUMBER_SIGN,
  NUMBER_BYTE,
  NUMBER_ZERO,
  NUMBER_LARGE,
  /* a hash, alone or in a list */
  HASH_EMPTY,
  HASH_DASH,
  HASH_LIST,
  HASH_PREFIX,
  HASH_BYTE,
  HASH_LENGTH,
  HASH_CAPITAL,
  /* a list of hashes */
  LIST_EMPTY,
  COMMA_FIRST,
  COMMA_LAST,
  COMMA_TWICE,
  DASH_JOINED,
  REASONS /* how many there are */
} Reason;

/* What is wrong with a line, and where. */
typedef struct Finding {
  Reason reason;
  size_t at;     /* the byte of the line that shows it, from 0; the line's length where something is absent at its end */
  size_t count;  /* how many there are of what there should be more or fewer: digits, fields, bytes */
  int word;      /* the place of the known word in the parser's table, or of the one that may be meant; -1 for none */
  int field;     /* the field after the word, from 1; 0 for none */
  size_t member; /* the hash of a list, from 1; 0 outside a list */
} Finding;

/* Takes the first line off the list. */
Line next_line(Text *list);

/* The line with the number, counted from 1; the rest after the last LF is a line here. */
Line line_at(Text list, size_t number);

/* The first line may be the header alone, the second the number of actors. */
Phase phase_of(size_t number);

/* What is wrong with the line. An unended line is wrong, but nothing at all after the last LF is wrong only as first or second line. */
Finding judge(Phase phase, Line line);

/* The number of the first line that is wrong, with what is wrong with it; 0 for none. */
size_t first_bad(Text list, Finding *found);

/* The field with the number, 0 for the word, of a line or an answer that has it; else no bytes. */
Text field_of(Text line, size_t number);

/* The number that the digits write, where a 64-bit number can have it. */
uint64_t value_of(Text digits);

/* Writes a number with a comma at every third digit. */
void put_number(FILE *out, uint64_t value);

/* Writes the line so that every byte can be seen, cut to a width around the place of the finding, and under it a mark at that place. Writes only letters that
 * print: tabs are shown as ⇥, other bytes as \r, \x00 and so on. */
void show(FILE *out, Line line, Finding found);

/* Writes the finding in words: a line of one to three sentences. */
void say(FILE *out, Line line, Finding found);

#endif
