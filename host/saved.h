/* Saves a hub's record to a file, and reads it back: the graph, the changes that wait, and the keys of the actors. docs/SAVING.md has the image and the reasons.
 *
 * The file is written beside the old one and takes its place once it is whole, so that the path names a whole record at any time, the old one or the new. One thread of one
 * process may write a path at a time. Nothing is allocated; a call takes 10 KiB of stack beside CG_STACK_BYTES.
 */
#ifndef SAVED_H
#define SAVED_H

#include "changegraph_hub.h"

#ifdef __cplusplus
extern "C" {
#endif

enum {
  SAVED_DONE = 0,
  SAVED_NO_FILE = 1,   /* reading: there is no such file */
  SAVED_NOT_OURS = 2,  /* reading: no image, or one of another version or byte order */
  SAVED_TORN = 3,      /* reading: a length that is not the counts', or a wrong checksum */
  SAVED_TOO_LARGE = 4, /* reading: more than the tables have room for, or tables whose lengths disagree */
  SAVED_NOT_VALID = 5, /* writing: the record is not valid; reading: a whole image, and what it holds is not valid */
  SAVED_SYSTEM = 6     /* the system refused; errno says why */
};

/* An answer in a few words. */
const char *saved_text(int answer);

/* Writes the record to the path, by way of the file PATH.new. SAVED_DONE: it stands there, after a power loss too. SAVED_NOT_VALID: no file was touched. SAVED_SYSTEM: the old
 * record stands, and PATH.new is taken away. Only where the very last step failed, which makes the directory lasting, the new record stands, and a power loss may bring the old
 * one back. */
int saved_write(const char *path, const cg_graph *g, const cg_queue *q, const cg_keys *keys);

/* Reads the record at the path into the tables, whatever they held, and sets the keys. No clock is cached then, which changes no answer. A batch that was filled for another
 * queue is to be opened again. SAVED_NOT_VALID leaves an empty graph without actors, an empty queue and no keys; that is also the answer where the file was read once and could not
 * be read again. After every other answer but SAVED_DONE all lent memory is as it was. After any but SAVED_DONE and SAVED_NO_FILE do not save to the path: docs/SAVING.md. */
int saved_read(const char *path, const cg_graph *g, const cg_queue *q, cg_keys *keys);

#ifdef __cplusplus
}
#endif

#endif
