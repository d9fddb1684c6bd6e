/* Memory that ends at a page that may not be touched, so that one byte too far stops the program. */
#ifndef GUARDED_H
#define GUARDED_H

#define _GNU_SOURCE
#include <stddef.h>
#include <stdint.h>
#include <stdio.h>
#include <stdlib.h>
#include <string.h>
#include <sys/mman.h>
#include <unistd.h>

/* `size` bytes, the last of them right before the guard page, filled with `fill`. */
static inline void *guarded(size_t size, int fill) {
  size_t page = (size_t)sysconf(_SC_PAGESIZE);
  size_t whole = (size + page - 1) / page * page;
  uint8_t *base = mmap(NULL, whole + page, PROT_READ | PROT_WRITE, MAP_PRIVATE | MAP_ANONYMOUS, -1, 0);
  if (base == MAP_FAILED || mprotect(base + whole, page, PROT_NONE) != 0) {
    perror("guarded");
    exit(2);
  }
  memset(base, fill, whole);
  return base + whole - size;
}

static inline void unguard(void *start, size_t size) {
  size_t page = (size_t)sysconf(_SC_PAGESIZE);
  size_t whole = (size + page - 1) / page * page;
  munmap((uint8_t *)start + size - whole, whole + page);
}

#endif
