/* Mappings for tables, which arena.h keeps and blocks.c doesn't. A mapping that goes is unmapped, and
 * wiped only if that fails: the system wipes unmapped memory, and takes far less time (SECURITY.md,
 * row "freed memory"). */
#ifndef TABLES_H
#define TABLES_H

#include "system.h"

#include <string.h>

#define CACHE_LINE ((size_t)64)

/* Writes zeros, in a way that the compiler must not optimize away. Whole cache lines are written
 * through the cache, where the next call finds them: memset takes a third longer for the table of
 * (14, 8, 1). */
static inline void overwrite(uint8_t *block, size_t len) {
  typedef uint64_t vector __attribute__((vector_size(16), may_alias));
  const vector zeros = {0, 0};
  size_t lines = (uintptr_t)block % CACHE_LINE == 0 ? len / CACHE_LINE * CACHE_LINE : 0, i;
  for (i = 0; i < lines; i += CACHE_LINE) {
    vector *line = (vector *)(block + i);
    line[0] = zeros;
    line[1] = zeros;
    line[2] = zeros;
    line[3] = zeros;
    __asm__ volatile("" ::"r"(line) : "memory");
  }
  memset(block + lines, 0, len - lines);
  __asm__ volatile("" ::"r"(block) : "memory");
}

/* The length of a mapping of `len` bytes for tables, after `before` bytes and a gap. */
static inline size_t len_of_mapping(size_t before, size_t len) { return before + HUGE_PAGE + len; }

/* Maps zeros, and writes the start of the mapping. Returns its bytes for tables, which begin at a huge
 * page and ask for huge pages, because rows are read in random order; or NULL. */
static inline uint8_t *map_tables(size_t before, size_t len, void **start) {
  uint8_t *tables;
  if (len > SIZE_MAX - len_of_mapping(before, 0)) return NULL;
  *start = map_zeros(len_of_mapping(before, len));
  if (*start == NULL) return NULL;
  tables = (uint8_t *)*start + before;
  tables += (HUGE_PAGE - (uintptr_t)tables % HUGE_PAGE) % HUGE_PAGE;
  /* Leaves out the part of the last huge page, which would otherwise take a whole one. */
  advise_huge_pages(tables, len / HUGE_PAGE * HUGE_PAGE);
  return tables;
}

static inline void unmap_tables(size_t before, uint8_t *tables, size_t len, void *start) {
  if (!unmap(start, len_of_mapping(before, len))) overwrite(tables, len);
}

#endif
