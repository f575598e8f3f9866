/* The memory that proved calls allocate, through rust/support. Not proved. It is wiped before it is
 * freed, or unmapped; the system wipes unmapped memory (SECURITY.md, row "freed memory"). Compiled
 * with -fno-plt: a linker that binds malloc at its first call saves registers in the stack. */
#define _GNU_SOURCE
#include "groups.h"
#include "tables.h"

#include <stdint.h>
#include <stdlib.h>

/* Blocks of this size or more get their own mapping, as in malloc: unmapping is faster than
 * overwriting. */
#define LARGE ((size_t)32 << 20)

/* Precedes a block: the start of malloc's block or of the mapping, and the length of the block.
 * malloc_usable_size would not know the blocks of a program's own malloc. */
struct head {
  void *start;
  size_t len;
};
static struct head *head_of(void *block) { return (struct head *)block - 1; }

void clearing_free(void *block) {
  struct head head;
  if (block == NULL) return;
  head = *head_of(block);
  if (head.len >= LARGE) {
    unmap_tables(LARGEST_PAGE, (uint8_t *)block, head.len, head.start);
    return;
  }
  overwrite((uint8_t *)block, head.len);
  free(head.start);
}

/* Writes to the first page, and returns whether it is a huge page: then its end is resident too. */
static int is_huge(uint8_t *block) {
  *(volatile uint8_t *)block = 0;
  return is_resident(block + HUGE_PAGE - LARGEST_PAGE);
}

/* A page before the tables has the head. */
static void *map_block(size_t len) {
  void *start;
  uint8_t *block = map_tables(LARGEST_PAGE, len, &start);
  if (block == NULL) return NULL;
  *head_of(block) = (struct head){start, len};
  /* Huge pages take longer to prefault in one call. */
  if (len <= MAX_INTERLEAVED_MEM && !is_huge(block)) prefault(block, len);
  return block;
}

/* A block begins at a cache line, and a large block at a huge page, which it asks for, because rows
 * are read in random order. A block below 32 MiB is malloc's, which reuses it: mapping it for each
 * call takes longer if the system has no huge pages. A block above MAX_INTERLEAVED_MEM is not
 * touched before its use, because the next allocation may fail. */
void *clearing_malloc(size_t len) {
  size_t unit = len < 2 * HUGE_PAGE ? CACHE_LINE : HUGE_PAGE, more = sizeof(struct head) + unit - 1;
  uint8_t *start, *block;
  if (len >= LARGE) return map_block(len);
  start = (uint8_t *)malloc(len + more);
  if (start == NULL) return NULL;
  block = start + more - ((uintptr_t)start + more) % unit;
  if (unit == HUGE_PAGE) advise_huge_pages(block, len / HUGE_PAGE * HUGE_PAGE);
  *head_of(block) = (struct head){start, len};
  return block;
}

/* Never has to grow a table, which is allocated at its full size. */
void *clearing_realloc(void *block, size_t len) {
  void *other = clearing_malloc(len);
  size_t had;
  if (other == NULL || block == NULL) return other;
  had = head_of(block)->len;
  memcpy(other, block, had < len ? had : len);
  clearing_free(block);
  return other;
}
