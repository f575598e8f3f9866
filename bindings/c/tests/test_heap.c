/* The memory of the proved calls, in each size: no tested call of the library makes a block larger. */
#define _GNU_SOURCE
#include "linux.c"
#include "test.h"

#include <stdlib.h>

/* The block that is freed next, unless it is a mapping. */
static const uint8_t *to_free;
static size_t to_free_len;

static void free_wiped(void *start) {
  check(is_all(0, to_free, to_free_len), "freed memory is not wiped");
  free(start);
}

#define free free_wiped
#include "blocks.c"
#undef free

enum { ALIGN = 16 }; /* rust/support relies on it */

static uint8_t byte_at(size_t at) { return (uint8_t)(at * 31 >> 3 | 1); }

static void fill(uint8_t *block, size_t len) {
  for (size_t at = 0; at < len; at++) block[at] = byte_at(at);
}

static int is_filled(const uint8_t *block, size_t len) {
  size_t at = 0;
  while (at < len && block[at] == byte_at(at)) at++;
  return at == len;
}

static uint8_t *checked(void *block, const char *what) {
  check(block != NULL && (uintptr_t)block % ALIGN == 0, what);
  return (uint8_t *)block;
}

/* From malloc's blocks to mappings and back, with the bytes that both have. */
static void resized(size_t from, size_t to) {
  uint8_t *old = checked(clearing_malloc(from), "a block"), *new;
  fill(old, from);
  to_free = old, to_free_len = from;
  new = checked(clearing_realloc(old, to), "a resized block");
  check(is_filled(new, from < to ? from : to), "the bytes of a resized block");
  fill(new, to);
  check(clearing_realloc(new, SIZE_MAX / 2) == NULL, "a size that no system has");
  check(is_filled(new, to), "the bytes of a block that is not resized");
  to_free = new, to_free_len = to;
  clearing_free(new);
}

TEST(each_size) {
  static const size_t SIZES[] = {1, 100, LARGE - 1, LARGE + 100};
  enum { COUNT = sizeof SIZES / sizeof *SIZES };
  for (size_t i = 0; i < COUNT * COUNT; i++) resized(SIZES[i / COUNT], SIZES[i % COUNT]);
  check(clearing_malloc(SIZE_MAX / 2) == NULL, "no memory");
}
