/* For the tests: what does not hold is printed, and remembered in `failed`. */
#ifndef CHECK_H
#define CHECK_H

#include <stdint.h>
#include <stdio.h>

static int failed = 0;

static void check(int holds, const char *what) {
  if (!holds) {
    fprintf(stderr, "failed: %s\n", what);
    failed = 1;
  }
}

static int is_all(uint8_t byte, const void *room, size_t len) {
  const uint8_t *bytes = (const uint8_t *)room;
  while (len > 0 && bytes[len - 1] == byte) len--;
  return len == 0;
}

#endif
