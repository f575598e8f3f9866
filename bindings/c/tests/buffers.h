/* Buffers for the tests, which see what is written after their ends. */
#ifndef BUFFERS_H
#define BUFFERS_H

#include "check.h"
#include "scrypt_c.h"

#include <stdlib.h>
#include <string.h>

enum { FILL = 7 };
static void *filled(size_t len) {
  void *room = malloc(len);
  if (room == NULL) exit(3);
  return memset(room, FILL, len);
}

/* Buffers for this number of tables, each with one row in 2^s, filled up to a byte or a word after
 * their end. */
static scrypt_buffers new_buffers(uint32_t log_n, uint32_t r, uint32_t p, uint8_t s, size_t tables) {
  scrypt_buffers it;
  check(scrypt_buffer_lens(log_n, r, p, s, &it) == SCRYPT_OK, "lens");
  it.table_len *= tables, it.scratch_len *= tables;
  it.chunks = (uint8_t *)filled(it.chunks_len + 1);
  it.table = (uint32_t *)filled(4 * (it.table_len + 1));
  it.scratch = (uint32_t *)filled(4 * (it.scratch_len + 1));
  return it;
}

static void free_buffers(scrypt_buffers it) {
  scrypt_wipe(&it);
  check(is_all(0, it.chunks, it.chunks_len) && is_all(0, it.table, 4 * it.table_len) &&
            is_all(0, it.scratch, 4 * it.scratch_len), "wiped");
  check(it.chunks[it.chunks_len] == FILL && is_all(FILL, it.table + it.table_len, 4) &&
            is_all(FILL, it.scratch + it.scratch_len, 4), "nothing is written after a buffer");
  free(it.chunks), free(it.table), free(it.scratch);
}

#endif
