/* Memory for derivations, which is kept between derivations. Not proved. */
#ifndef ARENA_H
#define ARENA_H

#include "groups.h"
#include "tables.h"

/* Its initial state is all zeros. */
struct arena {
  void *mapping;   /* the start of its mapping */
  uint8_t *tables; /* the memory */
  size_t len;      /* its length in bytes; 0 if nothing is mapped */
};

/* Unmaps it, or wipes it if that fails. */
static inline void arena_free(struct arena *arena) {
  if (arena->len == 0) return;
  unmap_tables(0, arena->tables, arena->len, arena->mapping);
  arena->len = 0;
}

/* Reserves memory for `max` derivations with one table each, or for fewer if the system has less,
 * and returns their number, possibly 0. The old content is lost. If is_dropped_on_fork, a forked
 * child doesn't have the mapping, so the arena itself must be in memory that is zeroed in the
 * child.
 *
 * A mapping with room for a table is kept until there is a larger one, so that no call loses memory
 * that it could use. A mapping without goes first, because both might not fit. */
static inline size_t arena_reserve(struct arena *arena, const scrypt_cost *one, size_t max, int is_dropped_on_fork) {
  const size_t have = arena->len / one->bytes;
  if (have == 0) arena_free(arena);
  for (; max > have; max--) {
    struct arena larger;
    if (one->bytes > SIZE_MAX / max) continue;
    larger.len = max * one->bytes;
    larger.tables = map_tables(0, larger.len, &larger.mapping);
    if (larger.tables == NULL) continue;
    if (is_dropped_on_fork && !drop_on_fork(larger.mapping, len_of_mapping(0, larger.len))) {
      arena_free(&larger);
      continue;
    }
    arena_free(arena);
    *arena = larger;
    break;
  }
  return max;
}

/* Buffers for `logins` derivations with the same cost, in `tables` reserved tables. */
static inline scrypt_buffers arena_buffers(const struct arena *arena, const scrypt_cost *one, size_t tables,
                                           size_t logins) {
  scrypt_buffers buffers;
  buffers.table_len = tables * one->table_len;
  buffers.scratch_len = tables * one->scratch_len;
  buffers.chunks_len = logins * one->chunks_len;
  buffers.table = (uint32_t *)(void *)arena->tables;
  buffers.scratch = buffers.table + buffers.table_len;
  buffers.chunks = (uint8_t *)(buffers.scratch + buffers.scratch_len);
  return buffers;
}

#endif
