/* Definitions that the calls written in C share. */
#ifndef GROUPS_H
#define GROUPS_H

#include "numbers.h"
#include "scrypt_c.h"

/* NULL is allowed for no bytes, but not by the proved calls. */
static inline int is_null(const void *bytes, size_t len) { return bytes == NULL && len > 0; }
static inline const uint8_t *bytes_of(const void *bytes) {
  return bytes != NULL ? (const uint8_t *)bytes : (const uint8_t *)"";
}
static inline const char *chars_of(const char *text) { return text != NULL ? text : ""; }

/* The arguments of a proved call for buffers. */
#define PARTS_OF(buffers)                                                                           \
  (buffers)->chunks, (buffers)->chunks_len, (buffers)->table, (buffers)->table_len, (buffers)->scratch, \
      (buffers)->scratch_len

/* Converts log_n for the proved calls, which accept none above 56: truncation must not turn a
 * larger value into an accepted one. */
static inline uint8_t in_8_bits(uint32_t log_n) { return log_n < 64 ? (uint8_t)log_n : UINT8_MAX; }

/* The progress of a derivation in steps. Of the p * 2^(log_n + 1) block mixes of all chunks,
 * chunks * 2^(log_n + 1) + interleaved * mixes are done. */
typedef struct scrypt_progress {
  size_t chunks;      /* the number of chunks that are mixed, of p */
  size_t interleaved; /* the number of the next chunks, which are interleaved now */
  size_t mixes;       /* the number of block mixes that are done for each of these */
} scrypt_progress;

/* The proved calls, with clearing.c. */
#define PROVED_CALL(name, parameters, arguments) int cleared_##name parameters;
#define PROVED_PROCEDURE(name, parameters, arguments) void cleared_##name parameters;
#include "proved_calls.h"

/* The number of interleaved chunks that is fastest on this processor, up to SCRYPT_MAX_LOGINS. */
size_t max_interleave(void);

#endif
