/* How long the steps and the runs of a derivation take. steps.c is included, by a clock that only mixes move, and
 * with proved steps that only count them: nothing here depends on the machine or its load. */
#include "steps.c"

#include "test.h"

#include <stdlib.h>

static int64_t clock_ns, mix_ns;
int64_t now_ns(void) { return clock_ns; }

void *clearing_malloc(size_t len) { return malloc(len); }
void clearing_free(void *block) { free(block); }
size_t max_interleave(void) { return 4; }

static const char *why;
static size_t most; /* the mixes of the longest step so far */

static size_t fewer(size_t one, size_t other) { return one < other ? one : other; }

int cleared_scrypt_key_begin(const uint8_t *password, size_t password_len, const uint8_t *salt, size_t salt_len,
                             uint8_t log_n, uint32_t r, uint32_t p, uint8_t *chunks, size_t chunks_len, uint32_t *table,
                             size_t table_len, uint32_t *scratch, size_t scratch_len, scrypt_progress *at) {
  *at = (scrypt_progress){0, fewer(table_len / ((size_t)32 * r << log_n), p), 0};
  return SCRYPT_OK;
}

/* The first step has at most 2^14 cores, which take about a millisecond, or is one mix; each other step has at
 * most twice the mixes of the longest before. */
int cleared_scrypt_key_step(uint8_t log_n, uint32_t r, uint32_t p, size_t count, uint8_t *chunks, size_t chunks_len,
                            uint32_t *table, size_t table_len, uint32_t *scratch, size_t scratch_len,
                            scrypt_progress *at) {
  const size_t all = (size_t)2 << log_n, mixes = fewer(count, all - at->mixes);
  check(most > 0 ? count <= 2 * most : count == 1 || count <= (1 << 14) / (2 * r), why);
  if (count > most) most = count;
  clock_ns += (int64_t)mixes * mix_ns;
  at->mixes += mixes;
  if (at->mixes < all) return SCRYPT_OK;
  at->mixes = 0, at->chunks += at->interleaved;
  at->interleaved = fewer(at->interleaved, p - at->chunks);
  return SCRYPT_OK;
}

int cleared_scrypt_key_finish(const uint8_t *password, size_t password_len, uint8_t log_n, uint32_t r, uint32_t p,
                              const uint8_t *chunks, size_t chunks_len, const scrypt_progress *at, uint8_t *output,
                              size_t output_len) {
  return SCRYPT_OK;
}

static const struct {
  const char *why;
  uint32_t log_n, r, p, milliseconds;
  int64_t mix_ns;
} ROWS[] = {
    {"no time: one step a run", 6, 8, 1, 0, 1000},
    {"no time, and an r by which the first step is shorter", 6, 1000, 2, 0, 100000},
    {"one mix takes longer than a run", 4, 5000, 1, 1, 3000000},
    {"the first run, in which steps grow", 12, 8, 1, 10, 1000},
    {"chunks end within a step, and the next begin", 14, 8, 5, 10, 1000},
    {"2^32 ns and a little", 20, 1, 1, 4295, 4100},
    {"the longest time", 20, 1, 1, UINT32_MAX, 4000},
};

/* Each run takes its time, up to a mix more; only the last takes less. */
TEST(each_run) {
  for (size_t i = 0; i < sizeof ROWS / sizeof *ROWS; i++) {
    const int64_t ns = INT64_C(1000000) * ROWS[i].milliseconds;
    const uint32_t log_n = ROWS[i].log_n, r = ROWS[i].r, p = ROWS[i].p;
    scrypt_derivation *it = NULL;
    double done = 0;
    why = ROWS[i].why, mix_ns = ROWS[i].mix_ns, most = 0;
    check(scrypt_derivation_new("pw", 2, "salt", 4, log_n, r, p, SCRYPT_AUTO, 32, &it) == SCRYPT_OK, why);
    while (it != NULL && done < 1) {
      const int64_t begun = clock_ns, first = most == 0 ? (1 << 14) * mix_ns / (2 * (int64_t)r) : 0;
      check(scrypt_derivation_run(it, ROWS[i].milliseconds, &done) == SCRYPT_OK, why);
      check(clock_ns - begun <= ns + mix_ns + (ns == 0 ? first : 0), why);
      check(done == 1 || clock_ns - begun >= ns, why);
    }
    scrypt_derivation_free(&it);
  }
}
