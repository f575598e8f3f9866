/* scrypt_calibrate. Not proved. */
#define _GNU_SOURCE
#include "scrypt_c.h"
#include "system.h"

enum { MIN_LOG_N = 10, MAX_LOG_N = 40, R = 8, TRIES = 3 };

/* With a larger p the chunks would need more than 1 MiB in addition to the table. */
#define MAX_P 1000

static double now(void) { return (double)now_ns() * 1e-9; }

/* Measures one derivation in one table, which a hasher keeps: the minimum of several times; the
 * first derivation maps it. */
static int measure(uint32_t log_n, double *seconds) {
  scrypt_options options;
  uint8_t key[SCRYPT_KEY_LEN];
  scrypt_hasher *hasher = NULL;
  int status, i;
  scrypt_options_init(&options);
  options.log_n = log_n, options.r = R, options.p = 1;
  options.max_mem = SIZE_MAX, options.max_work = UINT64_MAX;
  options.max_tables = options.processors = 1;
  status = scrypt_hasher_new(&options, &hasher);
  for (i = 0; i < TRIES && status == SCRYPT_OK; i++) {
    double begun = now(), taken;
    status = scrypt_hasher_key(hasher, "", 0, "", 0, key, sizeof key, -1);
    taken = now() - begun;
    if (i == 0 || taken < *seconds) *seconds = taken;
  }
  scrypt_hasher_free(&hasher);
  return status;
}

int scrypt_calibrate(double seconds, size_t max_mem, uint32_t *log_n, uint32_t *r, uint32_t *p) {
  double taken = 0, best_taken = 0;
  uint32_t next, best = 0;
  int status = SCRYPT_E_TOO_COSTLY;
  if (log_n == NULL || r == NULL || p == NULL) return SCRYPT_E_NULL_POINTER;
  /* Twice the N takes about twice the time: try it if that may be within the limit. */
  for (next = MIN_LOG_N; next <= MAX_LOG_N && (size_t)128 * R <= max_mem >> next; next++) {
    if (!(1.8 * taken <= seconds)) break; /* also if seconds is not a number */
    status = measure(next, &taken);
    if (status == SCRYPT_OK && !(taken <= seconds)) status = SCRYPT_E_TOO_COSTLY;
    if (status != SCRYPT_OK) break;
    best = next;
    best_taken = taken;
  }
  if (best == 0) return status;
  *log_n = best;
  *r = R;
  *p = seconds < MAX_P * best_taken ? (uint32_t)(seconds / best_taken) : MAX_P;
  return SCRYPT_OK;
}
