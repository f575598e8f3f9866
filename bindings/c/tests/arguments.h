/* Variables for each_call.h, named as the arguments in the header: the inputs and the outputs of a
 * thread. */
#ifndef ARGUMENTS_H
#define ARGUMENTS_H

#include "buffers.h"

static __thread struct {
  const void *password, *salt, *key;
  const char *text;
  const scrypt_login *logins;
  scrypt_buffers buffers[1];
  const scrypt_options *options; /* for scrypt_hasher_new: the defaults, unless a test sets them */
  scrypt_options of_hasher;
  scrypt_hasher *hasher;
  scrypt_derivation *derivation; /* its chunks are mixed by scrypt_derivation_run */
  size_t password_len, salt_len, text_len, key_len, output_len, capacity, len, count;
  size_t max_mem, min_key_len;
  uint32_t log_n, r, p, milliseconds;
  uint8_t s;
  int mcf;
  uint64_t max_work;
  int64_t timeout_ms;
  double seconds;
} given;

static __thread struct {
  scrypt_derivation *derivation[1];
  scrypt_hasher *hasher[1];
  uint8_t output[64], key[64], salt[16];
  char text[SCRYPT_PHC_CAPACITY + SCRYPT_MCF_CAPACITY(64)];
  uint32_t log_n[1], r[1], p[1];
  size_t key_len[1], max_mem[1], min_key_len[1];
  uint64_t max_work[1];
  double done[1];
  int statuses[SCRYPT_MAX_LOGINS], needs_rehash[1];
  scrypt_buffers buffers[1]; /* their lengths */
  scrypt_cost cost[1];
  scrypt_stats stats[1];
} made;

/* A pointer that may not be NULL. */
#define P(pointer) pointer

/* Sets all but the text and the hasher, whose options have no limits. The buffers are for up to this number of
 * tables, and no more than a derivation can use. */
static void take_arguments(const void *password, size_t password_len, const void *salt, size_t salt_len, uint32_t log_n,
                           uint32_t r, uint32_t p, size_t key_len, size_t max_tables) {
  scrypt_cost cost;
  if (scrypt_params_cost(log_n, r, p, SIZE_MAX, UINT64_MAX, &cost) != SCRYPT_OK) exit(3);
  given.password = password, given.password_len = password_len;
  given.salt = salt, given.salt_len = salt_len;
  given.log_n = log_n, given.r = r, given.p = p;
  given.key_len = key_len, given.output_len = key_len, given.min_key_len = key_len;
  given.key = made.key;
  given.capacity = sizeof made.text, given.len = sizeof made.salt;
  given.max_mem = SIZE_MAX, given.max_work = UINT64_MAX;
  given.timeout_ms = -1;
  made.stats->size = sizeof *made.stats;
  given.seconds = 1e-9; /* too short for any parameters */
  *given.buffers = new_buffers(log_n, r, p, 0, cost.tables < max_tables ? cost.tables : max_tables);
  scrypt_options_init(&given.of_hasher);
  given.of_hasher.log_n = log_n, given.of_hasher.r = r, given.of_hasher.p = p, given.of_hasher.key_len = key_len;
  given.of_hasher.max_mem = SIZE_MAX, given.of_hasher.max_work = UINT64_MAX;
  given.of_hasher.max_tables = max_tables, given.of_hasher.processors = 1;
  given.milliseconds = 60000, *made.derivation = NULL, *made.hasher = NULL;
  if (scrypt_derivation_new(password, password_len, salt, salt_len, log_n, r, p, SIZE_MAX, key_len,
                            &given.derivation) != SCRYPT_OK) exit(3);
}

/* Sets the text that is verified and read, by itself and in `count` logins. */
static void take_text(const char *text, const scrypt_login *logins, size_t count) {
  given.text = text, given.text_len = strlen(text);
  given.logins = logins, given.count = count;
}

static void take_hasher(void) {
  if (scrypt_hasher_new(&given.of_hasher, &given.hasher) != SCRYPT_OK) exit(3);
}

static void free_arguments(void) {
  scrypt_hasher_free(&given.hasher);
  free_buffers(*given.buffers);
  scrypt_derivation_free(&given.derivation);
  scrypt_derivation_free(made.derivation);
  scrypt_hasher_free(made.hasher);
}

#endif
