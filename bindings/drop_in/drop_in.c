/* For programs that are linked with libscrypt-kdf, libscrypt or libsodium: their functions, on top
 * of this library, with libsodium's limits and its choice of N, r and p. Not proved. As in these
 * libraries, a pointer to bytes that are read or written must not be NULL. */
#define _GNU_SOURCE
#include "scrypt_c.h"

#include <errno.h>
#include <stdlib.h>
#include <string.h>

#define API __attribute__((visibility("default")))

enum { SALT_LEN = 32, KEY_LEN = 32, TEXT_LEN = 101, KEY_AT = 58, MIN_OUTPUT_LEN = 16, MAX_LOG_N = 31 };

static int refused(int why) {
  errno = why;
  return -1;
}

/* Derives a key in one table, as these libraries do: memory for several might not be available. Like them, it accepts
 * an output of 0 bytes, and an output that overlaps the password. */
static int derive_key(const uint8_t *password, size_t password_len, const uint8_t *salt, size_t salt_len, uint8_t log_n,
                      uint32_t r, uint32_t p, uint8_t *output, size_t output_len) {
  const size_t len = output_len > 0 ? output_len : 1;
  uint8_t *key = malloc(len);
  scrypt_derivation *it = NULL;
  scrypt_cost cost;
  double done = 0;
  int status = key == NULL ? SCRYPT_E_OUT_OF_MEMORY : scrypt_params_cost(log_n, r, p, SIZE_MAX, UINT64_MAX, &cost);
  if (status == SCRYPT_OK)
    status = scrypt_derivation_new(password, password_len, salt, salt_len, log_n, r, p, cost.bytes, len, &it);
  while (status == SCRYPT_OK && done < 1) status = scrypt_derivation_run(it, UINT32_MAX, &done);
  if (status == SCRYPT_OK) status = scrypt_derivation_finish(it, key, len);
  scrypt_derivation_free(&it);
  if (status == SCRYPT_OK && output_len > 0) memcpy(output, key, output_len);
  if (key != NULL) explicit_bzero(key, len);
  free(key);
  return status;
}

static int derive(const uint8_t *password, size_t password_len, const uint8_t *salt, size_t salt_len, uint64_t n,
                  uint64_t max_n, uint32_t r, uint32_t p, uint8_t *output, size_t output_len) {
  if (output_len > SCRYPT_MAX_OUTPUT_LEN || (uint64_t)r * p >= (uint64_t)1 << 30) return refused(EFBIG);
  if (r == 0 || p == 0) return refused(EINVAL);
  if (n > max_n) return refused(EFBIG);
  if (n < 2 || (n & (n - 1)) != 0) return refused(EINVAL);
  if (derive_key(password, password_len, salt, salt_len, (uint8_t)__builtin_ctzll(n), r, p, output, output_len) != SCRYPT_OK)
    return refused(ENOMEM); /* the remaining error */
  return 0;
}

/* libscrypt-kdf's function. */
API int crypto_scrypt(const uint8_t *password, size_t password_len, const uint8_t *salt, size_t salt_len,
                      uint64_t n, uint32_t r, uint32_t p, uint8_t *output, size_t output_len) {
  return derive(password, password_len, salt, salt_len, n, UINT64_MAX, r, p, output, output_len);
}

/* libscrypt's function. */
API int libscrypt_scrypt(const uint8_t *password, size_t password_len, const uint8_t *salt, size_t salt_len,
                         uint64_t n, uint32_t r, uint32_t p, uint8_t *output, size_t output_len) {
  return derive(password, password_len, salt, salt_len, n, UINT64_MAX, r, p, output, output_len);
}

/* The rest are libsodium's functions. */

/* Chooses N, r and p for limits on work and memory: r is 8, N is the largest that both limits
 * allow, and p uses the work that is left. */
static void choose(unsigned long long work, size_t memory, uint8_t *log_n, uint32_t *r, uint32_t *p) {
  uint64_t max_rows, max_rp;
  if (work < 32768) work = 32768;
  *r = 8;
  max_rows = work < memory / 32 ? work / (*r * 4) : memory / ((size_t)*r * 128);
  for (*log_n = 1; *log_n < 63; *log_n += 1) {
    if ((uint64_t)1 << *log_n > max_rows / 2) break;
  }
  *p = 1;
  if (work < memory / 32) return;
  max_rp = (work / 4) / ((uint64_t)1 << *log_n);
  if (max_rp > 0x3fffffff) max_rp = 0x3fffffff;
  *p = (uint32_t)max_rp / *r;
}

API int crypto_pwhash_scryptsalsa208sha256_ll(const uint8_t *password, size_t password_len, const uint8_t *salt,
                                              size_t salt_len, uint64_t n, uint32_t r, uint32_t p,
                                              uint8_t *output, size_t output_len) {
  return derive(password, password_len, salt, salt_len, n, UINT32_MAX, r, p, output, output_len);
}

API int crypto_pwhash_scryptsalsa208sha256(unsigned char *output, unsigned long long output_len,
                                           const char *password, unsigned long long password_len,
                                           const unsigned char *salt, unsigned long long work, size_t memory) {
  uint8_t log_n;
  uint32_t r, p;
  if (output_len > SCRYPT_MAX_OUTPUT_LEN) return refused(EFBIG);
  memset(output, 0, (size_t)output_len);
  if (output_len < MIN_OUTPUT_LEN || (const void *)output == (const void *)password) return refused(EINVAL);
  choose(work, memory, &log_n, &r, &p);
  return derive((const uint8_t *)password, (size_t)password_len, salt, SALT_LEN, (uint64_t)1 << log_n, UINT32_MAX, r,
                p, output, (size_t)output_len);
}

/* The alphabet of $7$ hashes, in the order of the values. */
static const char LETTERS[] = "./0123456789ABCDEFGHIJKLMNOPQRSTUVWXYZabcdefghijklmnopqrstuvwxyz";

/* Whether the text has the length of a hash of .._str, and eleven letters for its parameters. */
static int has_costs(const char *text) {
  if (strnlen(text, TEXT_LEN + 1) != TEXT_LEN) return 0;
  return strncmp(text, "$7$", 3) == 0 && strspn(text + 3, LETTERS) >= 11;
}

API int crypto_pwhash_scryptsalsa208sha256_str(char text[TEXT_LEN + 1], const char *password,
                                               unsigned long long password_len, unsigned long long work,
                                               size_t memory) {
  uint8_t log_n, salt[SALT_LEN];
  char made[TEXT_LEN + 1];
  uint32_t r, p;
  memset(text, 0, TEXT_LEN + 1);
  choose(work, memory, &log_n, &r, &p);
  if (log_n > MAX_LOG_N) return refused(EINVAL);
  if (scrypt_generate_salt(salt, sizeof salt) != SCRYPT_OK) return refused(EIO);
  if (scrypt_hash_with_salt(password, (size_t)password_len, salt, SALT_LEN, log_n, r, p, KEY_LEN, 1, made, sizeof made) != SCRYPT_OK)
    return refused(EINVAL); /* also if memory ran out, as in libsodium */
  memcpy(text, made, sizeof made);
  return 0;
}

API int crypto_pwhash_scryptsalsa208sha256_str_verify(const char text[TEXT_LEN + 1], const char *password,
                                                      unsigned long long password_len) {
  ptrdiff_t log_n;
  if (!has_costs(text) || text[KEY_AT - 1] != '$') return -1;
  log_n = strchr(LETTERS, text[3]) - LETTERS;
  if (log_n == 0 || log_n > MAX_LOG_N) return -1;
  return scrypt_verify_unlimited(password, (size_t)password_len, text, TEXT_LEN) == SCRYPT_OK ? 0 : -1;
}

/* Whether the parameters of the hash differ from the choice for these limits, even if larger. */
API int crypto_pwhash_scryptsalsa208sha256_str_needs_rehash(const char text[TEXT_LEN + 1],
                                                            unsigned long long work, size_t memory) {
  char costs[SCRYPT_PHC_CAPACITY];
  uint8_t log_n;
  uint32_t r, p;
  if (!has_costs(text)) return refused(EINVAL);
  choose(work, memory, &log_n, &r, &p);
  if (scrypt_stored_text("", 0, "", 1, log_n, r, p, 1, costs, sizeof costs) != SCRYPT_OK) return 1;
  return strncmp(text, costs, 3 + 11) != 0;
}
