/* The calls of the header over the proved ones: NULL is allowed for no bytes, and otherwise
 * rejected before anything else, and a text ends with a NUL. Not proved. */
#include "groups.h"

static int have_null(const scrypt_buffers *it) {
  return it == NULL || it->chunks == NULL || it->table == NULL || it->scratch == NULL;
}

/* For an output of no bytes, to which nothing is written. */
static uint32_t nothing[1];
static uint8_t *output_of(uint8_t *output) { return output != NULL ? output : (uint8_t *)nothing; }
static uint32_t *words_of(uint32_t *words) { return words != NULL ? words : nothing; }
static char *text_of(char *text) { return text != NULL ? text : (char *)nothing; }
static size_t len_of(const void *bytes, size_t len) { return bytes != NULL ? len : 0; }

/* The capacity for a text without its NUL. */
static size_t without_nul(size_t capacity) { return capacity > 0 ? capacity - 1 : 0; }

static int end_text(int status, char *text, size_t text_len) {
  if (status == SCRYPT_OK) text[text_len] = '\0';
  return status;
}

/* ---- Keys ---- */

int scrypt_buffer_lens(uint32_t log_n, uint32_t r, uint32_t p, uint8_t s, scrypt_buffers *buffers) {
  if (buffers == NULL) return SCRYPT_E_NULL_POINTER;
  return cleared_scrypt_buffer_lens(in_8_bits(log_n), r, p, s, &buffers->chunks_len, &buffers->table_len,
                                    &buffers->scratch_len);
}

int scrypt_key(const void *password, size_t password_len, const void *salt, size_t salt_len, uint32_t log_n, uint32_t r,
               uint32_t p, uint8_t *output, size_t output_len) {
  if (is_null(password, password_len) || is_null(salt, salt_len) || is_null(output, output_len))
    return SCRYPT_E_NULL_POINTER;
  return cleared_scrypt_kdf(bytes_of(password), password_len, bytes_of(salt), salt_len, in_8_bits(log_n), r, p,
                            max_interleave(), MAX_INTERLEAVED_MEM, output_of(output), output_len);
}

int scrypt_key_with_buffers(const void *password, size_t password_len, const void *salt, size_t salt_len,
                            uint32_t log_n, uint32_t r, uint32_t p, uint8_t *output, size_t output_len,
                            const scrypt_buffers *buffers) {
  if (is_null(password, password_len) || is_null(salt, salt_len) || is_null(output, output_len) || have_null(buffers))
    return SCRYPT_E_NULL_POINTER;
  return cleared_scrypt_kdf_with_buffers(bytes_of(password), password_len, bytes_of(salt), salt_len, in_8_bits(log_n),
                                         r, p, output_of(output), output_len, PARTS_OF(buffers));
}

int scrypt_key_thin(const void *password, size_t password_len, const void *salt, size_t salt_len, uint32_t log_n,
                    uint32_t r, uint32_t p, uint8_t s, uint8_t *output, size_t output_len,
                    const scrypt_buffers *buffers) {
  if (is_null(password, password_len) || is_null(salt, salt_len) || is_null(output, output_len) || have_null(buffers))
    return SCRYPT_E_NULL_POINTER;
  return cleared_scrypt_kdf_thin(bytes_of(password), password_len, bytes_of(salt), salt_len, in_8_bits(log_n), r, p, s,
                                 output_of(output), output_len, PARTS_OF(buffers));
}

void scrypt_wipe(const scrypt_buffers *buffers) {
  if (buffers == NULL) return;
  cleared_scrypt_wipe(output_of(buffers->chunks), len_of(buffers->chunks, buffers->chunks_len),
                      words_of(buffers->table), len_of(buffers->table, buffers->table_len),
                      words_of(buffers->scratch), len_of(buffers->scratch, buffers->scratch_len));
}

/* ---- Hashes ---- */

int scrypt_hash_with_salt(const void *password, size_t password_len, const void *salt, size_t salt_len, uint32_t log_n,
                          uint32_t r, uint32_t p, size_t key_len, int mcf, char *text, size_t capacity) {
  size_t text_len = 0;
  int status;
  if (is_null(password, password_len) || is_null(salt, salt_len) || is_null(text, capacity))
    return SCRYPT_E_NULL_POINTER;
  status = (mcf ? cleared_scrypt_hash_mcf : cleared_scrypt_hash_phc)(
      bytes_of(password), password_len, bytes_of(salt), salt_len, in_8_bits(log_n), r, p, key_len, text_of(text),
      without_nul(capacity), &text_len);
  return end_text(status, text, text_len);
}

int scrypt_hash_with_buffers(const void *password, size_t password_len, const void *salt, size_t salt_len,
                             uint32_t log_n, uint32_t r, uint32_t p, size_t key_len, int mcf, char *text,
                             size_t capacity, const scrypt_buffers *buffers) {
  size_t text_len = 0;
  int status;
  if (is_null(password, password_len) || is_null(salt, salt_len) || is_null(text, capacity) || have_null(buffers))
    return SCRYPT_E_NULL_POINTER;
  status = (mcf ? cleared_scrypt_hash_mcf_with_buffers : cleared_scrypt_hash_phc_with_buffers)(
      bytes_of(password), password_len, bytes_of(salt), salt_len, in_8_bits(log_n), r, p, key_len, text_of(text),
      without_nul(capacity), &text_len, PARTS_OF(buffers));
  return end_text(status, text, text_len);
}

int scrypt_stored_text(const void *salt, size_t salt_len, const void *key, size_t key_len, uint32_t log_n, uint32_t r,
                       uint32_t p, int mcf, char *text, size_t capacity) {
  size_t text_len = 0;
  int status;
  if (is_null(salt, salt_len) || is_null(key, key_len) || is_null(text, capacity)) return SCRYPT_E_NULL_POINTER;
  if (mcf == SCRYPT_PHC_OR_MCF) {
    const size_t prefix_len = key_len < SCRYPT_MAX_KEY_LEN ? key_len : SCRYPT_MAX_KEY_LEN;
    status = scrypt_stored_text(salt, salt_len, key, prefix_len, log_n, r, p, 0, text, capacity);
    if (status != SCRYPT_E_SALT_INVALID && status != SCRYPT_E_INVALID_OUTPUT_LEN) return status;
  }
  status = (mcf ? cleared_scrypt_stored_mcf : cleared_scrypt_stored_phc)(
      bytes_of(salt), salt_len, bytes_of(key), key_len, in_8_bits(log_n), r, p, text_of(text), without_nul(capacity),
      &text_len);
  return end_text(status, text, text_len);
}

int scrypt_verify(const void *password, size_t password_len, const char *text, size_t text_len) {
  return scrypt_verify_limited(password, password_len, text, text_len, DEFAULT_LIMITS);
}

int scrypt_verify_limited(const void *password, size_t password_len, const char *text, size_t text_len, size_t max_mem,
                          uint64_t max_work, size_t min_key_len) {
  if (is_null(password, password_len) || is_null(text, text_len)) return SCRYPT_E_NULL_POINTER;
  return cleared_scrypt_verify_limited(bytes_of(password), password_len, chars_of(text), text_len, max_mem, max_work,
                                       min_key_len);
}

int scrypt_verify_unlimited(const void *password, size_t password_len, const char *text, size_t text_len) {
  return scrypt_verify_limited(password, password_len, text, text_len, SIZE_MAX, UINT64_MAX, 0);
}

int scrypt_verify_limited_with_buffers(const void *password, size_t password_len, const char *text, size_t text_len,
                                       size_t max_mem, uint64_t max_work, size_t min_key_len,
                                       const scrypt_buffers *buffers) {
  if (is_null(password, password_len) || is_null(text, text_len) || have_null(buffers)) return SCRYPT_E_NULL_POINTER;
  return cleared_scrypt_verify_limited_with_buffers(bytes_of(password), password_len, chars_of(text), text_len, max_mem,
                                                    max_work, min_key_len, PARTS_OF(buffers));
}

int scrypt_verify_batch_with_buffers(const scrypt_login *logins, size_t count, uint32_t log_n, uint32_t r, uint32_t p,
                                     size_t salt_len, size_t key_len, int *statuses, const scrypt_buffers *buffers) {
  static const scrypt_login NONE = {"", 0, "", 0};
  static const uint8_t SALT[(4 * SCRYPT_MAX_SALT_LEN + 2) / 3]; /* of a decoy, in letters if it is a $7$ hash */
  scrypt_login each[SCRYPT_MAX_LOGINS];
  int made[SCRYPT_MAX_LOGINS];
  size_t i;
  if (((logins == NULL || statuses == NULL) && count > 0) || have_null(buffers)) return SCRYPT_E_NULL_POINTER;
  if (count > SCRYPT_MAX_LOGINS) return SCRYPT_E_BUFFER_SIZE;
  for (i = 0; i < count; i++)
    if (is_null(logins[i].password, logins[i].password_len) || is_null(logins[i].text, logins[i].text_len))
      return SCRYPT_E_NULL_POINTER;
  for (i = 0; i < count && logins[i].text != NULL;) i++;
  if (i == count) salt_len = 0; /* there is no decoy */
  if (salt_len > sizeof SALT) return SCRYPT_E_SALT_INVALID;
  for (i = 0; i < SCRYPT_MAX_LOGINS; i++) each[i] = i < count ? logins[i] : NONE;
#define EACH(i) \
  bytes_of(each[i].password), each[i].password_len, chars_of(each[i].text), each[i].text_len, each[i].text == NULL
  cleared_scrypt_verify_batch_with_buffers(EACH(0), EACH(1), EACH(2), EACH(3), SALT, salt_len, in_8_bits(log_n), r, p,
                                           key_len, made, PARTS_OF(buffers));
#undef EACH
  for (i = 0; i < count; i++) statuses[i] = made[i];
  return SCRYPT_OK;
}

int scrypt_needs_rehash(const char *text, size_t text_len, uint32_t log_n, uint32_t r, uint32_t p, size_t key_len) {
  if (is_null(text, text_len)) return SCRYPT_E_NULL_POINTER;
  return cleared_scrypt_needs_rehash(chars_of(text), text_len, in_8_bits(log_n), r, p, key_len);
}

int scrypt_hash_params(const char *text, size_t text_len, uint32_t *log_n, uint32_t *r, uint32_t *p, size_t *key_len) {
  uint8_t made = 0;
  int status;
  if (is_null(text, text_len) || log_n == NULL || r == NULL || p == NULL || key_len == NULL)
    return SCRYPT_E_NULL_POINTER;
  status = cleared_scrypt_hash_params(chars_of(text), text_len, &made, r, p, key_len);
  if (status == SCRYPT_OK) *log_n = made;
  return status;
}

int scrypt_hash_cost(const char *text, size_t text_len, size_t max_mem, uint64_t max_work, size_t min_key_len,
                     scrypt_cost *cost) {
  if (is_null(text, text_len) || cost == NULL) return SCRYPT_E_NULL_POINTER;
  return cleared_scrypt_hash_cost(chars_of(text), text_len, max_mem, max_work, min_key_len, cost);
}

int scrypt_params_cost(uint32_t log_n, uint32_t r, uint32_t p, size_t max_mem, uint64_t max_work, scrypt_cost *cost) {
  if (cost == NULL) return SCRYPT_E_NULL_POINTER;
  return cleared_scrypt_params_cost(in_8_bits(log_n), r, p, max_mem, max_work, cost);
}

int scrypt_default_limits(uint32_t log_n, uint32_t r, uint32_t p, size_t key_len, size_t *max_mem, uint64_t *max_work,
                          size_t *min_key_len) {
  if (max_mem == NULL || max_work == NULL || min_key_len == NULL) return SCRYPT_E_NULL_POINTER;
  return cleared_scrypt_default_limits(in_8_bits(log_n), r, p, key_len, max_mem, max_work, min_key_len);
}
