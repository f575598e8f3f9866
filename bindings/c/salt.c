/* Salts, and hashes with a random salt. Not proved. */
#define _GNU_SOURCE
#include "groups.h"
#include "system.h"

int scrypt_generate_salt(uint8_t *salt, size_t len) {
  if (is_null(salt, len)) return SCRYPT_E_NULL_POINTER;
  return random_bytes(salt, len) ? SCRYPT_OK : SCRYPT_E_NO_RANDOM_BYTES;
}

int scrypt_hash_password(const void *password, size_t password_len, char *text, size_t capacity) {
  uint8_t salt[SCRYPT_SALT_LEN];
  int status;
  if (is_null(password, password_len) || is_null(text, capacity)) return SCRYPT_E_NULL_POINTER;
  /* Before a salt is drawn, and the same for every length of a text. */
  if (capacity < SCRYPT_HASH_CAPACITY) return SCRYPT_E_BUFFER_SIZE;
  status = scrypt_generate_salt(salt, sizeof salt);
  if (status != SCRYPT_OK) return status;
  return scrypt_hash_with_salt(password, password_len, salt, sizeof salt, SCRYPT_RECOMMENDED_LOG_N, SCRYPT_RECOMMENDED_R,
                               SCRYPT_RECOMMENDED_P, SCRYPT_KEY_LEN, 0, text, capacity);
}
