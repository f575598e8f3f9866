/* crypt(3) for $7$ alone, by this library, in place of libcrypt in libxcrypt's tests. */
#include <crypt.h>
#include <errno.h>
#include <stdlib.h>
#include <string.h>

#include "scrypt_c.h"

#define BEFORE_SALT 14 /* $7$, and the letters of log_n, r and p */
#define KEY_LEN 32

/* Writes the hash, and verifies it. Returns 0, or the number of an error. */
static int hash(const char *phrase, const char *setting, char *text, size_t capacity) {
  static const char no_key[] = "$...........................................";
  char whole[CRYPT_OUTPUT_SIZE + sizeof no_key];
  uint8_t key[KEY_LEN];
  uint32_t log_n, r, p;
  size_t key_len, len = strlen(setting);
  if (strncmp(setting, "$7$", 3) || len < BEFORE_SALT || len >= CRYPT_OUTPUT_SIZE) return EINVAL;

  const char *salt = setting + BEFORE_SALT, *end = strrchr(salt, '$');
  size_t salt_len = end ? (size_t)(end - salt) : len - BEFORE_SALT;
  memcpy(whole, setting, BEFORE_SALT + salt_len);
  strcpy(whole + BEFORE_SALT + salt_len, no_key);
  if (scrypt_hash_params(whole, strlen(whole), &log_n, &r, &p, &key_len) != SCRYPT_OK) return EINVAL;
  if (scrypt_key(phrase, strlen(phrase), salt, salt_len, log_n, r, p, key, KEY_LEN) != SCRYPT_OK) return ENOMEM;
  if (scrypt_stored_text(salt, salt_len, key, KEY_LEN, log_n, r, p, 1, text, capacity) != SCRYPT_OK) return ERANGE;
  if (scrypt_verify_unlimited(phrase, strlen(phrase), text, strlen(text)) != SCRYPT_OK) abort();
  return 0;
}

char *crypt_rn(const char *phrase, const char *setting, void *data, int size) {
  struct crypt_data *to = data;
  if ((size_t)size < sizeof *to) return errno = ERANGE, NULL;
  int error = hash(phrase, setting, to->output, sizeof to->output);
  if (!error) return to->output;
  strcpy(to->output, strcmp(setting, "*0") ? "*0" : "*1");
  errno = error;
  return NULL;
}

char *crypt_r(const char *phrase, const char *setting, struct crypt_data *data) {
  crypt_rn(phrase, setting, data, sizeof *data);
  return data->output;
}

char *crypt(const char *phrase, const char *setting) {
  static struct crypt_data data;
  return crypt_r(phrase, setting, &data);
}

char *crypt_ra(const char *phrase, const char *setting, void **data, int *size) {
  if (!*data) {
    *data = calloc(1, *size = sizeof(struct crypt_data));
    if (!*data) return NULL;
  }
  return crypt_rn(phrase, setting, *data, *size);
}
