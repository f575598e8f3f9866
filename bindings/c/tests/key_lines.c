/* Prints the key or the text of each line of standard input: HOW S LOG_N R P LEN PASSWORD SALT,
 * with the last two in hexadecimal after a dot. If HOW is a number of tables, prints a key: with 0
 * tables by scrypt_key; otherwise by scrypt_key_thin if S is not 0, or by scrypt_key_with_buffers
 * with a table and a scratch for this number of chunks. Before, the buffers are not zeros. If HOW
 * is phc or mcf, prints the text with a key of LEN bytes, and the statuses of verifying it with its
 * password and with a wrong password. If HOW is need, prints the bytes that a derivation needs. For
 * random_keys.py. */
#include "buffers.h"

enum { MAX = 512 };

struct line {
  unsigned s, log_n, r, p, len;
  size_t password_len, salt_len;
  uint8_t password[MAX], salt[MAX];
};

/* Decodes the text after its dot to bytes, and returns their number. */
static size_t bytes_of(const char *text, uint8_t *bytes) {
  size_t len = 0;
  unsigned byte;
  for (text++; sscanf(text, "%2x", &byte) == 1; text += 2) bytes[len++] = (uint8_t)byte;
  return len;
}

#define GIVEN of->password, of->password_len, of->salt, of->salt_len, of->log_n, of->r, of->p

static int key_in_buffers(const struct line *of, size_t tables, uint8_t *key) {
  scrypt_buffers in = new_buffers(of->log_n, of->r, of->p, (uint8_t)of->s, tables);
  int status = of->s != 0 ? scrypt_key_thin(GIVEN, (uint8_t)of->s, key, of->len, &in)
                          : scrypt_key_with_buffers(GIVEN, key, of->len, &in);
  free_buffers(in);
  return status;
}

static void print_key(const struct line *of, size_t tables) {
  uint8_t key[MAX];
  printf("%d ", tables != 0 ? key_in_buffers(of, tables, key) : scrypt_key(GIVEN, key, of->len));
  for (size_t i = 0; i < of->len; i++) printf("%02x", key[i]);
  putchar('\n');
}

/* A zero appended to the password would not make it wrong. */
static void print_text(struct line *of, int is_mcf) {
  char text[SCRYPT_MCF_CAPACITY(MAX)];
  int status = scrypt_hash_with_salt(GIVEN, of->len, is_mcf, text, sizeof text);
  if (status != SCRYPT_OK) text[0] = 0;
  of->password[of->password_len] = 1;
  printf("%d %s %d %d\n", status, text, scrypt_verify_unlimited(of->password, of->password_len, text, strlen(text)),
         scrypt_verify_unlimited(of->password, of->password_len + 1, text, strlen(text)));
}

static void print_need(const struct line *of) {
  scrypt_cost cost = {0};
  int status = scrypt_params_cost(of->log_n, of->r, of->p, SIZE_MAX, UINT64_MAX, &cost);
  printf("%d %llu\n", status, (unsigned long long)cost.bytes);
}

int main(void) {
  struct line it;
  char how[16], password[2 * MAX], salt[2 * MAX];
  while (scanf("%15s %u %u %u %u %u", how, &it.s, &it.log_n, &it.r, &it.p, &it.len) == 6 &&
         scanf("%1023s %1023s", password, salt) == 2) {
    it.password_len = bytes_of(password, it.password), it.salt_len = bytes_of(salt, it.salt);
    if (how[0] >= '0' && how[0] <= '9') print_key(&it, (size_t)atoi(how));
    else if (strcmp(how, "need") == 0) print_need(&it);
    else print_text(&it, strcmp(how, "mcf") == 0);
  }
  return failed;
}
