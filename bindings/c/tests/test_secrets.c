/* No branch and no address depends on a password or a key, in any call of the header: valgrind's memcheck
 * reports each that depends on undefined bytes, and passwords and keys are undefined here, as in ctgrind. N = 1
 * leaves a single row, so that its address depends on nothing. tools/tests/compiled has any N, for the proved
 * calls. usage: valgrind -q --error-limit=no --num-callers=1 test_secrets */
#include "arguments.h"

#include <valgrind/memcheck.h>

enum { KEY_LEN = 64, LOGINS = 2 };

static uint8_t password[200];
static int is_wrong; /* the password, for the text */

#define HIDE(it) (void)VALGRIND_MAKE_MEM_UNDEFINED(&it, sizeof it)
#define SHOW(it) (void)VALGRIND_MAKE_MEM_DEFINED(&it, sizeof it)

/* Whether memcheck has followed the password to each bit of the key. */
static int is_hidden(const uint8_t *key) {
  uint8_t bits[KEY_LEN];
  size_t i = 0;
  if (VALGRIND_GET_VBITS(key, bits, KEY_LEN) != 1) return 0;
  while (i < KEY_LEN && bits[i] == 0xff) i++;
  return i == KEY_LEN;
}

static int has(const char *name, const char *word) { return strstr(name, word) != NULL; }

/* How often a call may depend on the verdict that it returns, or on the key that it writes as text. */
static const struct {
  const char *name, *why;
  unsigned most[2]; /* with the right password and a wrong one; of a PHC string and a $7$ hash */
} ALLOWED[] = {
    {"scrypt_verify", "the verdict becomes a status", {1, 1}},
    {"scrypt_verify_limited", "the same", {1, 1}},
    {"scrypt_verify_unlimited", "the same", {1, 1}},
    {"scrypt_verify_limited_with_buffers", "the same", {1, 2}},
    {"scrypt_verify_batch_with_buffers", "the same, of each login", {LOGINS, 2 * LOGINS}},
    {"scrypt_hasher_verify", "the same, in a batch of one", {1, 2}},
    {"scrypt_hash_with_salt", "the letters are checked to be ASCII", {1, 1}},
    {"scrypt_hash_with_buffers", "the same", {1, 0}},
    {"scrypt_hasher_hash", "the same", {1, 0}},
    {"scrypt_stored_text", "the same", {1, 0}},
};

static unsigned max_reports(const char *name, int is_mismatch) {
  const size_t count = sizeof ALLOWED / sizeof *ALLOWED;
  size_t i = 0;
  while (i < count && strcmp(ALLOWED[i].name, name) != 0) i++;
  return i < count ? ALLOWED[i].most[has(name, "verify") ? is_mismatch : given.mcf] : 0;
}

static void check_call(const char *name, int status, int is_mismatch, unsigned reports) {
  const int wanted = is_mismatch && has(name, "verify") ? SCRYPT_MISMATCH : SCRYPT_OK;
  char what[150];
  SHOW(status), SHOW(made.statuses);
  snprintf(what, sizeof what, "%s of %zu bytes with (%u, %u, %u): status %d, %u reports", name, given.password_len,
           given.log_n, given.r, given.p, status, reports);
  check(reports <= max_reports(name, is_mismatch), what);
  if (has(name, "thin") && status == SCRYPT_E_BUFFER_SIZE) return; /* it takes one table */
  check(status == (has(name, "batch") ? SCRYPT_OK : wanted), what);
  if (has(name, "batch")) check(made.statuses[0] == wanted && made.statuses[LOGINS - 1] == wanted, what);
  if (given.password_len == 0) return;
  if (has(name, "scrypt_key") || has(name, "_finish")) check(is_hidden(made.output), what);
  if (has(name, "hasher_key")) check(is_hidden(made.key), what);
}

/* Each call, except two that choose their own parameters, and a login without a hash. The key of a $7$ hash is
 * compared in three pieces. */
static void all_calls(size_t len, uint32_t r, uint32_t p, size_t tables, int mcf) {
  const uint32_t log_n = 0;
  static uint8_t key[200];
  static char text[SCRYPT_PHC_CAPACITY + 2 * (4 + sizeof key)];
  static scrypt_login logins[LOGINS];
  const size_t key_len = mcf ? sizeof key : KEY_LEN;
  is_wrong = len > 0 && !is_wrong;
  SHOW(password);
  if (scrypt_key(password, len, "salt", 4, log_n, r, p, key, key_len) ||
      scrypt_stored_text("salt", 4, key, key_len, log_n, r, p, mcf, text, sizeof text)) exit(3);
  password[0] ^= (uint8_t)is_wrong;
  HIDE(password), HIDE(made.key);
  take_arguments(password, len, "salt", 4, log_n, r, p, KEY_LEN, tables);
  logins[0] = logins[1] = (scrypt_login){password, len, text, strlen(text)};
  take_text(text, logins, LOGINS);
  given.mcf = given.of_hasher.mcf = mcf;
  take_hasher();
#define WATCH(name, is_mismatch, arguments)                                 \
  do {                                                                      \
    const unsigned before = VALGRIND_COUNT_ERRORS;                          \
    const int status = name arguments;                                      \
    check_call(#name, status, is_mismatch, VALGRIND_COUNT_ERRORS - before); \
  } while (0)
#define CALL(name, arguments)                                                               \
  if (strcmp(#name, "scrypt_hash_password") != 0 && strcmp(#name, "scrypt_calibrate") != 0) \
    WATCH(name, is_wrong, arguments);
#include "each_call.h"
  WATCH(scrypt_hasher_verify, 1, (given.hasher, password, len, NULL, 0, NULL, -1));
  free_arguments();
}

int main(void) {
  static const size_t LENS[] = {0, 1, 63, 64, 65, 200};
  size_t i = 0;
  if (!RUNNING_ON_VALGRIND) return 3;
  check(strcmp(scrypt_version(), SCRYPT_VERSION_STRING " " PROCESSOR) == 0, scrypt_version());
  for (uint32_t p = 1; p <= 5; p++)
    for (size_t tables = 1; tables <= (p < 4 ? p : 4); tables++, i++) all_calls(8, 8, p, tables, i % 3 > 0);
  for (i = 0; i < 4 * sizeof LENS / sizeof *LENS; i++) all_calls(LENS[i / 4], 1, 1, 1, i % 4 > 1);
  return failed;
}
