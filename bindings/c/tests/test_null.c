/* NULL: for each pointer of each call it is an error before any other, or nothing with length 0.
 * Nothing is written. */
#include "arguments.h"
#include "test.h"

static uint8_t before[sizeof made];

#define SECRETS "p", 1, "s", 1
#define LOGIN {"p", 1, "$7$", 3}

TEST(arguments) {
  static const scrypt_login ONE = LOGIN;
  memset(&made, 7, sizeof made);
  take_arguments(SECRETS, 4, 1, 1, 32, 1);
  take_text("$7$", &ONE, 1);
  take_hasher();
  memcpy(before, &made, sizeof made);
}

static void check_null(int status, int wanted, const char *why) {
  check(status == wanted, why);
  check(memcmp(&made, before, sizeof made) == 0, why);
}

/* The number of times that a call was made before, the pointers that it gets now, and the name of
 * the pointer that is NULL. */
static int turn, pointers;
static const char *null = "";

static int is_null(const char *pointer) {
  if (pointers++ != turn) return 0;
  null = pointer;
  return 1;
}

/* Each pointer that must not be NULL, one at a time. */
TEST(each_pointer) {
#undef P
#define P(pointer) (is_null(#pointer) ? NULL : pointer)
#define CALL(name, arguments)                                                    \
  for (turn = 0, pointers = 1; turn < pointers; turn++) {                        \
    const int status = (pointers = 0, name arguments);                           \
    char why[64];                                                                \
    snprintf(why, sizeof why, "%s, %s", #name, null);                            \
    check_null(status, SCRYPT_E_NULL_POINTER, why);                                \
  }
#include "each_call.h"
}

/* NULL that is nothing, or meets another error. */
TEST(others) {
  static const scrypt_login FOUR[] = {LOGIN, LOGIN, LOGIN, LOGIN}, NO_TEXT[] = {LOGIN, {"p", 1, NULL, 1}},
                            NO_NAME[] = {{"p", 1, NULL, 0}};
  const scrypt_buffers all = *given.buffers, NO_CHUNKS = {NULL, 0, all.table, 1, all.scratch, 1},
                       NO_TABLE = {all.chunks, 1, NULL, 0, all.scratch, 1}, NO_SCRATCH = {all.chunks, 1, all.table, 1, NULL, 0};
  const struct {
    const char *why;
    int status, wanted;
  } ROWS[] = {
      {"key, log_n of 99 too", scrypt_key(NULL, 5, "s", 1, 99, 1, 1, made.output, 32), SCRYPT_E_NULL_POINTER},
      {"key, no output", scrypt_key(SECRETS, 4, 1, 1, NULL, 0), SCRYPT_E_INVALID_OUTPUT_LEN},
      {"key, r of 0, no output", scrypt_key(NULL, 0, NULL, 0, 4, 0, 1, NULL, 0), SCRYPT_E_INVALID_PARAMS},
      {"buffers, no output", scrypt_key_with_buffers(SECRETS, 4, 1, 1, NULL, 0, given.buffers), SCRYPT_E_INVALID_OUTPUT_LEN},
      {"buffers, no table", scrypt_key_with_buffers(SECRETS, 4, 1, 1, made.output, 0, &NO_TABLE), SCRYPT_E_NULL_POINTER},
      {"thin, no chunks", scrypt_key_thin(SECRETS, 4, 1, 1, 9, made.output, 0, &NO_CHUNKS), SCRYPT_E_NULL_POINTER},
      {"hash, no scratch", scrypt_hash_with_buffers(SECRETS, 99, 1, 1, 32, 0, made.text, 99, &NO_SCRATCH), SCRYPT_E_NULL_POINTER},
      {"verify, no table", scrypt_verify_limited_with_buffers("p", 1, "", 0, 0, 0, 0, &NO_TABLE), SCRYPT_E_NULL_POINTER},
      {"a batch, no chunks", scrypt_verify_batch_with_buffers(FOUR, 5, 4, 1, 1, 16, 32, made.statuses, &NO_CHUNKS), SCRYPT_E_NULL_POINTER},
      {"generate_salt, no byte", scrypt_generate_salt(NULL, 0), SCRYPT_OK},
      {"phc, p of 0 too", scrypt_hash_with_salt(NULL, 5, "s", 1, 4, 1, 0, 32, 0, made.text, 99), SCRYPT_E_NULL_POINTER},
      {"phc, no salt", scrypt_hash_with_salt("p", 1, NULL, 0, 4, 1, 1, 32, 0, made.text, 99), SCRYPT_E_SALT_INVALID},
      {"phc, no capacity", scrypt_hash_with_salt(SECRETS, 4, 1, 1, 32, 0, NULL, 0), SCRYPT_E_BUFFER_SIZE},
      {"mcf, no salt and capacity", scrypt_hash_with_salt(NULL, 0, NULL, 0, 4, 1, 1, 32, 1, NULL, 0), SCRYPT_E_BUFFER_SIZE},
      {"verify, an empty text", scrypt_verify(NULL, 0, NULL, 0), SCRYPT_E_ENCODING_INVALID},
      {"needs_rehash, an empty text", scrypt_needs_rehash(NULL, 0, 4, 1, 1, 32), SCRYPT_E_ENCODING_INVALID},
      {"a batch of none", scrypt_verify_batch_with_buffers(NULL, 0, 4, 1, 1, 16, 32, NULL, given.buffers), SCRYPT_OK},
      {"a batch, a text", scrypt_verify_batch_with_buffers(NO_TEXT, 2, 4, 1, 1, 16, 32, made.statuses, given.buffers), SCRYPT_E_NULL_POINTER},
      {"a batch, a salt of 87", scrypt_verify_batch_with_buffers(NO_NAME, 1, 4, 1, 1, 87, 32, made.statuses, given.buffers),
       SCRYPT_E_SALT_INVALID},
      {"a batch of five", scrypt_verify_batch_with_buffers(FOUR, 5, 4, 1, 1, 16, 32, made.statuses, given.buffers), SCRYPT_E_BUFFER_SIZE},
      {"a count that no memory has", scrypt_verify_batch_with_buffers(FOUR, SIZE_MAX, 4, 1, 1, 16, 32, made.statuses, given.buffers),
       SCRYPT_E_BUFFER_SIZE},
  };
  for (size_t i = 0; i < sizeof ROWS / sizeof *ROWS; i++) check_null(ROWS[i].status, ROWS[i].wanted, ROWS[i].why);
}

/* Wiping takes NULL for nothing. */
TEST(wipe) {
  const scrypt_buffers all = *given.buffers;
  scrypt_buffers rest = {NULL, all.chunks_len, all.table, all.table_len, NULL, all.scratch_len};
  memset(all.chunks, 7, all.chunks_len);
  memset(all.table, 7, 4 * all.table_len);
  scrypt_wipe(NULL);
  scrypt_wipe(&rest);
  check(is_all(0, all.table, 4 * all.table_len) && all.chunks[0] == 7, "what is not NULL is wiped");
  rest = (scrypt_buffers){all.chunks, all.chunks_len, NULL, 1, NULL, 1};
  scrypt_wipe(&rest);
  check(is_all(0, all.chunks, all.chunks_len), "chunks alone");
}

TEST(nothing_is_freed) {
  scrypt_hasher_close(NULL);
  scrypt_hasher_free(NULL);
  scrypt_derivation_free(NULL);
  free_arguments();
}
