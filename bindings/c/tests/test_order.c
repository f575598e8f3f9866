/* Orders: each argument of each call is in its position in the header, shown by a known key and
 * known texts with arguments that all differ, also in several threads at a time; and if two errors
 * apply, the first in the comment of the call is returned, and outputs are written as the comment
 * says. */
#include "arguments.h"
#include "numbers.h"
#include "test.h"

#include <pthread.h>

/* Of the password pw and the salt saltsalt, with (4, 2, 3) and 20 bytes, by hashlib.scrypt. In a
 * $7$ hash the salt is the letters in its text. */
static const uint8_t KEY[20] = {0x94, 0x1e, 0xd0, 0x24, 0x78, 0x9a, 0xbd, 0xd7, 0x17, 0x96,
                                0x66, 0x34, 0x27, 0x71, 0xb1, 0xa0, 0x55, 0xdc, 0x53, 0x3e};
/* The same of the letters of the salt. */
static const uint8_t MCF_KEY[20] = {0xa5, 0x52, 0x11, 0xe7, 0xaa, 0xc2, 0x03, 0xff, 0x8c, 0x54,
                                    0xd2, 0xb7, 0x3a, 0x42, 0x3e, 0xd0, 0xd9, 0x86, 0x31, 0x54};
static char PHC[] = "$scrypt$ln=4,r=2,p=3$c2FsdHNhbHQ$lB7QJHiavdcXlmY0J3GxoFXcUz4";
static char MCF[] = "$7$20....1....n34PoBLMgF5$Z8J2bfek1wDXI7xhu6YDEbhVlE3";

#define SECRETS "pw", 2, "saltsalt", 8
#define PARAMS 4, 2, 3
#define OF(known) known, sizeof known - 1

/* The expected result of a call for the case. */
static int nothing(void) { return 1; }
static int a_key(void) { return memcmp(made.output, KEY, sizeof KEY) == 0; }
static int is_all_done(void) { return *made.done == 1; }
static int is_new(void) {
  double done = 0;
  int status = scrypt_derivation_finish(*made.derivation, made.output, 20) == SCRYPT_E_UNFINISHED ? SCRYPT_OK : -1;
  if (status == SCRYPT_OK) status = scrypt_derivation_run(*made.derivation, 60000, &done);
  if (status == SCRYPT_OK) status = scrypt_derivation_finish(*made.derivation, made.output, 20);
  scrypt_derivation_free(made.derivation);
  return status == SCRYPT_OK && done == 1 && *made.derivation == NULL && a_key();
}
static int no_rehash(void) { return *made.needs_rehash == 0; }
static int a_hasher(void) {
  const scrypt_options *options = scrypt_hasher_options(*made.hasher);
  const int has_them = options != NULL && options->log_n == 4 && options->max_tables == 1;
  scrypt_hasher_free(made.hasher);
  return has_them && *made.hasher == NULL;
}
static int a_hashers_key(void) { return memcmp(made.key, KEY, sizeof KEY) == 0; }
static int a_phc(void) { return memcmp(made.text, PHC, sizeof PHC) == 0; }
static int an_mcf(void) { return memcmp(made.text, MCF, sizeof MCF) == 0; }
static int a_new_hash(void) {
  const int log_n = SCRYPT_RECOMMENDED_LOG_N, r = SCRYPT_RECOMMENDED_R, p = SCRYPT_RECOMMENDED_P;
  char front[40];
  snprintf(front, sizeof front, "$scrypt$ln=%d,r=%d,p=%d$", log_n, r, p);
  return strncmp(made.text, front, strlen(front)) == 0 && strlen(made.text) == SCRYPT_HASH_CAPACITY - 1;
}
static int a_salt(void) { return memcmp(made.salt, made.salt + 8, 8) != 0; }
static int are_lens(size_t table_len, size_t scratch_len) {
  return made.buffers->chunks_len == 768 && made.buffers->table_len == table_len &&
         made.buffers->scratch_len == scratch_len;
}
static int lens(void) { return are_lens(1024, 128); }
static int lens_of_half(void) { return are_lens(512, 192); }
static const uint64_t LIMITS[] = {DEFAULT_LIMITS};
static int are_limits(size_t min_key_len) {
  return *made.max_mem == LIMITS[0] && *made.max_work == LIMITS[1] && *made.min_key_len == min_key_len;
}
static int limits(void) { return are_limits(LIMITS[2]); }
static int limits_of_short_keys(void) { return are_limits(10); }
static int stats(void) { return made.stats->waiting == 0 && made.stats->deriving == 0 && made.stats->failed == 0; }
static int params(void) { return *made.log_n == 4 && *made.r == 2 && *made.p == 3 && *made.key_len == 20; }
static int are_needed(size_t tables) {
  const scrypt_cost *it = made.cost;
  return it->log_n == 4 && it->r == 2 && it->p == 3 && it->tables == tables && it->chunks_len == 768 &&
         it->table_len == 1024 && it->scratch_len == 128 && it->bytes == 5376 && it->work == 1152;
}
static int cost(void) { return are_needed(1); }
static int needs_of_two(void) { return are_needed(2); }
static int needs_of_a_hash(void) { return are_needed(1) && made.cost->key_len == 20; }

/* Each login has its own status: right, no text, a wrong password, right. */
static const scrypt_login LOGINS[] = {{"pw", 2, OF(PHC)}, {"pw", 2, "$8$", 3}, {"PW", 2, OF(MCF)}, {"pw", 2, OF(MCF)}};
static int verdicts(void) {
  static const int WANTED[] = {SCRYPT_OK, SCRYPT_E_ENCODING_INVALID, SCRYPT_MISMATCH, SCRYPT_OK};
  return memcmp(made.statuses, WANTED, sizeof WANTED) == 0;
}

static const struct {
  const char *name;
  int (*is_right)(void);
  int wanted;
} KNOWN[] = {
    {"scrypt_key", a_key, SCRYPT_OK},
    {"scrypt_buffer_lens", lens, SCRYPT_OK},
    {"scrypt_buffer_lens, of half a table", lens_of_half, SCRYPT_OK},
    {"scrypt_key_with_buffers", a_key, SCRYPT_OK},
    {"scrypt_key_thin", a_key, SCRYPT_OK},
    {"scrypt_key_thin, in half a table", a_key, SCRYPT_OK},
    {"scrypt_derivation_new", is_new, SCRYPT_OK},
    {"scrypt_derivation_run", is_all_done, SCRYPT_OK},
    {"scrypt_derivation_finish", a_key, SCRYPT_OK},
    {"scrypt_hash_password", a_new_hash, SCRYPT_OK},
    {"scrypt_hash_with_salt", a_phc, SCRYPT_OK},
    {"scrypt_hash_with_salt, $7$", an_mcf, SCRYPT_OK},
    {"scrypt_hash_with_buffers", a_phc, SCRYPT_OK},
    {"scrypt_hash_with_buffers, $7$", an_mcf, SCRYPT_OK},
    {"scrypt_stored_text", a_phc, SCRYPT_OK},
    {"scrypt_stored_text, $7$", an_mcf, SCRYPT_OK},
    {"scrypt_verify", nothing, SCRYPT_OK},
    {"scrypt_verify_limited", nothing, SCRYPT_OK},
    {"scrypt_verify_unlimited", nothing, SCRYPT_OK},
    {"scrypt_verify_limited_with_buffers", nothing, SCRYPT_OK},
    {"scrypt_verify_batch_with_buffers", verdicts, SCRYPT_OK},
    {"scrypt_needs_rehash", nothing, SCRYPT_OK},
    {"scrypt_hash_params", params, SCRYPT_OK},
    {"scrypt_hash_cost", needs_of_a_hash, SCRYPT_OK},
    {"scrypt_params_cost", cost, SCRYPT_OK},
    {"scrypt_params_cost, of two tables", needs_of_two, SCRYPT_OK},
    {"scrypt_default_limits", limits, SCRYPT_OK},
    {"scrypt_default_limits, of short keys", limits_of_short_keys, SCRYPT_OK},
    {"scrypt_hasher_new", a_hasher, SCRYPT_OK},
    {"scrypt_hasher_verify", no_rehash, SCRYPT_OK},
    {"scrypt_hasher_hash", a_phc, SCRYPT_OK},
    {"scrypt_hasher_key", a_hashers_key, SCRYPT_OK},
    {"scrypt_hasher_needs_rehash", nothing, SCRYPT_OK},
    {"scrypt_hasher_stats", stats, SCRYPT_OK},
    {"scrypt_calibrate", nothing, SCRYPT_E_TOO_COSTLY},
    {"scrypt_generate_salt", a_salt, SCRYPT_OK},
};

/* Fills all outputs but the derivation and the hasher, which are first. */
static void forget(void) {
  memset(&made.output, 0xaa, sizeof made - (size_t)((uint8_t *)&made.output - (uint8_t *)&made));
  made.stats->size = sizeof *made.stats;
}

/* A call without a row fails too. */
static void check_call(const char *name, int status) {
  size_t i = 0, count = sizeof KNOWN / sizeof *KNOWN;
  for (; i < count && strcmp(KNOWN[i].name, name) != 0; i++) continue;
  check(i < count && status == KNOWN[i].wanted && KNOWN[i].is_right(), name);
  forget();
}

/* Parameters that are not accepted: N in place of log_n, even if its last 8 bits are a log_n, and an
 * r * p of 2^30. */
static void rejected(uint32_t log_n, uint32_t r, uint32_t p) {
  static const scrypt_login NOBODY = {"pw", 2, NULL, 0};
  int status = SCRYPT_OK;
  given.log_n = log_n, given.r = r, given.p = p;
#define CALL(name, arguments)                                                                                    \
  if (strstr(#arguments, "given.log_n") != NULL && strcmp(#name, "scrypt_verify_batch_with_buffers") != 0)       \
    check(name arguments == SCRYPT_E_INVALID_PARAMS, #name ", parameters that are not accepted");
#include "each_call.h"
#undef CALL
  /* In a batch they are those of the decoy, and each login has its own status. */
  check(scrypt_verify_batch_with_buffers(&NOBODY, 1, log_n, r, p, 16, 32, &status, given.buffers) == SCRYPT_OK &&
            status == SCRYPT_E_HASH_PARAMS_INVALID, "a decoy, parameters that are not accepted");
}

static void *arguments(void *text) {
  static const uint32_t NUMBERS[] = {64, 256, 260, 16384, UINT32_MAX};
  uint32_t half[512], scratch[192];
  scrypt_buffers smaller;
  take_arguments(SECRETS, PARAMS, 20, 1);
  take_text((const char *)text, LOGINS, 4);
  /* The exact cost of (4, 2, 3). */
  given.max_mem = given.of_hasher.max_mem = 5376, given.max_work = given.of_hasher.max_work = 1152;
  given.of_hasher.min_key_len = 20, given.of_hasher.salt_len = 8;
  take_hasher();
  given.options = &given.of_hasher, given.key = KEY;
  forget();
#define CALL(name, arguments) check_call(#name, name arguments);
#include "each_call.h"
#undef CALL
  check_call("scrypt_buffer_lens, of half a table",
             scrypt_buffer_lens(PARAMS, 1, made.buffers));
  smaller = (scrypt_buffers){given.buffers->chunks, 768, half, 512, scratch, 192};
  check_call("scrypt_key_thin, in half a table",
             scrypt_key_thin(SECRETS, PARAMS, 1, made.output, 20, &smaller));
  check_call("scrypt_hash_with_salt, $7$", scrypt_hash_with_salt(SECRETS, PARAMS, 20, 1, made.text, given.capacity));
  check_call("scrypt_hash_with_buffers, $7$",
             scrypt_hash_with_buffers(SECRETS, PARAMS, 20, 1, made.text, given.capacity, given.buffers));
  check_call("scrypt_stored_text, $7$",
             scrypt_stored_text("n34PoBLMgF5", 11, MCF_KEY, 20, PARAMS, 1, made.text, given.capacity));
  check_call("scrypt_params_cost, of two tables", scrypt_params_cost(PARAMS, 9984, 1152, made.cost));
  check_call("scrypt_default_limits, of short keys",
             scrypt_default_limits(PARAMS, 10, made.max_mem, made.max_work, made.min_key_len));
  for (size_t i = 0; i < sizeof NUMBERS / sizeof *NUMBERS; i++) rejected(NUMBERS[i], 2, 3);
  rejected(4, 1 << 15, 1 << 15);
  free_arguments();
  return NULL;
}

/* No call has state that threads share. */
TEST(in_threads) {
  pthread_t all[2];
  for (int i = 0; i < 2; i++) check(pthread_create(&all[i], NULL, arguments, i == 0 ? PHC : MCF) == 0, "a thread");
  for (int i = 0; i < 2; i++) (void)pthread_join(all[i], NULL);
}

/* ---- Several errors apply: the first in the comment of the call is returned. The contracts in crates/scrypt_c
 * pin this for the proved calls; here is what the C around them decides ---- */

static uint8_t key[20] = {7}, chunks[768] = {7};
static uint32_t table[1024] = {7}, scratch[192] = {7};
static char text[SCRYPT_PHC_CAPACITY] = "!";

#define TEXT text, sizeof text
#define NO_ROOM text, 1
#define NO_LIMITS SIZE_MAX, UINT64_MAX

/* The log_n of a table of 2^63 bytes. */
enum { HUGE = 56 };

/* A call with these faults, and what it returns. Nothing is written. */
static void meets(const char *faults, int status, int wanted) {
  check(status == wanted, faults);
  check(key[0] == 7 && text[0] == '!' && chunks[0] == 7 && table[0] == 7 && scratch[0] == 7, faults);
}

TEST(derivations) {
  scrypt_derivation *it = NULL;
  double done = 0;
#define NEW(...) scrypt_derivation_new(__VA_ARGS__, &it)
  meets("derivation: r, bytes, output", NEW(SECRETS, 4, 0, 1, 1, 0), SCRYPT_E_INVALID_PARAMS);
  meets("derivation: bytes, output", NEW(SECRETS, PARAMS, 5375, 0), SCRYPT_E_TOO_COSTLY);
  meets("derivation: no bytes, output", NEW(SECRETS, PARAMS, 0, 0), SCRYPT_E_TOO_COSTLY);
  meets("derivation: output, memory", NEW(SECRETS, HUGE, 1, 1, SCRYPT_AUTO, 0), SCRYPT_E_INVALID_OUTPUT_LEN);
  meets("derivation: a long output", NEW(SECRETS, HUGE, 1, 1, SCRYPT_AUTO, SCRYPT_MAX_OUTPUT_LEN + 1), SCRYPT_E_INVALID_OUTPUT_LEN);
  meets("derivation: memory", NEW(SECRETS, HUGE, 1, 1, SCRYPT_AUTO, 20), SCRYPT_E_OUT_OF_MEMORY);
  meets("derivation: a password longer than memory", NEW("pw", SIZE_MAX, "salt", 4, PARAMS, 5376, 20), SCRYPT_E_OUT_OF_MEMORY);
  check(it == NULL, "no derivation");
  check(NEW(SECRETS, PARAMS, 5376, 20) == SCRYPT_OK, "a derivation in its bytes");
  meets("derivation: unfinished, output", scrypt_derivation_finish(it, key, 19), SCRYPT_E_UNFINISHED);
  check(scrypt_derivation_run(it, 60000, &done) == SCRYPT_OK && done == 1, "all is mixed");
  meets("derivation: a shorter output", scrypt_derivation_finish(it, key, 19), SCRYPT_E_INVALID_OUTPUT_LEN);
  meets("derivation: no output", scrypt_derivation_finish(it, NULL, 0), SCRYPT_E_INVALID_OUTPUT_LEN);
  scrypt_derivation_free(&it);
}

/* Nothing in C comes before the first error of a proved call. */
TEST(first_errors) {
  static const scrypt_buffers none = {chunks, 0, table, 0, scratch, 0};
  meets("key, in buffers", scrypt_key_with_buffers(SECRETS, 4, 0, 1, key, 0, &none), SCRYPT_E_INVALID_PARAMS);
  meets("thin key", scrypt_key_thin(SECRETS, PARAMS, 5, key, 0, &none), SCRYPT_E_INVALID_PARAMS);
  meets("hash", scrypt_hash_with_salt("pw", 2, "", 0, 4, 8, 0, 20, 0, NO_ROOM), SCRYPT_E_INVALID_PARAMS);
  meets("hash, in buffers", scrypt_hash_with_buffers("pw", 2, "", 0, PARAMS, 9, 0, NO_ROOM, &none), SCRYPT_E_INVALID_PARAMS);
}

/* No memory is allocated, and so no key derived, for a text that does not fit. */
TEST(room_before_memory) {
  meets("phc", scrypt_hash_with_salt(SECRETS, HUGE, 1, 1, 20, 0, NO_ROOM), SCRYPT_E_BUFFER_SIZE);
  meets("mcf", scrypt_hash_with_salt(SECRETS, HUGE, 1, 1, 20, 1, NO_ROOM), SCRYPT_E_BUFFER_SIZE);
}

/* A PHC string if it can have this salt and this key, or a $7$ hash. */
TEST(stored_texts) {
  static const char SALTS[] = "saltsaltsaltsaltsaltsaltsaltsaltsaltsaltsaltsaltsaltsaltsaltsalt$";
#define STORED(...) scrypt_stored_text(__VA_ARGS__)
#define EITHER SCRYPT_PHC_OR_MCF
  meets("stored either: p, salt, key, text", STORED("$", 1, "", 0, 4, 2, 0, EITHER, NO_ROOM), SCRYPT_E_INVALID_PARAMS);
  meets("stored either: a long $, key", STORED(SALTS, 65, KEY, 20, PARAMS, EITHER, TEXT), SCRYPT_E_SALT_INVALID);
  meets("stored either: no key, text", STORED("", 0, "", 0, PARAMS, EITHER, NO_ROOM), SCRYPT_E_INVALID_OUTPUT_LEN);
  meets("stored either: text", STORED("saltsalt", 8, KEY, 20, PARAMS, EITHER, text, 9), SCRYPT_E_BUFFER_SIZE);
}

/* Each buffer is too short by one, before a wrong password. */
TEST(buffers) {
  for (int i = 0; i < 3; i++) {
    const scrypt_buffers in = {chunks, 768 - (i == 0), table, 1024 - (i == 1), scratch, 128 - (i == 2)};
#define SHORT &in
    meets("key_with_buffers", scrypt_key_with_buffers(SECRETS, PARAMS, key, 20, SHORT), SCRYPT_E_BUFFER_SIZE);
    meets("key_thin", scrypt_key_thin(SECRETS, PARAMS, 0, key, 20, SHORT), SCRYPT_E_BUFFER_SIZE);
    meets("phc, in buffers", scrypt_hash_with_buffers(SECRETS, PARAMS, 20, 0, TEXT, SHORT), SCRYPT_E_BUFFER_SIZE);
    meets("mcf, in buffers", scrypt_hash_with_buffers(SECRETS, PARAMS, 20, 1, TEXT, SHORT), SCRYPT_E_BUFFER_SIZE);
    meets("verify, in buffers", scrypt_verify_limited_with_buffers("", 0, OF(PHC), NO_LIMITS, 0, SHORT), SCRYPT_E_BUFFER_SIZE);
  }
}

/* A text that needs 2^63 bytes, with the limits that a call has. */
TEST(limits_of_calls) {
  static const char COSTLY[] = "$scrypt$ln=56,r=1,p=1$c2FsdHNhbHQ$AAAAAAAAAAAAAAAAAAAA";
  meets("verify", scrypt_verify("pw", 2, OF(COSTLY)), SCRYPT_E_TOO_COSTLY);
  meets("verify_unlimited", scrypt_verify_unlimited("pw", 2, OF(COSTLY)), SCRYPT_E_OUT_OF_MEMORY);
}
