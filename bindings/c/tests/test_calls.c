/* Calls the library: RFC 7914's keys, each number of chunks in each number of tables, and what only
 * C does: the capacity of a text, its bytes, and the messages of statuses. */
#include "buffers.h"
#include "test.h"

/* The start of the version, or the whole version if the test knows the level of the processor. */
#ifdef PROCESSOR
#define VERSION SCRYPT_VERSION_STRING " " PROCESSOR
#define VERSION_LEN sizeof VERSION
#else
#define VERSION SCRYPT_VERSION_STRING " "
#define VERSION_LEN (sizeof VERSION - 1)
#endif

/* RFC 7914, section 12, except the key whose table has 1 GiB. */
static const struct {
  const char *password, *salt;
  uint32_t log_n, r, p;
  const char *key;
} VECTORS[] = {
    {"", "", 4, 1, 1,
     "77d6576238657b203b19ca42c18a0497f16b4844e3074ae8dfdffa3fede21442"
     "fcd0069ded0948f8326a753a0fc81f17e8d3e0fb2e0d3628cf35e20c38d18906"},
    {"password", "NaCl", 10, 8, 16,
     "fdbabe1c9d3472007856e7190d01e9fe7c6ad7cbc8237830e77376634b373162"
     "2eaf30d92e22a3886ff109279d9830dac727afb94a83ee6d8360cbdfa2cc0640"},
    {"pleaseletmein", "SodiumChloride", 14, 8, 1,
     "7023bdcb3afd7348461c06cd81fd38ebfda8fbba904f8e3ea9b543f6545da1f2"
     "d5432955613f0fcf62d49705242a9af9e61e85dc0d651e40dfcf017b45575887"},
};
enum { COUNT = sizeof VECTORS / sizeof *VECTORS };

#define SECRETS_OF(i) \
  VECTORS[i].password, strlen(VECTORS[i].password), VECTORS[i].salt, strlen(VECTORS[i].salt)
#define PARAMS_OF(i) VECTORS[i].log_n, VECTORS[i].r, VECTORS[i].p

static int is_key(size_t i, const uint8_t *key) {
  const char *hex = VECTORS[i].key;
  unsigned byte;
  for (; sscanf(hex, "%2x", &byte) == 1 && byte == *key; hex += 2) key++;
  return *hex == '\0';
}

static void key_of(size_t i) {
  uint8_t key[64];
  check(scrypt_key(SECRETS_OF(i), PARAMS_OF(i), key, 64) == SCRYPT_OK && is_key(i, key), "a key of RFC 7914");
  for (uint8_t s = 0; s < (i == 0 ? 5 : 4); s++) { /* the first one with a single row too */
    scrypt_buffers in = new_buffers(PARAMS_OF(i), s, 1);
    memset(key, 0, sizeof key);
    check(scrypt_key_thin(SECRETS_OF(i), PARAMS_OF(i), s, key, 64, &in) == SCRYPT_OK && is_key(i, key),
          "with a smaller table");
    free_buffers(in);
  }
}

TEST(keys) {
  for (size_t i = 0; i < COUNT; i++) key_of(i);
}

/* ---- Chunks and tables: interleaved by two, three and four, up to twelve chunks leave each rest,
 * after no full group and after several ---- */

#define INPUTS "pw", 2, "saltsalt", 8, 6, 1

#define TEXT_AND_LIMITS text, strlen(text), SIZE_MAX, UINT64_MAX, 0

/* A hash of each format, by itself and in buffers, which have zeros then. */
static void hashes(uint32_t p, size_t tables, char texts[2][SCRYPT_PHC_CAPACITY]) {
  for (int i = 0; i < 2; i++) {
    scrypt_buffers in = new_buffers(6, 1, p, 0, tables);
    char same[SCRYPT_PHC_CAPACITY], *text = texts[i];
    check(scrypt_hash_with_salt(INPUTS, p, 32, i, text, SCRYPT_PHC_CAPACITY) == SCRYPT_OK, "a hash");
    check(scrypt_hash_with_buffers(INPUTS, p, 32, i, same, sizeof same, &in) == SCRYPT_OK &&
              strcmp(text, same) == 0, "the same hash in buffers");
    check(scrypt_verify("pw", 2, text, strlen(text)) == SCRYPT_OK, "its password");
    check(scrypt_verify_limited_with_buffers("pw", 2, TEXT_AND_LIMITS, &in) == SCRYPT_OK, "in buffers");
    check(scrypt_verify_limited_with_buffers("PW", 2, TEXT_AND_LIMITS, &in) == SCRYPT_MISMATCH, "another one");
    check(is_all(0, in.chunks, in.chunks_len) && is_all(0, in.scratch, 4 * in.scratch_len / tables), "zeros");
    free_buffers(in);
  }
}

/* Each login has the right password, another one, no hash in its text, or no text, whatever the others have. */
static void batches(uint32_t p, size_t tables, char texts[2][SCRYPT_PHC_CAPACITY]) {
  static const char *const PASSWORDS[] = {"pw", "PW", "pw", "pw"};
  static const int STATUSES[] = {SCRYPT_OK, SCRYPT_MISMATCH, SCRYPT_E_ENCODING_INVALID, SCRYPT_MISMATCH};
  for (size_t count = 0; count <= SCRYPT_MAX_LOGINS; count++)
    for (size_t kinds = p; kinds < 256; kinds += 25) {
      scrypt_buffers in = new_buffers(6, 1, p * (uint32_t)(count > 0 ? count : 1), 0, tables);
      scrypt_login logins[SCRYPT_MAX_LOGINS];
      int statuses[] = {-1, -1, -1, -1}, wanted[] = {-1, -1, -1, -1};
      size_t kind = kinds;
      for (size_t i = 0; i < count; i++, kind /= 4) {
        const char *text = kind % 4 == 3 ? NULL : kind % 4 == 2 ? (i % 2 ? "" : "$8$") : texts[i % 2];
        logins[i] = (scrypt_login){PASSWORDS[kind % 4], 2, text, text != NULL ? strlen(text) : 0};
        wanted[i] = STATUSES[kind % 4];
      }
      check(scrypt_verify_batch_with_buffers(logins, count, 6, 1, p, 16, 32, statuses, &in) == SCRYPT_OK, "a batch");
      check(memcmp(statuses, wanted, sizeof wanted) == 0, "each status is that of a separate call");
      free_buffers(in);
    }
}

static void chunks_in_tables(uint32_t p, size_t tables) {
  char texts[2][SCRYPT_PHC_CAPACITY];
  uint8_t key[32], same[32];
  scrypt_buffers in = new_buffers(6, 1, p, 0, tables);
  check(scrypt_key(INPUTS, p, key, 32) == SCRYPT_OK, "a key of several chunks");
  check(scrypt_key_with_buffers(INPUTS, p, same, 32, &in) == SCRYPT_OK && memcmp(key, same, 32) == 0,
        "the same key in buffers");
  check(is_all(0, in.chunks, in.chunks_len) && is_all(0, in.scratch, 4 * in.scratch_len / tables), "zeros");
  free_buffers(in);
  hashes(p, tables, texts);
  batches(p, tables, texts);
}

TEST(each_number_of_chunks_in_each_number_of_tables) {
  for (uint32_t p = 1; p <= 12; p++)
    for (size_t tables = 1; tables <= 4; tables++) chunks_in_tables(p, tables);
}

/* Each row of each table changes, except in a second table on processors that use one table for two
 * chunks. Twelve chunks leave no rest, whatever the number of tables. */
static void are_used(size_t tables) {
  scrypt_buffers in = new_buffers(6, 1, 12, 0, tables);
  uint8_t key[16];
  size_t changed = 0;
  check(scrypt_key_with_buffers(INPUTS, 12, key, sizeof key, &in) == SCRYPT_OK, "a key in several tables");
  for (size_t row = 0; row < tables * 64; row++) changed += !is_all(FILL, in.table + 32 * row, 128);
  check(changed == tables * 64, "the rows of all tables are used");
  free_buffers(in);
}

TEST(several_tables_are_used) {
  for (size_t tables = 1; tables <= 4; tables++) are_used(tables);
}

/* ---- Texts ---- */

static int write_hash(int i, char *text, size_t capacity) {
  static uint8_t chunks[128];
  static uint32_t table[32 * 64], scratch[64];
  static const scrypt_buffers in = {chunks, sizeof chunks, table, 32 * 64, scratch, 64};
  if (i >= 4) return scrypt_stored_text("saltsalt", 8, "a key of other parts", 20, 6, 1, 1, i - 4, text, capacity);
  if (i < 2) return scrypt_hash_with_salt(INPUTS, 1, 32, i, text, capacity);
  return scrypt_hash_with_buffers(INPUTS, 1, 32, i - 2, text, capacity, &in);
}

TEST(capacities) {
  char text[SCRYPT_PHC_CAPACITY];
  size_t len;
  for (int i = 0; i < 6; i++) {
    check(write_hash(i, text, sizeof text) == SCRYPT_OK, "a hash");
    len = strlen(text);
    memset(text, '!', sizeof text);
    check(write_hash(i, text, len) == SCRYPT_E_BUFFER_SIZE && text[0] == '!', "no capacity for the NUL");
    check(write_hash(i, NULL, 0) == SCRYPT_E_BUFFER_SIZE, "no capacity");
    check(write_hash(i, text, len + 1) == SCRYPT_OK && strlen(text) == len && text[len + 1] == '!',
          "the exact capacity");
  }
}

/* Whether a long password matches this text. */
static int is_of_long(const char *password, size_t len, const char *text) {
  return scrypt_verify(password, len, text, strlen(text)) == SCRYPT_OK &&
         scrypt_verify_unlimited(password, len, text, strlen(text)) == SCRYPT_OK;
}

/* If there is memory, a call succeeds, however long a password, a salt, a key and a text are. */
TEST(long_inputs) {
  enum { LEN = 5000 };
  static char password[LEN], salt[LEN], text[SCRYPT_MCF_CAPACITY(LEN)];
  static uint8_t key[LEN];
  memset(password, 'p', LEN);
  memset(salt, 's', LEN);
  check(scrypt_key(password, LEN, salt, LEN, 4, 1, 1, key, LEN) == SCRYPT_OK, "a long key");
  check(scrypt_hash_with_salt(password, LEN, salt, 64, 4, 1, 1, 64, 0, text, sizeof text) == SCRYPT_OK &&
            is_of_long(password, LEN, text), "the longest salt of a PHC string");
  check(scrypt_hash_with_salt(password, LEN, salt, LEN, 4, 1, 1, 64, 1, text, sizeof text) == SCRYPT_OK && strlen(text) > LEN &&
            is_of_long(password, LEN, text), "a long $7$ hash");
}

static int verify(const char *text) { return scrypt_verify("", 0, text, strlen(text)); }

/* Texts that are not UTF-8, which bindings/cases.tsv can't have, and one that is. */
TEST(texts_of_other_bytes) {
  check(verify("$scrypt$ln=4\xff") == SCRYPT_E_ENCODING_INVALID, "a byte of no letter");
  check(verify("$7$26..../....s\xc3lt$......................") == SCRYPT_E_ENCODING_INVALID, "half a letter");
  check(verify("$7$26..../....s\xc3\xa4lt$......................") == SCRYPT_MISMATCH, "a letter of two bytes");
}

/* A zero byte in the salt of a stored $7$ hash, with the length that the header gives for its text. */
TEST(zero_in_a_salt) {
  static const char SALT[] = {'a', 0, 'b'};
  enum { LEN = sizeof SALT };
  char text[SCRYPT_PHC_CAPACITY + 2 * (LEN + 32)];
  uint8_t key[32];
  check(scrypt_key("pw", 2, SALT, LEN, 4, 1, 1, key, 32) == SCRYPT_OK, "the key of this salt");
  check(scrypt_stored_text(SALT, LEN, key, 32, 4, 1, 1, 1, text, sizeof text) == SCRYPT_OK, "a zero byte");
  check(scrypt_verify("pw", 2, text, 14 + LEN + strlen(text + 14 + LEN)) == SCRYPT_OK, "the whole text");
  check(strlen(text) == 15 && verify(text) == SCRYPT_E_ENCODING_INVALID, "the text up to the zero byte");
}

/* ---- What is written with an error, and what saturates ---- */

#define KEYLESS "$scrypt$ln=4,r=8,p=1$c2FsdHNhbHQ"
#define PHC "$scrypt$ln=4,r=8,p=1$c2FsdHNhbHQ$AAAAAAAAAAAAAAAAAAAAAA"

TEST(costs) {
  const scrypt_cost nines = {9, 9, 9, 9, 9, 9, 9, 9, 9, 9};
  scrypt_cost cost = nines;
  uint32_t log_n = 99, r = 99, p = 99;
  size_t key_len = 99;
  check(scrypt_hash_cost("$7$", 3, SIZE_MAX, UINT64_MAX, 0, &cost) == SCRYPT_E_ENCODING_INVALID &&
            memcmp(&cost, &nines, sizeof cost) == 0, "no hash");
  check(scrypt_hash_cost(KEYLESS, strlen(KEYLESS), SIZE_MAX, UINT64_MAX, 0, &cost) == SCRYPT_E_OUTPUT_SIZE &&
            memcmp(&cost, &nines, sizeof cost) == 0, "a damaged hash, which lost its key");
  check(scrypt_params_cost(0, 1, 0, 0, 0, &cost) == SCRYPT_E_INVALID_PARAMS && memcmp(&cost, &nines, sizeof cost) == 0,
        "no parameters");
  check(scrypt_hash_cost(PHC, strlen(PHC), 0, UINT64_MAX, 0, &cost) == SCRYPT_E_TOO_COSTLY && cost.log_n == 4 &&
            cost.key_len == 16 && cost.bytes == 19456 && cost.work == 1536, "what a costly hash needs");
  cost = nines;
  check(scrypt_hash_cost(PHC, strlen(PHC), SIZE_MAX, UINT64_MAX, 17, &cost) == SCRYPT_E_KEY_TOO_SHORT && cost.log_n == 4,
        "what a hash with a short key needs");
  check(scrypt_params_cost(27, (1 << 30) - 1, 1, 0, 0, &cost) == SCRYPT_E_TOO_COSTLY && cost.bytes == UINT64_MAX &&
            cost.table_len == 32ull * ((1 << 30) - 1) << 27, "bytes above 64 bits");
  check(scrypt_params_cost(56, 1, (1 << 30) - 1, SIZE_MAX, UINT64_MAX, &cost) == SCRYPT_E_TOO_COSTLY &&
            cost.work == UINT64_MAX, "work above 64 bits");
  check(scrypt_hash_params("$7$", 3, &log_n, &r, &p, &key_len) == SCRYPT_E_ENCODING_INVALID &&
            log_n == 99 && r == 99 && p == 99 && key_len == 99, "an error leaves the four");
  check(scrypt_hash_params("$scrypt$ln=9,r=3,p=2", 20, &log_n, &r, &p, &key_len) == SCRYPT_OK &&
            log_n == 9 && r == 3 && p == 2 && key_len == 0, "a hash without salt or key");
}

/* A word of the message of each status, which no other has. */
static const char *const WORDS[] = {
    [SCRYPT_OK] = "success",
    [SCRYPT_MISMATCH] = "does not match",
    [SCRYPT_NEEDS_REHASH] = "weaker",
    [SCRYPT_E_INVALID_PARAMS] = "invalid scrypt parameters",
    [SCRYPT_E_INVALID_OUTPUT_LEN] = "1 to 137438953440 bytes",
    [SCRYPT_E_OUT_OF_MEMORY] = "out of memory",
    [SCRYPT_E_ALGORITHM] = "another algorithm",
    [SCRYPT_E_ENCODING_INVALID] = "not a PHC or $7$ hash",
    [SCRYPT_E_OUTPUT_SIZE] = "no key",
    [SCRYPT_E_HASH_PARAM_INVALID] = "decimal",
    [SCRYPT_E_HASH_PARAMS_INVALID] = "parameters in the hash",
    [SCRYPT_E_VERSION] = "version field",
    [SCRYPT_E_SALT_INVALID] = "UTF-8",
    [SCRYPT_E_BUFFER_SIZE] = "a buffer is too short",
    [SCRYPT_E_TOO_COSTLY] = "limits on memory or work",
    [SCRYPT_E_KEY_TOO_SHORT] = "shorter than the limits",
    [SCRYPT_E_NO_RANDOM_BYTES] = "random bytes",
    [SCRYPT_E_NULL_POINTER] = "NULL",
    [SCRYPT_E_CLOSED] = "closed",
    [SCRYPT_E_TIMEOUT] = "timed out",
    [SCRYPT_E_OPTIONS_SIZE] = "sizeof (scrypt_options)",
    [SCRYPT_E_UNFINISHED] = "not all chunks",
    [SCRYPT_E_INVALID_PROGRESS] = "this progress",
    [SCRYPT_E_BUSY] = "wait already",
};
enum { STATUSES = sizeof WORDS / sizeof *WORDS };

static int has_words(int status) { return strcmp(scrypt_strerror(status), "unknown status") != 0; }

/* Each status has its own message and name, and says whether a text is rejected. */
TEST(words_of_statuses) {
  for (int status = 0; status < STATUSES; status++)
    for (int other = 0; other < STATUSES; other++)
      check((strstr(scrypt_strerror(status), WORDS[other]) != NULL) == (status == other), WORDS[other]);
  for (int status = -1; status < 99; status++) {
    const int is_of_text = status >= SCRYPT_E_ALGORITHM && status <= SCRYPT_E_VERSION;
    check(has_words(status) == (status >= 0 && status < STATUSES), "a message for each status");
    check((scrypt_status_name(status) != NULL) == has_words(status), "a name for each status");
    check(scrypt_status_is_invalid_hash(status) == is_of_text, "whether a status means an invalid hash");
  }
  check(strcmp(scrypt_status_name(SCRYPT_E_SALT_INVALID), "SCRYPT_E_SALT_INVALID") == 0, "its name");
}

#define MOST "18446744073709551615"
#define LESS "18446744073709551614"
#define COST(max_mem, max_work) "N=2^17, r=8, p=1 need 134220800 bytes" max_mem " and a work of 4195328" max_work
static const scrypt_cost of = {17, 8, 1, 10, 1, 1024, 33554432, 512, 134220800, 4195328},
                         worst = {UINT32_MAX, UINT32_MAX, UINT32_MAX, 1, 4, 1, 1, 1, UINT64_MAX, UINT64_MAX};
static const struct {
  int status;
  const scrypt_cost *cost;
  size_t max_mem;
  uint64_t max_work;
  const char *text;
} EXPLANATIONS[] = {
    {SCRYPT_E_TOO_COSTLY, &of, 1024, 77, COST(" (at most 1024)", " (at most 77)")},
    {SCRYPT_E_TOO_COSTLY, &of, 0, UINT64_MAX, COST(" (at most 0)", "")},
    {SCRYPT_E_TOO_COSTLY, &of, SIZE_MAX, 0, COST("", " (at most 0)")},
    {SCRYPT_E_TOO_COSTLY, &of, SIZE_MAX, UINT64_MAX, COST("", "")},
    {SCRYPT_E_TOO_COSTLY, &worst, SIZE_MAX - 1, UINT64_MAX - 1,
     "N=2^4294967295, r=4294967295, p=4294967295 need " MOST " bytes (at most " LESS ") and a work of " MOST
     " (at most " LESS ")"},
    {SCRYPT_E_OUT_OF_MEMORY, &of, 1024, 77, COST("", "")},
    {SCRYPT_E_KEY_TOO_SHORT, &of, 1024, 77, "its length is 10, and at least 16 is required"},
    {SCRYPT_E_TIMEOUT, &of, 1024, 77, ""},
    {SCRYPT_OK, &of, 1024, 77, ""},
};

/* The numbers of each refusal, in each capacity. */
TEST(explanations) {
  char text[SCRYPT_EXPLANATION_CAPACITY];
  for (size_t i = 0; i < sizeof EXPLANATIONS / sizeof *EXPLANATIONS; i++) {
    const char *whole = EXPLANATIONS[i].text;
    check(strlen(whole) < sizeof text, "room for the whole text");
    for (size_t len = 1; len <= sizeof text; len++) {
      const size_t wanted = strlen(whole) < len ? strlen(whole) : len - 1;
      memset(text, '!', sizeof text);
      scrypt_explain(EXPLANATIONS[i].status, EXPLANATIONS[i].cost, EXPLANATIONS[i].max_mem, EXPLANATIONS[i].max_work, 16,
                     text, len);
      check(strlen(text) == wanted && memcmp(text, whole, wanted) == 0, whole);
      check(len == sizeof text || text[len] == '!', "nothing after the capacity");
    }
  }
  text[0] = '!';
  scrypt_explain(SCRYPT_E_TOO_COSTLY, NULL, 0, 0, 0, text, sizeof text);
  scrypt_explain(SCRYPT_E_TOO_COSTLY, &of, 0, 0, 0, text, 0);
  scrypt_explain(SCRYPT_E_TOO_COSTLY, &of, 0, 0, 0, NULL, 9);
  check(text[0] == '!', "without a cost or a capacity");
}

TEST(version) { check(strncmp(scrypt_version(), VERSION, VERSION_LEN) == 0, "the version of the header"); }
