/* The hasher: its options, their defaults, and the slots and tables that follow from them. */
#include "test_hasher.h"

static const struct {
  const char *why;
  scrypt_options with;
  int status;
} OPTIONS[] = {
    {"N = 1", OF(0, 1, 1, .mcf = 0), SCRYPT_OK},
    {"r of 0, and then the salt", OF(4, 0, 1, .salt_len = 65), SCRYPT_E_INVALID_PARAMS},
    {"p of 0", OF(4, 8, 0, .mcf = 0), SCRYPT_E_INVALID_PARAMS},
    {"zeros", {.size = sizeof(scrypt_options)}, SCRYPT_E_INVALID_PARAMS},
    {"N in place of log_n", OF(16384, 8, 1, .mcf = 0), SCRYPT_E_INVALID_PARAMS},
    {"no key", OF(4, 8, 1, .key_len = 0), SCRYPT_E_INVALID_PARAMS},
    {"a key of 9 bytes", OF(4, 8, 1, .key_len = 9, .salt_len = 65), SCRYPT_E_INVALID_PARAMS},
    {"a key of 65 bytes", OF(4, 8, 1, .key_len = 65), SCRYPT_E_INVALID_PARAMS},
    {"a key below the minimum length", OF(4, 8, 1, .key_len = 20, .min_key_len = 21), SCRYPT_E_INVALID_PARAMS},
    {"a key of the minimum length", OF(4, 8, 1, .key_len = 20, .min_key_len = 20), SCRYPT_OK},
    {"keys of any length", OF(4, 8, 1, .min_key_len = 0), SCRYPT_OK},
    {"no table, and then the salt", OF(4, 8, 1, .max_tables = 0, .salt_len = 65), SCRYPT_E_INVALID_PARAMS},
    {"no processor", OF(4, 8, 1, .processors = 0), SCRYPT_E_INVALID_PARAMS},
    {"no salt", OF(4, 8, 1, .salt_len = 0), SCRYPT_E_SALT_INVALID},
    {"no salt in a $7$ hash", OF(4, 8, 1, .mcf = 1, .salt_len = 0), SCRYPT_E_SALT_INVALID},
    {"a salt of 65 bytes, and then the memory", OF(4, 8, 1, .salt_len = 65, .max_mem = 1), SCRYPT_E_SALT_INVALID},
    {"no bytes", OF(4, 8, 1, .max_mem = 0), SCRYPT_E_TOO_COSTLY},
    {"no bytes, and as many tables as fit", OF(4, 8, 1, .max_mem = 0, .max_tables = SCRYPT_AUTO), SCRYPT_E_TOO_COSTLY},
    {"too few bytes", OF(14, 8, 1, .max_mem = 1 << 20), SCRYPT_E_TOO_COSTLY},
    {"no work", OF(4, 8, 1, .max_work = 0), SCRYPT_E_TOO_COSTLY},
    {"too little work", OF(14, 8, 1, .max_work = 1 << 10), SCRYPT_E_TOO_COSTLY},
    {"no limit", OF(20, 8, 4, .max_mem = SIZE_MAX, .max_work = UINT64_MAX), SCRYPT_OK},
    {"above the default limits, which are raised", OF(20, 8, 4, .mcf = 0), SCRYPT_OK},
    {"no call may wait", OF(4, 8, 1, .max_waiting = 0), SCRYPT_OK},
    {"a size of another version", {.size = 1, .key_len = 9}, SCRYPT_E_OPTIONS_SIZE},
    {"more slots than any machine has", OF(4, 8, 1, .max_tables = SIZE_MAX, .processors = SIZE_MAX), SCRYPT_OK}};

/* Errors of the options are found before the hasher is allocated. */
TEST(options) {
  for (size_t i = 0; i < sizeof OPTIONS / sizeof OPTIONS[0]; i++) {
    for (is_malloc_refused = 0; is_malloc_refused < 2; is_malloc_refused++) {
      int wanted = OPTIONS[i].status, status;
      scrypt_hasher *hasher = NULL;
      status = scrypt_hasher_new(&OPTIONS[i].with, &hasher);
      if (is_malloc_refused && wanted == SCRYPT_OK) wanted = SCRYPT_E_OUT_OF_MEMORY;
      expect(status == wanted && (hasher != NULL) == (wanted == SCRYPT_OK), "%s", OPTIONS[i].why);
      scrypt_hasher_free(&hasher);
    }
    is_malloc_refused = 0;
  }
}

static const uint64_t LIMITS[] = {DEFAULT_LIMITS};

/* What a field means that the caller leaves as it is. */
TEST(initial_options) {
  static const scrypt_options WANTED = OF(SCRYPT_RECOMMENDED_LOG_N, SCRYPT_RECOMMENDED_R, SCRYPT_RECOMMENDED_P,
                                          .max_tables = SCRYPT_AUTO, .processors = SCRYPT_AUTO,
                                          .max_waiting = SCRYPT_AUTO);
  scrypt_options options;
  memset(&options, 0, sizeof options);
  options.mcf = 7;
  scrypt_options_init(&options);
  expect(memcmp(&options, &WANTED, sizeof options) == 0, "the defaults");
  scrypt_options_init(NULL);
}

TEST(defaults) {
  const size_t processors = processors_of_process();
  const scrypt_options wanted = OF(SCRYPT_RECOMMENDED_LOG_N, SCRYPT_RECOMMENDED_R, SCRYPT_RECOMMENDED_P,
                                   .max_mem = LIMITS[0], .max_work = LIMITS[1], .min_key_len = LIMITS[2],
                                   .max_tables = 2 * processors, .processors = processors,
                                   .max_waiting = 1000);
  scrypt_hasher *hasher = made_of(NULL), *none = NULL;
  expect(memcmp(scrypt_hasher_options(hasher), &wanted, sizeof wanted) == 0, "the completed defaults");
  IS(scrypt_hasher_options(NULL), NULL);
  scrypt_hasher_free(&hasher);
  WRITE(max_mapped, 10);
  IS(scrypt_hasher_new(NULL, &none), SCRYPT_E_OUT_OF_MEMORY);
  expect(hasher == NULL && none == NULL, "a hasher that is freed, or not created");
  WRITE(max_mapped, SIZE_MAX);
}

/* The default max_tables and max_mem by the memory of the machine. */
TEST(memory) {
  static const size_t GIB = (size_t)1 << 30;
  const struct {
    const char *why;
    size_t memory, max_mem, processors, max_tables, default_most;
  } MEMORY[] = {{"two for each processor", SIZE_MAX, 1 << 14, 64, 128, 0},
                {"two for each of 8192 processors", SIZE_MAX, 1 << 14, SIZE_MAX / 2 + 1, 1 << 14, 0},
                {"three tables of the default max_mem in 7/8 of the memory", GIB, SCRYPT_AUTO, 64, 3, LIMITS[0]},
                {"six tables of 129 MiB", GIB, 129 << 20, 64, 6, 0},
                {"max_mem is 7/8 of the memory by default", GIB / 4, SCRYPT_AUTO, 64, 1, 7 * (GIB / 32)},
                {"max_mem is no less than a new hash needs", GIB / 16, SCRYPT_AUTO, 64, 1, 134220800},
                {"six tables of new hashes, because none of max_mem fits", GIB, SIZE_MAX, 64, 6, 0},
                {"at least one table", 1000, SCRYPT_AUTO, 64, 1, 0}};
  for (size_t i = 0; i < sizeof MEMORY / sizeof MEMORY[0]; i++) {
    scrypt_options with;
    scrypt_hasher *hasher;
    scrypt_options_init(&with);
    with.processors = MEMORY[i].processors, with.max_mem = MEMORY[i].max_mem;
    if (with.max_mem == 1 << 14) with.log_n = 4, with.r = 1, with.p = 1;
    memory_there = MEMORY[i].memory;
    hasher = made_of(&with);
    expect(scrypt_hasher_options(hasher)->max_tables == MEMORY[i].max_tables, "%s", MEMORY[i].why);
    if (MEMORY[i].default_most != 0)
      IS(scrypt_hasher_options(hasher)->max_mem, MEMORY[i].default_most);
    scrypt_hasher_free(&hasher);
  }
  memory_there = SIZE_MAX;
}

/* The slots share all tables of the hasher: the last slots have one more. */
TEST(shares) {
  static const struct {
    size_t tables, slots, widths[3];
  } SHARES[] = {{3, 3, {1, 1, 1}}, {7, 3, {2, 2, 3}}, {8, 3, {2, 3, 3}}, {20, 2, {4, 4}}};
  for (size_t i = 0; i < sizeof SHARES / sizeof *SHARES; i++) {
    const scrypt_options with = {.max_tables = SHARES[i].tables};
    for (size_t slot = 0; slot < SHARES[i].slots; slot++)
      IS(width_of_slot(&with, SHARES[i].slots, slot), SHARES[i].widths[slot]);
  }
}
