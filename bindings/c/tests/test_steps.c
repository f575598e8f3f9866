/* Keys in steps: by runs of any time, also in a child. test_order.c has the errors. */
#include "scrypt_c.h"
#include "test.h"

#include <stdlib.h>
#include <string.h>

/* A key by runs of this time; each run does more, and the last all. A step is bounded by a chunk,
 * however many chunks there are. test_step_times.c tests how long runs take. */
TEST(by_time) {
  static const struct {
    const char *why;
    uint32_t log_n, r, p, milliseconds;
  } ROWS[] = {
      {"N of 1", 0, 1, 3, 0},
      {"one mix at a time", 5, 2, 7, 0},
      {"many mixes in the shortest runs", 10, 8, 2, 0},
      {"one run", 10, 8, 3, 60000},
      {"the longest time", 10, 8, 3, UINT32_MAX},
      {"runs of 10 ms", 14, 8, 5, 10},
      {"r above the cores of the first step", 1, 5000, 2, 0},
      {"500 short chunks", 10, 1, 500, 10},
      {"4096 short chunks", 9, 1, 4096, 10},
  };
  uint8_t key[32], wanted[32];
  for (size_t i = 0; i < sizeof ROWS / sizeof *ROWS; i++) {
    const uint32_t log_n = ROWS[i].log_n, r = ROWS[i].r, p = ROWS[i].p;
    const size_t max_runs = ROWS[i].milliseconds > 10 ? 1 : (size_t)p << (log_n + 1);
    scrypt_derivation *it = NULL;
    double done = 0, last = 0;
    size_t runs = 0;
    char password[] = "pw";
    int status = scrypt_derivation_new(password, 2, "salt", 4, log_n, r, p, SCRYPT_AUTO, 32, &it);
    memset(password, 0, sizeof password); /* the derivation has its own */
    for (; status == SCRYPT_OK && done < 1; runs++, last = done) {
      check(scrypt_derivation_finish(it, key, 32) == SCRYPT_E_UNFINISHED, ROWS[i].why);
      status = scrypt_derivation_run(it, ROWS[i].milliseconds, &done);
      check(done > last && done <= 1, ROWS[i].why);
    }
    check(status == SCRYPT_OK && runs <= max_runs, ROWS[i].why);
    check(scrypt_derivation_run(it, 10, &done) == SCRYPT_OK && done == 1, "a run after the last");
    check(scrypt_key("pw", 2, "salt", 4, log_n, r, p, wanted, 32) == SCRYPT_OK, ROWS[i].why);
    check(scrypt_derivation_finish(it, key, 32) == SCRYPT_OK && memcmp(key, wanted, 32) == 0, ROWS[i].why);
    memset(key, 0, sizeof key);
    check(scrypt_derivation_finish(it, key, 32) == SCRYPT_OK && memcmp(key, wanted, 32) == 0, "the same key again");
    scrypt_derivation_free(&it);
    scrypt_derivation_free(&it);
    check(it == NULL, "freed");
  }
}

#ifndef _WIN32
static scrypt_derivation *shared;
static uint8_t its_key[32];
static int is_derived(void) {
  uint8_t key[32];
  double done = 0;
  int status = SCRYPT_OK;
  while (status == SCRYPT_OK && done < 1) status = scrypt_derivation_run(shared, 1, &done);
  if (status == SCRYPT_OK) status = scrypt_derivation_finish(shared, key, 32);
  scrypt_derivation_free(&shared);
  return status != SCRYPT_OK || memcmp(key, its_key, 32) != 0;
}

/* A child and its parent derive the rest, each in its own copy. */
TEST(across_a_fork) {
  double done = 0;
  check(scrypt_key("pw", 2, "salt", 4, 15, 8, 2, its_key, 32) == SCRYPT_OK, "a key");
  check(scrypt_derivation_new("pw", 2, "salt", 4, 15, 8, 2, SCRYPT_AUTO, 32, &shared) == SCRYPT_OK &&
            scrypt_derivation_run(shared, 5, &done) == SCRYPT_OK && done < 1, "a part of a key");
  in_a_child(is_derived, "the rest of a key in a child");
  check(is_derived() == 0, "the rest of a key in its parent");
}
#endif
