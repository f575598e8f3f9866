/* The memory that the calls allocate and free: in a program whose malloc, mmap and munmap record
 * it, and fail on request. */
#define _GNU_SOURCE
#include "scrypt_c.h"
#include "test.h"

#include <errno.h>
#include <string.h>
#include <sys/mman.h>
#include <sys/resource.h>
#include <sys/syscall.h>
#include <unistd.h>

/* The number of tables that is fastest. */
#define PAYS (strcmp(scrypt_version(), SCRYPT_VERSION_STRING " x86-64") == 0 ? 3u : 4u)

enum { R = 8, BESIDE = 3 << 20 }; /* maximum overhead of a mapping */

static size_t min_refused = SIZE_MAX, max_asked, large = SIZE_MAX, large_requests;
static int is_granted(size_t len) {
  if (len > max_asked) max_asked = len;
  if (len >= large) large_requests++;
  return len < min_refused;
}

void *__libc_malloc(size_t len);
void *malloc(size_t len) { return is_granted(len) ? __libc_malloc(len) : NULL; }

static size_t mapped;
void *mmap(void *at, size_t len, int protection, int flags, int file, off_t offset) {
  void *made = is_granted(len) ? (void *)syscall(SYS_mmap, at, len, protection, flags, file, offset) : MAP_FAILED;
  if (made != MAP_FAILED) mapped += len;
  return made;
}

static int keeps;
static uint8_t *kept;
static size_t kept_len;
int munmap(void *at, size_t len) {
  if (!keeps) {
    mapped -= len;
    return (int)syscall(SYS_munmap, at, len);
  }
  kept = at, kept_len = len, errno = ENOMEM;
  return -1;
}

#define SECRETS "password", 8, "saltsalt", 8
#define NO_LIMITS SIZE_MAX, UINT64_MAX
static uint8_t key[32];
static char text[SCRYPT_PHC_CAPACITY];

/* The size of a table, or SIZE_MAX for one that no system has memory for. */
static size_t table_bytes(uint32_t log_n) { return log_n < 50 ? (size_t)128 * R << log_n : SIZE_MAX; }

static size_t fewer(size_t one, size_t other) { return one < other ? one : other; }

/* A call whose allocation of tables fails has requested this number of tables at once, and then one if there
 * were several, returns this status, and leaves its outputs unchanged. */
#define REFUSES(why, log_n, tables, wanted, call)                                          \
  do {                                                                                     \
    memset(key, 7, sizeof key), text[0] = '!';                                             \
    min_refused = large = table_bytes(log_n), max_asked = large_requests = 0;              \
    check((call) == (wanted) && max_asked / table_bytes(log_n) == (tables), why);          \
    check(large_requests == fewer(tables, 2), why);                                        \
    min_refused = SIZE_MAX;                                                                \
    check(key[0] == 7 && text[0] == '!', why);                                             \
  } while (0)

#ifndef IS_EMULATED
static long touched_kib(void) {
  struct rusage usage;
  return getrusage(RUSAGE_SELF, &usage) == 0 ? usage.ru_maxrss : 0;
}

/* Chunks of 2 GiB, which are allocated, are not written if the allocation of the table fails. */
TEST(little_is_touched) {
  const long before = touched_kib();
  min_refused = table_bytes(25);
  check(scrypt_key(SECRETS, 25, R, 1 << 21, key, sizeof key) == SCRYPT_E_OUT_OF_MEMORY, "a table of 32 GiB");
  min_refused = SIZE_MAX;
  check(touched_kib() - before < 4096, "memory is written before all is allocated");
}
#endif

/* The same key by a derivation in steps. */
static int derive(uint32_t log_n, uint32_t p, size_t max_mem) {
  scrypt_derivation *it = NULL;
  double done = 0;
  int status = scrypt_derivation_new(SECRETS, log_n, R, p, max_mem, sizeof key, &it);
  while (status == SCRYPT_OK && done < 1) status = scrypt_derivation_run(it, 10, &done);
  if (status == SCRYPT_OK) status = scrypt_derivation_finish(it, key, sizeof key);
  scrypt_derivation_free(&it);
  return status;
}

/* The most chunks for four tables of 32 MiB and their scratches, in the 129 MiB that the header states. */
enum { MOST = ((129 << 20) - 4 * ((128 * R << 15) + 256 * R)) / (128 * R) };

TEST(tables_of_keys) {
  static const struct {
    const char *why;
    uint32_t log_n, p;
    size_t tables;
  } KEYS[] = {{"tables of 32 KiB: interleaving is not faster", 5, 4, 1},
              {"tables of 64 KiB: interleaving is faster", 6, 4, 4},
              {"p of 1", 14, 1, 1},
              {"no more tables than p", 14, 3, 3},
              {"no more than four", 14, 9, 4},
              {"128 MiB", 15, 4, 4},
              {"the maximum with the chunks", 15, MOST, 4},
              {"above the maximum with the chunks", 15, MOST + 1, 3},
              {"two of 64 MiB", 16, 4, 2},
              {"one of 128 MiB", 17, 4, 1},
              {"one above the maximum", 18, 1, 1},
              {"no key with log_n of 60", 60, 4, 0}};
  for (size_t i = 0; i < sizeof KEYS / sizeof KEYS[0]; i++) {
    const uint32_t log_n = KEYS[i].log_n, p = KEYS[i].p;
    const int wanted = KEYS[i].tables > 0 ? SCRYPT_E_OUT_OF_MEMORY : SCRYPT_E_INVALID_PARAMS;
    const size_t tables = fewer(KEYS[i].tables, PAYS);
    REFUSES(KEYS[i].why, log_n, tables, wanted, scrypt_key(SECRETS, log_n, R, p, key, sizeof key));
    REFUSES(KEYS[i].why, log_n, tables, wanted, derive(log_n, p, SCRYPT_AUTO));
  }
}

/* All buffers together are within the limit. */
TEST(tables_of_limited_keys) {
  static const size_t EACH = 4 * (32 * R << 14) + 4 * 64 * R, CHUNKS = 4 * 128 * R;
  const struct {
    const char *why;
    size_t max_mem, tables;
  } BOUNDS[] = {{"no bytes", 0, 0}, {"one less than one table needs", CHUNKS + EACH - 1, 0}, {"one table", CHUNKS + EACH, 1},
                {"one less than two need", CHUNKS + 2 * EACH - 1, 1},    {"two tables", CHUNKS + 2 * EACH, 2},
                {"three tables", CHUNKS + 4 * EACH - 1, 3},              {"no limit", SIZE_MAX, 4}};
  for (size_t i = 0; i < sizeof BOUNDS / sizeof BOUNDS[0]; i++) {
    const int wanted = BOUNDS[i].tables > 0 ? SCRYPT_E_OUT_OF_MEMORY : SCRYPT_E_TOO_COSTLY;
    const size_t tables = fewer(BOUNDS[i].tables, PAYS);
    REFUSES(BOUNDS[i].why, 14, tables, wanted, derive(14, 4, BOUNDS[i].max_mem));
  }
}

static const char PHC[] = "$scrypt$ln=14,r=8,p=4$c2FsdHNhbHQ$AAAAAAAAAAAAAAAAAAAAAA";
#define OF_PHC "password", 8, PHC, sizeof PHC - 1

TEST(one_table_of_hashes) {
  REFUSES("phc", 14, 1, SCRYPT_E_OUT_OF_MEMORY, scrypt_hash_with_salt(SECRETS, 14, R, 4, 32, 0, text, sizeof text));
  REFUSES("mcf", 14, 1, SCRYPT_E_OUT_OF_MEMORY, scrypt_hash_with_salt(SECRETS, 14, R, 4, 32, 1, text, sizeof text));
  REFUSES("verify", 14, 1, SCRYPT_E_OUT_OF_MEMORY, scrypt_verify(OF_PHC));
  REFUSES("verify_unlimited", 14, 1, SCRYPT_E_OUT_OF_MEMORY, scrypt_verify_unlimited(OF_PHC));
  REFUSES("hash_password", 17, 1, SCRYPT_E_OUT_OF_MEMORY, scrypt_hash_password("password", 8, text, sizeof text));
}

/* A call that is rejected requests no table. */
TEST(no_table) {
  REFUSES("a key of no bytes", 14, 0, SCRYPT_E_INVALID_OUTPUT_LEN, scrypt_key(SECRETS, 14, R, 4, key, 0));
  REFUSES("too many bytes", 14, 0, SCRYPT_E_TOO_COSTLY, scrypt_verify_limited(OF_PHC, 1, UINT64_MAX, 0));
  REFUSES("too much work", 14, 0, SCRYPT_E_TOO_COSTLY, scrypt_verify_limited(OF_PHC, SIZE_MAX, 1, 0));
  REFUSES("a key of 16 bytes", 14, 0, SCRYPT_E_KEY_TOO_SHORT, scrypt_verify_limited(OF_PHC, NO_LIMITS, 17));
}

/* One table is used if the system has no memory for several: the address space has 80 MiB, and a
 * table takes 32. */
static uint8_t wanted_key[32];
static int is_in_one_table(void) {
  FILE *statm = fopen("/proc/self/statm", "r");
  unsigned long pages;
  struct rlimit limit;
  if (statm == NULL || fscanf(statm, "%lu", &pages) != 1 || getrlimit(RLIMIT_AS, &limit) != 0) return 1;
  limit.rlim_cur = pages * (size_t)sysconf(_SC_PAGESIZE) + (80 << 20);
  if (setrlimit(RLIMIT_AS, &limit) != 0) return 2;
  if (scrypt_key(SECRETS, 15, R, 4, key, sizeof key) != SCRYPT_OK || memcmp(key, wanted_key, 32) != 0) return 3;
  memset(key, 7, sizeof key);
  return derive(15, 4, SCRYPT_AUTO) != SCRYPT_OK || memcmp(key, wanted_key, 32) != 0;
}
TEST(one_of_several) {
  check(scrypt_key(SECRETS, 15, R, 4, wanted_key, 32) == SCRYPT_OK, "a key");
  in_a_child(is_in_one_table, "a key, and one in steps, in 80 MiB");
}

/* A table that the system fails to unmap is overwritten: only the address and the length
 * before it are left. */
TEST(not_unmapped) {
  size_t left = 0;
  keeps = 1, large = table_bytes(15), large_requests = 0;
  check(scrypt_key(SECRETS, 15, R, 1, key, sizeof key) == SCRYPT_OK, "a key of 32 MiB");
  check(large_requests == 1, "a table that is allocated once");
  keeps = 0;
  check(kept_len >= table_bytes(15) && kept_len <= table_bytes(15) + BESIDE, "the length of the mapping");
  for (size_t at = 0; at < kept_len; at++) left += kept[at] != 0;
  check(left <= 2 * sizeof(size_t), "bytes of a table that is not unmapped");
  check(munmap(kept, kept_len) == 0, "unmapped");
}

TEST(all_is_unmapped) { check(mapped == 0, "what was mapped is unmapped"); }
