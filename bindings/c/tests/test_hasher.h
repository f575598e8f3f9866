/* The hasher with derivations that can be stopped: its sources are included, and call functions of
 * this file instead of the proved calls, max_interleave, malloc, and some of system.h. */
#define _GNU_SOURCE
#ifdef _WIN32
#include "windows.c"

#include "test_windows.h"
#else
#include <errno.h>
#include <signal.h>
#include <sys/mman.h>
#include <sys/wait.h>

/* Refuses an advice, this number of times. */
static int refused_advice, refusals, refusal;
static int test_advice(void *at, size_t size, int advice) {
  if (advice != refused_advice || refusals == 0) return madvise(at, size, advice);
  refusals--, errno = refusal;
  return -1;
}
#define madvise test_advice
#include "linux.c"
#undef madvise
#endif
#if defined _WIN32 || defined IS_EMULATED
#define HAS_FORKS 0
#else
#define HAS_FORKS 1
#endif

#include "check.h"
#include "groups.h"

#include <errno.h>
#include <stdlib.h>
#include <string.h>

#define READ(it) __atomic_load_n(&(it), __ATOMIC_ACQUIRE)
#define WRITE(it, value) __atomic_store_n(&(it), value, __ATOMIC_RELEASE)
#define ADD(it, by) __atomic_add_fetch(&(it), by, __ATOMIC_ACQ_REL)

#define expect(holds, ...)                            \
  do {                                                \
    if (!(holds)) {                                   \
      failed = 1;                                     \
      fprintf(stderr, "failed, line %d: ", __LINE__); \
      fprintf(stderr, __VA_ARGS__);                   \
      fputc('\n', stderr);                            \
    }                                                 \
  } while (0)
#define IS(call, wanted) expect((call) == (wanted), #call)
/* Waits until the condition holds, or for a minute. */
#define until(holds) for (int tries_ = 0; !(holds) && tries_ < 300000; tries_++) usleep(200)

/* ---- Memory ---- */

static size_t max_mapped = SIZE_MAX, mapped; /* by one mapping, and by all */
static int maps;                             /* the number of mappings that were made */
static void *test_map(size_t size) {
  void *at = size <= READ(max_mapped) ? map_zeros(size) : NULL;
  (void)ADD(maps, at != NULL);
  (void)ADD(mapped, at != NULL ? size : 0);
  return at;
}

static int is_unmap_refused;
static int test_unmap(void *at, size_t size) {
  if (is_unmap_refused) return 0;
  (void)ADD(mapped, -size);
  return unmap(at, size);
}

static size_t memory_there = SIZE_MAX; /* of this process */

static int is_malloc_refused, is_random_refused, allocated;
static void *test_malloc(size_t size) {
  if (is_malloc_refused) return NULL;
  (void)ADD(allocated, 1);
  return malloc(size);
}
static void test_free(void *block) {
  (void)ADD(allocated, -(block != NULL));
  free(block);
}
/* The last salt that this thread drew. */
static __thread uint8_t drawn[SCRYPT_MAX_SALT_LEN];
static __thread size_t drawn_len;
static int test_random(uint8_t *bytes, size_t len) {
  if (is_random_refused || !random_bytes(bytes, len)) return 0;
  memcpy(drawn, bytes, drawn_len = len);
  return 1;
}

/* ---- Sleeps ---- */

/* Whether batching windows last, how many leaders are in one, and how many ended in the future. */
static int windows_last, in_windows, windows_ahead;
static __thread int had_window, late_waits;
static __thread int64_t last_deadline;
static int64_t longest_window(void);
static void test_wait(condition *it, mutex *with, int64_t deadline_ns) {
  /* A slow thread can be late for each window; one that spins waits for the same time again. */
  late_waits = deadline_ns == last_deadline && deadline_ns <= now_ns() ? late_waits + 1 : 0;
  last_deadline = deadline_ns;
  expect(late_waits < 100, "a thread spins in place of sleeping");
  if (deadline_ns - now_ns() <= longest_window()) {
    had_window = 1;
    (void)ADD(windows_ahead, deadline_ns > now_ns());
    (void)ADD(in_windows, 1);
    mutex_unlock(with);
    while (READ(windows_last)) usleep(100);
    mutex_lock(with);
    (void)ADD(in_windows, -1);
  }
  condition_wait(it, with, deadline_ns);
}

/* ---- Derivations that are recorded, and stopped ---- */

/* The batches, in order of their begin: the first letters of their passwords, ~ if others could
 * join in a window, and the number of tables. */
enum { MAX_BATCHES = 64 };
static struct { char calls[8]; int tables; } batches[MAX_BATCHES];
static size_t interleave = 4; /* max_interleave */
static int is_stopped, passed, begun, ended, inside, tables_inside, max_inside, max_tables_inside;

static int begin_watched(const scrypt_login *logins, size_t count, size_t table_len, uint32_t log_n,
                         uint32_t r) {
  int place = ADD(begun, 1) - 1, tables = (int)(table_len / ((size_t)32 * r << log_n));
  char calls[8] = "";
  for (size_t i = 0; i < count; i++)
    calls[i] = logins[i].password_len > 0 ? *(const char *)logins[i].password : ' ';
  if (had_window) calls[count] = '~';
  had_window = 0;
  if (place < MAX_BATCHES) strcpy(batches[place].calls, calls), batches[place].tables = tables;
  expect(ADD(inside, 1) <= READ(max_inside), "too many derive at a time");
  expect(ADD(tables_inside, tables) <= READ(max_tables_inside), "too many tables at a time");
  while (READ(is_stopped) && READ(passed) <= place) usleep(100);
  return tables;
}

static void end_watched(int tables) {
  (void)ADD(inside, -1);
  (void)ADD(tables_inside, -tables);
  (void)ADD(ended, 1);
}

static size_t decoy_salt_len, decoy_key_len; /* of the last batch */
static int watched_batch(const scrypt_login *logins, size_t count, uint32_t decoy_log_n, uint32_t decoy_r,
                         uint32_t decoy_p, size_t salt_len, size_t len, int *statuses,
                         const scrypt_buffers *buffers) {
  uint32_t log_n = decoy_log_n, r = decoy_r, p = decoy_p;
  size_t key_len, i;
  int tables, status = SCRYPT_OK;
  if (logins[0].text != NULL)
    status = scrypt_hash_params(logins[0].text, logins[0].text_len, &log_n, &r, &p, &key_len);
  decoy_salt_len = salt_len, decoy_key_len = len;
  for (i = 0; i < count; i++) expect(statuses[i] != SCRYPT_OK, "SCRYPT_OK before the derivation");
  expect(buffers->chunks_len == count * 128 * r * p, "other chunks than those of all logins");
  tables = begin_watched(logins, count, buffers->table_len, log_n, r);
  status |= scrypt_verify_batch_with_buffers(logins, count, decoy_log_n, decoy_r, decoy_p, salt_len, len, statuses,
                                             buffers);
  end_watched(tables);
  return status;
}

static int watched_key(const void *password, size_t password_len, const void *salt, size_t salt_len,
                       uint32_t log_n, uint32_t r, uint32_t p, uint8_t *output, size_t output_len,
                       const scrypt_buffers *buffers) {
  const scrypt_login login = {password, password_len, NULL, 0};
  int status, tables = begin_watched(&login, 1, buffers->table_len, log_n, r);
  status = scrypt_key_with_buffers(password, password_len, salt, salt_len, log_n, r, p, output,
                                   output_len, buffers);
  end_watched(tables);
  return status;
}

#define malloc test_malloc
#define free test_free
#define random_bytes test_random
#define map_zeros test_map
#define unmap test_unmap
#define condition_wait test_wait
#define memory_of_process() memory_there
#define can_sleep_briefly() 1 /* also on Windows */
#define max_interleave() READ(interleave)
#define scrypt_verify_batch_with_buffers watched_batch
#define scrypt_key_with_buffers watched_key
#include "hasher.c"
#undef scrypt_verify_batch_with_buffers
#undef scrypt_key_with_buffers
static int64_t longest_window(void) { return MAX_LINGER_NS; }
#include "options.c"
#define now now_seconds
#include "calibrate.c"
#undef now
#undef malloc
#undef free
#undef random_bytes
#undef map_zeros
#undef unmap
#undef condition_wait
#undef memory_of_process
#undef max_interleave

/* ---- Hashers, and texts ---- */

/* The options of a hasher with one table and one processor, and these changes. */
#pragma GCC diagnostic ignored "-Woverride-init"
#define OF(n, its_r, its_p, ...)                                                                          \
  {.size = sizeof(scrypt_options), .log_n = n, .r = its_r, .p = its_p, .key_len = SCRYPT_KEY_LEN,         \
   .salt_len = SCRYPT_SALT_LEN, .max_mem = SCRYPT_AUTO, .max_work = SCRYPT_AUTO,                          \
   .min_key_len = SCRYPT_AUTO, .max_tables = 1, .processors = 1, .max_waiting = SCRYPT_AUTO,           \
   .timeout_ms = -1, __VA_ARGS__}
static scrypt_hasher *made_of(const scrypt_options *options) {
  scrypt_hasher *hasher = NULL;
  IS(scrypt_hasher_new(options, &hasher), SCRYPT_OK);
  return hasher;
}

static scrypt_hasher *new_hasher(size_t processors, size_t max_tables, uint32_t log_n) {
  const scrypt_options with = OF(log_n, 8, 1, .max_tables = max_tables, .processors = processors);
  scrypt_hasher *hasher = made_of(&with);
  begun = ended = inside = tables_inside = passed = is_stopped = 0;
  max_inside = (int)hasher->slots;
  max_tables_inside = (int)max_tables;
  return hasher;
}

static void make_text(char *text, const char *password, uint8_t log_n, uint32_t r, uint32_t p) {
  IS(scrypt_hash_with_salt(password, strlen(password), "salt", 4, log_n, r, p, 32, 0, text, SCRYPT_PHC_CAPACITY), SCRYPT_OK);
}

static int verify(scrypt_hasher *hasher, const char *text, const char *password, int64_t ms) {
  return scrypt_hasher_verify(hasher, password, strlen(password), text, strlen(text), NULL, ms);
}

/* The number of slots that are taken; whether no slot is taken, no call waits or derives, and no
 * closed hasher has memory. The invariants of the queue hold. */
static struct look { int leading, is_idle; scrypt_stats stats; } look_at(scrypt_hasher *hasher) {
  struct queue *queue = hasher->queue;
  struct look at = {0, 1, {0, 0, 0, 0}};
  size_t waiting = 0;
  mutex_lock(&queue->lock);
  at.stats = queue->stats;
  for (struct call *it = queue->first; it != NULL; it = it->next) {
    waiting++;
    expect(it->state == WAITING, "a call that doesn't wait is queued");
    expect(it->next != NULL ? it->next->previous == it : queue->last == it, "links");
  }
  expect(waiting == at.stats.waiting && (waiting > 0 || queue->last == NULL), "waiting");
  for (size_t i = 0; i < hasher->slots; i++) {
    if (queue->slots[i].is_taken) at.leading++; /* and another thread has its arena */
    else at.is_idle &= !(hasher->is_closed && queue->slots[i].arena.len > 0);
  }
  at.is_idle &= at.leading == 0 && waiting == 0 && at.stats.deriving == 0;
  expect(waiting == 0 || (!hasher->is_closed && find_free_slot(hasher) == NULL), "a lost slot");
  mutex_unlock(&queue->lock);
  return at;
}

#define AFTER_EACH() expect(READ(mapped) == 0 && READ(allocated) == 0, "memory is left")
#include "test.h"
