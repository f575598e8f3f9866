/* Tests the promises of system.h, on the included sources for this system. test_salt.c tests the
 * random bytes too. */
#define _GNU_SOURCE
#include <stdint.h>
#ifdef _WIN32
#include "windows.c"
enum { HAS_FORKS = 0 };
#else
#include <errno.h>
#include <sys/syscall.h>
#include <unistd.h>

/* getrandom is interrupted, and gives no more than this number of bytes, in turns. */
static size_t max_drawn = SIZE_MAX, draws;
static long drawn_in_pieces(void *bytes, size_t len, unsigned flags) {
  if (max_drawn < SIZE_MAX && draws++ % 2 == 0) return errno = EINTR, -1;
  return (syscall)(SYS_getrandom, bytes, len < max_drawn ? len : max_drawn, flags);
}
#define CALL_SYS_futex(...) (syscall)(SYS_futex, __VA_ARGS__)
#define CALL_SYS_getrandom drawn_in_pieces
#define syscall(number, ...) CALL_##number(__VA_ARGS__)
#include "linux.c"
#undef syscall
enum { HAS_FORKS = 1 };
#endif

#include "test.h"

#include <pthread.h>
#include <stdlib.h>
#include <string.h>

enum { THREADS = 4, ROUNDS = 20000, LEN = 1 << 20 };

static const int64_t MS = 1000000, SECOND = 1000000000;

/* ---- Threads ---- */

static struct {
  mutex lock; /* zeros are its beginning */
  long count;
} shared;

static void *count_with_the_lock(void *unused) {
  for (int i = 0; i < ROUNDS; i++) {
    long before;
    mutex_lock(&shared.lock);
    before = shared.count;
    shared.count = before + 1;
    mutex_unlock(&shared.lock);
  }
  return unused;
}

TEST(a_lock) {
  pthread_t all[THREADS];
  for (int i = 0; i < THREADS; i++) check(pthread_create(&all[i], NULL, count_with_the_lock, NULL) == 0, "a thread");
  for (int i = 0; i < THREADS; i++) (void)pthread_join(all[i], NULL);
  check(shared.count == (long)THREADS * ROUNDS, "no two threads have the lock");
}

/* ---- Sleep ---- */

static mutex lock;
static condition woken;
static int word, went_on;
static void *sleep_for_long(void *unused) {
  int before;
  (void)pthread_setcanceltype(PTHREAD_CANCEL_DEFERRED, &before);
  mutex_lock(&lock);
  while (word == 0) condition_wait(&woken, &lock, word == 0 ? NO_DEADLINE : now_ns() + 10 * SECOND);
  went_on = 1;
  mutex_unlock(&lock);
  return unused;
}

TEST(sleeps) {
  int64_t begun, end;
  pthread_t thread;
  int count, tries = 0;
  mutex_lock(&lock);
  do {
    begun = now_ns(), end = begun + 30 * MS;
    for (count = 0; now_ns() < end; count++) condition_wait(&woken, &lock, end);
    check(count < 10, "a sleep lasts until its end");
    condition_wait(&woken, &lock, end); /* which is over */
  } while (now_ns() - begun > SECOND && tries++ < 20); /* on a loaded machine one can end late */
  check(tries < 20, "a sleep ends in time");
  check(pthread_create(&thread, NULL, sleep_for_long, NULL) == 0, "a thread");
  end = now_ns() + 50 * MS;
  /* Until it sleeps. Cancelling does not wake it. */
  while (now_ns() < end) condition_wait(&woken, &lock, end);
  (void)pthread_cancel(thread);
  end = now_ns() + 50 * MS;
  while (now_ns() < end) condition_wait(&woken, &lock, end);
  check(!went_on, "a thread sleeps");
  word = 1;
  condition_signal(&woken);
  mutex_unlock(&lock);
  (void)pthread_join(thread, NULL);
  check(went_on, "a woken thread continues");
}

/* ---- Memory ---- */

static uint8_t *mapped[4];
static void while_mapped(void);

TEST(memory) {
  for (int i = 0; i < 4; i++) mapped[i] = (uint8_t *)map_zeros(LEN);
  check(wipe_on_fork(mapped[1], LEN) == HAS_FORKS && wipe_on_fork(mapped[2] + LEN / 2, LEN / 2) == HAS_FORKS &&
            drop_on_fork(mapped[3], LEN) == HAS_FORKS, "a system with forks does what they need");
  for (int i = 0; i < 4; i++) {
    check(mapped[i] != NULL && is_all(0, mapped[i], LEN), "zeros are mapped");
    if (mapped[i] == NULL) return;
    advise_huge_pages(mapped[i], LEN);
    prefault(mapped[i], LEN);
    memset(mapped[i], 7, LEN);
  }
  while_mapped();
  for (int i = 0; i < 4; i++) check(is_all(7, mapped[i], LEN), "written bytes");
  for (int i = 0; i < 4; i++) check(unmap(mapped[i], LEN), "unmapped");
  check(!unmap(mapped[0] + 1, LEN), "an address that is no mapping");
  check(map_zeros(SIZE_MAX / 2) == NULL, "more than the address space");
}

#ifdef _WIN32
#include "test_system_windows.h"
#else
#include "test_system_linux.h"
#endif
