/* The hasher under load, forked, closed and freed at any time: no wrong verdict, no hang.
 * usage: test_hasher_load [ROUNDS]   a second for each 40 */
#define MIN_LINGER_NS 0
#include "test_hasher.h"

#if !HAS_FORKS || defined __SANITIZE_THREAD__ /* which knows no child of several threads */
#define FORKS 0
static void fork_here(scrypt_hasher *hasher, const char *what) { (void)hasher, (void)what; }
#else
#define FORKS 4

/* In a child: the hasher works, and has no calls or memory of the parent. */
static void check_child(scrypt_hasher *hasher) {
  char text[SCRYPT_PHC_CAPACITY];
  scrypt_stats stats = {sizeof stats, 1, 1, 1};
  failed = inside = tables_inside = is_stopped = windows_last = 0;
  mapped = 0;
  IS(scrypt_hasher_stats(hasher, &stats), SCRYPT_OK);
  expect(stats.waiting == 0 && stats.deriving == 0 && stats.failed == 0, "stats of the parent");
  make_text(text, "right", 4, 8, 1);
  IS(verify(hasher, text, "right", 5000), hasher->is_closed ? SCRYPT_E_CLOSED : SCRYPT_OK);
  IS(verify(hasher, text, "wrong", 5000), hasher->is_closed ? SCRYPT_E_CLOSED : SCRYPT_MISMATCH);
  expect(look_at(hasher).is_idle, "the child has calls or memory of the parent");
  scrypt_hasher_close(hasher);
  IS(READ(mapped), 0);
  _exit(failed);
}

static void fork_here(scrypt_hasher *hasher, const char *what) {
  int status = -1;
  pid_t child = fork(), ended_child = 0;
  if (child == 0) check_child(hasher);
  until((ended_child = waitpid(child, &status, WNOHANG)) == child);
  expect(ended_child == child, "a child hangs: %s", what);
  if (ended_child != child) kill(child, SIGKILL), waitpid(child, &status, 0);
  else expect(WIFEXITED(status) && WEXITSTATUS(status) == 0, "%s: child %#x", what, status);
}
#endif

static char texts[3][SCRYPT_PHC_CAPACITY];
TEST(the_texts) {
  make_text(texts[0], "right", 4, 8, 1);
  make_text(texts[1], "right", 6, 8, 1);
  make_text(texts[2], "right", 4, 8, 3);
}

/* Each call returns the verdict of a separate call, or an error. */
static int running;
static void *verify_until_closed(void *hasher) {
  unsigned seed = (unsigned)(uintptr_t)&seed >> 12;
  int status, is_right;
  char drawn[SCRYPT_PHC_CAPACITY];
  (void)pthread_cancel(pthread_self()); /* no call that waits or derives is a cancellation point */
  status = scrypt_hasher_hash(hasher, "pw", 2, NULL, 0, drawn, sizeof drawn, -1);
  (void)pthread_setcancelstate(PTHREAD_CANCEL_DISABLE, NULL);
  IS(status, SCRYPT_OK);
  (void)ADD(running, 1);
  do {
    int wrong = rand_r(&seed) & 1, ms = rand_r(&seed) % 4 - 1;
    const char *text = texts[rand_r(&seed) % 3];
    status = scrypt_hasher_verify(hasher, wrong ? "wrong" : "right", 5, text, strlen(text), NULL, ms);
    is_right = status == wrong || status == SCRYPT_E_CLOSED || (ms >= 0 && status == SCRYPT_E_TIMEOUT);
    expect(is_right, "status %d where %d is right", status, wrong);
  } while (status != SCRYPT_E_CLOSED);
  (void)ADD(running, -1);
  return NULL;
}

TEST(at_any_time) {
  static const size_t PROCESSORS[] = {1, 2, 64};
  size_t rounds = 24;
  pthread_t all[16];
  scrypt_stats stats = {.size = sizeof stats};
  if (argument != NULL) rounds = (size_t)atoi(argument);
  for (size_t round = 0; round < rounds; round++) {
    size_t processors = PROCESSORS[round % 3];
    scrypt_hasher *hasher = new_hasher(processors, round % 4 * processors + 1, 4);
    for (int i = 0; i < 16; i++) pthread_create(&all[i], NULL, verify_until_closed, hasher);
    until(READ(running) == 16);
    expect(READ(running) == 16, "cancelled in a call, or not begun");
    if (READ(running) != 16) _exit(1); /* otherwise its threads would run in the next test */
    for (int i = 0; i < 1000; i++) IS(scrypt_hasher_stats(hasher, &stats), SCRYPT_OK);
    for (int i = 0; i < FORKS; i++) {
      usleep((useconds_t)(rand() % 500));
      fork_here(hasher, "forked at any time");
    }
    scrypt_hasher_close(hasher);
    for (int i = 0; i < 16; i++) pthread_join(all[i], NULL);
    expect(look_at(hasher).is_idle, "idle after load");
    fork_here(hasher, "closed");
    scrypt_hasher_free(&hasher);
  }
}

static void *verify_one(void *hasher) {
  int status = verify(hasher, texts[0], "right", -1);
  expect(status == SCRYPT_OK || status == SCRYPT_E_CLOSED, "status %d", status);
  return NULL;
}

/* A hasher can be freed after its calls have returned. TSan and ASan detect a later use. */
TEST(freed_when_they_returned) {
  pthread_t all[5];
  for (int round = 0; round < 200; round++) {
    scrypt_hasher *hasher = new_hasher(1, (size_t)(1 + round % 4), 4);
    WRITE(is_stopped, 1);
    for (int i = 0; i < 5; i++) pthread_create(&all[i], NULL, verify_one, hasher);
    WRITE(passed, round % 3);
    usleep((useconds_t)(rand() % 300));
    WRITE(is_stopped, 0);
    scrypt_hasher_close(hasher);
    for (int i = 0; i < 5; i++) pthread_join(all[i], NULL);
    scrypt_hasher_free(&hasher);
  }
}
