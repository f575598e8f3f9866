/* The hasher in threads: order, batches, windows, timeouts, failed allocations, and signals.
 * test_queue.c is a model checker of its decisions, test_hasher_options.c tests its options,
 * test_hasher_parts.c its errors and memory, and test_hasher_load.c calls, forks and closing at
 * random times. */
#include "test_hasher.h"

/* The parameters of a verification, by its letter in a scenario; k is a key. */
static const struct { uint8_t log_n; uint32_t r, p; } PARAMS[] = {
    ['k'] = {4, 8, 1},  ['a'] = {4, 8, 1},  ['b'] = {5, 8, 1},  ['d'] = {4, 8, 2},  ['q'] = {4, 8, 4},
    ['x'] = {4, 8, 16}, ['r'] = {4, 16, 1}, ['s'] = {13, 8, 1}, ['t'] = {13, 8, 2}};

/* A scenario in a hasher whose derivations end only when its events say so. Each letter begins a call:
 * every second verification has a wrong password. The call after < times out, and the one after - gets
 * no memory. Other events:
 *   .      the oldest batch ends
 *   [ ]    windows last, and don't
 *   !      all timeouts are over
 *   0..4   there is memory for this many tables of the letter a, and no more */
static const struct {
  const char *why;
  size_t processors, max_tables, interleave;
  const char *events, *batches;
} SCENARIOS[] = {
    {"FIFO order", 1, 1, 4, "abakada", "0 1 2 3 4 5 6"},
    {"batches of two overtake incompatible calls", 1, 2, 4, "ababaabaa", "0 13 24 57 6 8"},
    {"batches of four", 1, 4, 4, "aaaaaaabb", "0 1234 56 78"},
    {"a processor that interleaves up to three chunks", 1, 4, 3, "aaaaaaa", "0 123 456"},
    {"with p of 2, batches of two in four tables", 1, 4, 4, "ddddd", "0 12 34"},
    {"with p of 2, no batches in three tables", 1, 3, 4, "ddd", "0 1 2"},
    {"with p of 4 and of 16, no batches in four tables", 1, 4, 4, "qqxx", "0 1 2 3"},
    {"p of 1 doesn't join p of 16", 1, 4, 4, "xaxa", "0 13 2"},
    {"the same N * r * p with other parameters", 1, 4, 4, "adrbra", "0 1 24 3 5"},
    {"a key is in no batch, and compatible calls overtake it", 1, 2, 4, "aakka", "0 14 2 3"},
    {"more processors than tables", 64, 2, 4, "aaa", "0 1 2"},

    {"compatible calls that arrive in the window of a leader join its batch", 1, 4, 4, "[sskas]", "014~ 2 3"},
    {"after the calls that waited before, and up to the maximum", 1, 4, 4, "sss[.ssas]", "0~ 1234~ 5 6~"},
    {"and up to the tables of the slot", 1, 2, 4, "s[.sss]", "0~ 12~ 3~"},
    {"a full batch has no window", 1, 2, 4, "sss", "0~ 12"},
    {"a slot with one table has no window", 1, 1, 4, "sst", "0 1 2"},
    {"no window while a slot is free", 2, 4, 4, "sss.", "0 1~ 2~"},

    {"a call that timed out is in no batch", 1, 4, 4, "a<aa!.", "0 2"},
    {"calls time out behind a call that still waits", 1, 1, 4, "ab<a<a<a!", "0 1"},

    {"memory for one table: a batch is derived one after another", 1, 4, 4, "1aaaaa....", "0 1 2 3 4"},
    {"memory for two: a batch of three is derived in two parts", 1, 4, 4, "2aaaa..", "0 12 3"},
    {"memory for three with p of 2, where they are larger: one after another", 1, 4, 4, "4ddd..", "0 1 2"},
    {"no further memory: the table that a slot has is kept, and used for each of a batch", 1, 4, 4, "a0aaa..", "0 1 2 3"},
    {"no memory for a larger table: only that call fails", 1, 1, 4, "a1-baa", "0 2 3"},
};

static const char *scenario;
static scrypt_hasher *hasher;
static int started, over, timeouts;
static struct thread {
  pthread_t id;
  char text[SCRYPT_PHC_CAPACITY], password[2], kind;
  int64_t timeout_ms;
  int status, wanted;
} all[16];

static void *run_thread(void *of) {
  struct thread *it = (struct thread *)of;
  uint8_t key[4];
  it->status = it->kind == 'k'
                   ? scrypt_hasher_key(hasher, it->password, 1, "", 0, key, 4, it->timeout_ms)
                   : verify(hasher, it->text, it->password, it->timeout_ms);
  (void)ADD(over, 1);
  return NULL;
}

/* Whether each call is in the hasher or over, and each leader derives or is in its window. */
static int is_settled(void) {
  struct look at = look_at(hasher);
  int calls = READ(over) + (int)(at.stats.waiting + at.stats.deriving);
  return calls == started && READ(inside) + READ(in_windows) == at.leading;
}

/* Until it is so twice. */
static void settle(void) {
  int settled = 0;
  until((settled = is_settled() ? settled + 1 : 0) == 2);
  expect(settled == 2, "%s: %d calls are not settled", scenario, started);
}

static void begin(const char *name, size_t processors, size_t max_tables) {
  scenario = name;
  hasher = new_hasher(processors, max_tables, 4);
  memset(all, 0, sizeof all);
  memset(batches, 0, sizeof batches);
  started = timeouts = 0;
  WRITE(over, 0);
  WRITE(is_stopped, 1);
}

/* The number of a call is the first letter of its password. */
static void start(char kind, int64_t timeout_ms, int refusal) {
  struct thread *it = &all[started];
  const int is_wrong = started % 2 == 1 && kind != 'k', n = (unsigned char)kind;
  it->kind = kind;
  it->timeout_ms = timeout_ms;
  it->wanted = refusal != SCRYPT_OK ? refusal : is_wrong ? SCRYPT_MISMATCH : SCRYPT_OK;
  it->password[0] = (char)('0' + started);
  make_text(it->text, is_wrong ? "other" : it->password, PARAMS[n].log_n, PARAMS[n].r, PARAMS[n].p);
  expect(pthread_create(&it->id, NULL, run_thread, it) == 0, "no thread");
  started++;
  settle();
}

/* Lets the oldest batch end. */
static void end_first(void) {
  int before = READ(ended);
  WRITE(passed, READ(passed) + 1);
  until(READ(ended) != before);
  settle();
}

static void play(const char *events) {
  for (; *events != '\0'; events++) {
    const int64_t forever = started % 2 == 0 ? -1 : INT64_MAX;
    if (*events >= 'a') start(*events, forever, SCRYPT_OK);
    else if (*events == '-') start(*++events, forever, SCRYPT_E_OUT_OF_MEMORY);
    else if (*events == '<') timeouts++, start(*++events, 200, SCRYPT_E_TIMEOUT);
    else if (*events == '.') end_first();
    else if (*events == '!') until(READ(over) == timeouts);
    else if (*events >= '[') WRITE(windows_last, *events == '['), settle();
    else WRITE(max_mapped, (size_t)(*events - '0') * hasher->cost.bytes + HUGE_PAGE);
  }
}

/* The number of tables is the minimum of the batch's chunks and the slot's tables, if there is memory. */
static void check_tables(size_t max_tables) {
  const size_t of_slot = max_tables / hasher->slots, width = of_slot < interleave ? of_slot : interleave;
  for (int i = 0; i < begun && READ(max_mapped) == SIZE_MAX; i++) {
    const size_t count = strcspn(batches[i].calls, "~"), p = PARAMS[(unsigned char)all[*batches[i].calls - '0'].kind].p;
    IS((size_t)batches[i].tables, count * p < width ? count * p : width);
  }
}

/* Lets all derivations end, and compares the batches and their order. */
static void end(const char *wanted_batches) {
  char in_order[256] = "", *at = in_order;
  scrypt_stats stats = {sizeof stats, 1, 1, 1};
  uint64_t refused = 0;
  WRITE(is_stopped, 0);
  until(READ(over) == started);
  check_tables(hasher->options.max_tables);
  for (int i = 0; i < started; i++) {
    pthread_join(all[i].id, NULL);
    expect(all[i].status == all[i].wanted, "%s: %d of call %d", scenario, all[i].status, i);
    refused += all[i].status == SCRYPT_E_OUT_OF_MEMORY || all[i].status == SCRYPT_E_TIMEOUT || all[i].status == SCRYPT_E_BUSY;
  }
  for (int i = 0; i < begun; i++) at += sprintf(at, "%s%s", i > 0 ? " " : "", batches[i].calls);
  expect(strcmp(in_order, wanted_batches) == 0, "%s: batches %s", scenario, in_order);
  IS(scrypt_hasher_stats(hasher, &stats), SCRYPT_OK);
  expect(stats.failed == refused && look_at(hasher).is_idle, "%s: not idle", scenario);
  WRITE(max_mapped, SIZE_MAX);
  scrypt_hasher_close(hasher);
  expect(READ(mapped) == size_of_queue(hasher), "%s: closed", scenario);
  scrypt_hasher_free(&hasher);
}

TEST(scenarios) {
  for (size_t i = 0; i < sizeof SCENARIOS / sizeof *SCENARIOS; i++) {
    WRITE(interleave, SCENARIOS[i].interleave);
    begin(SCENARIOS[i].why, SCENARIOS[i].processors, SCENARIOS[i].max_tables);
    play(SCENARIOS[i].events);
    end(SCENARIOS[i].batches);
  }
  expect(READ(windows_ahead) > 0, "no window lasts");
}

/* With max_waiting of 2 a third call returns at once, whatever it is, and one waits again when a place is free. */
TEST(busy) {
  scrypt_stats stats = {.size = sizeof stats - 1};
  begin("a bounded queue", 1, 2);
  hasher->options.max_waiting = 2;
  play("abb");
  start('a', -1, SCRYPT_E_BUSY), start('k', 60000, SCRYPT_E_BUSY);
  IS(READ(over), 2);
  end_first();
  play("a");
  start('a', 0, SCRYPT_E_TIMEOUT);
  IS(scrypt_hasher_stats(hasher, &stats), SCRYPT_E_OPTIONS_SIZE);
  stats.size = sizeof stats;
  IS(scrypt_hasher_stats(hasher, &stats), SCRYPT_OK);
  expect(stats.size == sizeof stats && stats.failed == 3 && stats.waiting == 1, "statistics");
  end("0 12 5");
  begin("no call waits", 1, 1);
  hasher->options.max_waiting = 0;
  play("a");
  start('a', -1, SCRYPT_E_BUSY);
  end("0");
}

/* A call's own timeout wins: only a negative one is that of the hasher. */
TEST(timeout_of_the_hasher) {
  begin("a timeout of the hasher", 1, 1);
  hasher->options.timeout_ms = 200;
  play("a");
  timeouts = 3;
  start('a', -1, SCRYPT_E_TIMEOUT), start('k', INT64_MIN, SCRYPT_E_TIMEOUT), start('a', 0, SCRYPT_E_TIMEOUT);
  start('a', 600000, SCRYPT_OK), start('k', INT64_MAX, SCRYPT_OK);
  play("!");
  end("0 4 5");
}

TEST(calls_that_lead_or_follow_do_not_time_out) {
  begin("timeouts after the derivation has begun", 1, 2);
  start('a', 10000, SCRYPT_OK); /* also on a busy machine all have begun by then */
  play("a");
  start('a', 10000, SCRYPT_OK);
  end_first();
  usleep(10100000);
  end("0 12");
}

#ifndef _WIN32
static void nothing(int number) { (void)number; }

TEST(signals) {
  const struct sigaction action = {.sa_handler = nothing};
  sigaction(SIGUSR1, &action, NULL);
  begin("a signal doesn't end a wait", 1, 2);
  play("aaa");
  for (int i = 0; i < 3; i++) pthread_kill(all[i].id, SIGUSR1);
  settle();
  end_first();
  for (int i = 1; i < 3; i++) pthread_kill(all[i].id, SIGUSR1);
  settle();
  end("0 12");
}
#endif
