/* The hasher: its errors, verdicts and memory, many waits, and calibration. */
#include "test_hasher.h"

/* ---- Errors: these calls don't wait for the slot, which is taken ---- */

#define TEXT_OF(params, more) "$scrypt$ln=" params "$c2FsdHNhbHQ$AAAAAAAAAAAAAAAAAAAA" more
TEST(refused_verifications) {
  char good[SCRYPT_PHC_CAPACITY];
  scrypt_hasher *hasher = new_hasher(1, 1, 4);
  make_text(good, "right", 4, 8, 1);
  hasher->queue->slots[0].is_taken = 1;
  IS(verify(hasher, "", "", -1), SCRYPT_E_ENCODING_INVALID);
  IS(verify(hasher, TEXT_OF("19,r=8,p=1", "AA"), "", -1), SCRYPT_E_TOO_COSTLY);
  IS(verify(hasher, TEXT_OF("4,r=8,p=32768", "AA"), "", -1), SCRYPT_E_TOO_COSTLY);
  IS(verify(hasher, TEXT_OF("4,r=8,p=1", ""), "", -1), SCRYPT_E_KEY_TOO_SHORT);
  IS(verify(hasher, "$scrypt$ln=4,r=8,p=1$c2FsdHNhbHQ", "", -1), SCRYPT_E_OUTPUT_SIZE);
  IS(verify(hasher, "$scrypt$ln=4,r=8,p=1", "", -1), SCRYPT_E_OUTPUT_SIZE);
  IS(verify(hasher, good, "right", 0), SCRYPT_E_TIMEOUT);
  IS(verify(hasher, good, "right", 2), SCRYPT_E_TIMEOUT);
  hasher->queue->slots[0].is_taken = 0;
  scrypt_hasher_close(hasher);
  expect(look_at(hasher).is_idle, "closed");
  IS(verify(hasher, "", "", -1), SCRYPT_E_ENCODING_INVALID); /* the errors of the text come first */
  IS(verify(hasher, good, "right", -1), SCRYPT_E_CLOSED);
  scrypt_hasher_free(&hasher);
}

/* The buffers take 2^64 - 9216 bytes, which with a huge page is more than 2^64. */
TEST(all_addresses) {
  const scrypt_options with = OF(4, 8, 1, .max_mem = SIZE_MAX, .max_work = UINT64_MAX);
  scrypt_hasher *hasher = made_of(&with);
  IS(verify(hasher, TEXT_OF("27,r=1073741800,p=1", "AA"), "", -1), SCRYPT_E_OUT_OF_MEMORY);
  scrypt_hasher_free(&hasher);
}

TEST(refused_hashes) {
  char text[SCRYPT_PHC_CAPACITY], mcf[SCRYPT_MCF_CAPACITY(3)], salt[65] = "";
  scrypt_options with = OF(4, 8, 2, .mcf = 1);
  scrypt_hasher *phc = new_hasher(1, 1, 4), *of_mcf = made_of(&with);
  phc->queue->slots[0].is_taken = of_mcf->queue->slots[0].is_taken = 1;
  IS(scrypt_hasher_hash(phc, NULL, 1, NULL, 0, text, sizeof text, -1), SCRYPT_E_NULL_POINTER);
  IS(scrypt_hasher_hash(phc, "a", 1, NULL, 0, NULL, 1, -1), SCRYPT_E_NULL_POINTER);
  IS(scrypt_hasher_hash(phc, "a", 1, "", 0, text, sizeof text, -1), SCRYPT_E_SALT_INVALID);
  IS(scrypt_hasher_hash(phc, "a", 1, salt, 65, text, sizeof text, -1), SCRYPT_E_SALT_INVALID);
  IS(scrypt_hasher_hash(phc, "a", 1, NULL, 0, text, sizeof text - 1, -1), SCRYPT_E_BUFFER_SIZE);
  IS(scrypt_hasher_hash(phc, "a", 1, NULL, 0, NULL, 0, -1), SCRYPT_E_BUFFER_SIZE);
  IS(scrypt_hasher_hash(of_mcf, "a", 1, "abc", 3, mcf, sizeof mcf - 1, -1), SCRYPT_E_BUFFER_SIZE);
  IS(scrypt_hasher_hash(of_mcf, "a", 1, "a", SIZE_MAX, mcf, sizeof mcf, -1), SCRYPT_E_BUFFER_SIZE);
  is_random_refused = 1;
  IS(scrypt_hasher_hash(phc, "a", 1, NULL, 0, text, sizeof text, -1), SCRYPT_E_NO_RANDOM_BYTES);
  is_random_refused = 0;
  phc->queue->slots[0].is_taken = of_mcf->queue->slots[0].is_taken = 0;
  scrypt_hasher_close(phc);
  IS(scrypt_hasher_hash(phc, "a", 1, NULL, 0, text, sizeof text, -1), SCRYPT_E_CLOSED);
  scrypt_hasher_free(&phc);
  scrypt_hasher_free(&of_mcf);
}

TEST(refused_keys) {
  static const size_t LONGEST = SCRYPT_MAX_OUTPUT_LEN;
  scrypt_hasher *hasher = new_hasher(1, 1, 4);
  uint8_t key[32];
  hasher->queue->slots[0].is_taken = 1;
  IS(scrypt_hasher_key(hasher, NULL, 2, "salt", 4, key, 32, -1), SCRYPT_E_NULL_POINTER);
  IS(scrypt_hasher_key(hasher, "pw", 2, NULL, 4, key, 32, -1), SCRYPT_E_NULL_POINTER);
  IS(scrypt_hasher_key(hasher, "pw", 2, "salt", 4, NULL, 32, -1), SCRYPT_E_NULL_POINTER);
  IS(scrypt_hasher_key(hasher, "pw", 2, "salt", 4, key, 0, -1), SCRYPT_E_INVALID_OUTPUT_LEN);
  IS(scrypt_hasher_key(hasher, "pw", 2, "", 0, key, LONGEST + 1, -1), SCRYPT_E_INVALID_OUTPUT_LEN);
  IS(scrypt_hasher_key(hasher, "pw", 2, "", 0, key, LONGEST, 0), SCRYPT_E_TIMEOUT);
  hasher->queue->slots[0].is_taken = 0;
  scrypt_hasher_free(&hasher);
}

TEST(calls) {
  char text[SCRYPT_PHC_CAPACITY], mcf[SCRYPT_MCF_CAPACITY(3)], good[SCRYPT_PHC_CAPACITY];
  scrypt_options with = OF(4, 8, 2, .mcf = 1);
  scrypt_hasher *phc = new_hasher(1, 1, 4), *of_mcf = made_of(&with);
  const struct arena *kept = &of_mcf->queue->slots[0].arena;
  static const char of_16_bytes[] = TEXT_OF("4,r=8,p=1", "AA");
  uint8_t key[32];
  make_text(good, "right", 4, 8, 1);
  IS(scrypt_hasher_hash(phc, "right", 5, NULL, 0, text, sizeof text, -1), SCRYPT_OK);
  IS(scrypt_hasher_hash(phc, "right", 5, good, 64, text, sizeof text, -1), SCRYPT_OK);
  IS(scrypt_hasher_hash(phc, "right", 5, good, 1, text, sizeof text, -1), SCRYPT_OK);
  IS(scrypt_hasher_hash(of_mcf, NULL, 0, "abc", 3, mcf, sizeof mcf, 0), SCRYPT_OK);
  IS(strncmp(text, "$scrypt$ln=4,r=8,p=1$", 21), 0);
  IS(strncmp(mcf, "$7$2", 4), 0);
  IS(verify(of_mcf, text, "right", -1), SCRYPT_OK);
  IS(verify(phc, mcf, "", -1), SCRYPT_OK);
  IS(verify(phc, mcf, "a", -1), SCRYPT_MISMATCH);
  IS(scrypt_hasher_needs_rehash(phc, text, strlen(text)), SCRYPT_OK);
  IS(scrypt_hasher_needs_rehash(of_mcf, text, strlen(text)), SCRYPT_NEEDS_REHASH);
  IS(scrypt_hasher_needs_rehash(phc, of_16_bytes, strlen(of_16_bytes)), SCRYPT_NEEDS_REHASH);
  IS(scrypt_hasher_key(of_mcf, "pw", 2, NULL, 0, key, 32, -1), SCRYPT_OK);
  IS(scrypt_hasher_key(of_mcf, "pw", 2, NULL, 0, key, 1, -1), SCRYPT_OK);
  for (size_t i = 4 * of_mcf->cost.table_len; i < kept->len; i++) IS(kept->tables[i], 0);
  IS(verify(phc, good, "right", -1), SCRYPT_OK);
  scrypt_hasher_free(&phc);
  scrypt_hasher_free(&of_mcf);
}

/* A verification says whether to rehash, if the password is right. */
TEST(rehashes) {
  static const struct {
    const char *why, *password, *text;
    uint8_t log_n, r;
    int status, needs_rehash;
  } ROWS[] = {{"the parameters of new hashes", "right", "", 4, 8, SCRYPT_OK, 0},
              {"a smaller N", "right", "", 3, 8, SCRYPT_OK, 1},
              {"a smaller r, and a larger N", "right", "", 9, 1, SCRYPT_OK, 1},
              {"a wrong password", "wrong", "", 3, 8, SCRYPT_MISMATCH, 7},
              {"no hash", "right", NULL, 3, 8, SCRYPT_MISMATCH, 7},
              {"a hash that is rejected", "right", "$7$", 3, 8, SCRYPT_E_ENCODING_INVALID, 7}};
  scrypt_hasher *hasher = new_hasher(1, 1, 4);
  for (size_t i = 0; i < sizeof ROWS / sizeof *ROWS; i++) {
    char made[SCRYPT_PHC_CAPACITY];
    const char *text = ROWS[i].text;
    int needs_rehash = 7, status;
    if (text != NULL && *text == '\0') text = made;
    make_text(made, "right", ROWS[i].log_n, ROWS[i].r, 1);
    status = scrypt_hasher_verify(hasher, ROWS[i].password, 5, text, text != NULL ? strlen(text) : 0, &needs_rehash, -1);
    expect(status == ROWS[i].status && needs_rehash == ROWS[i].needs_rehash, "%s: %d, %d", ROWS[i].why, status, needs_rehash);
  }
  scrypt_hasher_free(&hasher);
}

/* The salt of a new hash is drawn, each byte of it, and differs in the next hash. */
static void new_salts(scrypt_hasher *hasher) {
  const scrypt_options *with = &hasher->options;
  char text[SCRYPT_PHC_CAPACITY], other[SCRYPT_PHC_CAPACITY], same[SCRYPT_PHC_CAPACITY];
  IS(scrypt_hasher_hash(hasher, "a", 1, NULL, 0, text, sizeof text, -1), SCRYPT_OK);
  IS(scrypt_hasher_hash(hasher, "a", 1, NULL, 0, other, sizeof other, -1), SCRYPT_OK);
  expect(with->salt_len < 16 || strcmp(text, other) != 0, "the same salt twice");
  IS(drawn_len, with->salt_len);
  IS(scrypt_hash_with_salt("a", 1, drawn, drawn_len, with->log_n, with->r, with->p, with->key_len, with->mcf, same,
                           sizeof same), SCRYPT_OK);
  IS(strcmp(same, other), 0);
}

/* A login without a hash costs what a new hash costs, and is never accepted. */
TEST(decoy) {
  static const scrypt_options PARAMS[] = {
      OF(4, 8, 1, .mcf = 0), OF(0, 1, 1, .key_len = 10, .salt_len = 1),
      OF(1, 2, 3, .key_len = 64, .salt_len = 64), OF(5, 1, 1 << 12, .mcf = 1, .key_len = 11, .salt_len = 2),
      OF(1, 100, 1, .key_len = 12, .salt_len = 3)};
  for (size_t i = 0; i < sizeof PARAMS / sizeof PARAMS[0]; i++) {
    scrypt_hasher *hasher = made_of(&PARAMS[i]);
    const size_t n = PARAMS[i].salt_len;
    max_inside = max_tables_inside = 4;
    IS(scrypt_hasher_verify(hasher, "right", 5, NULL, 0, NULL, -1), SCRYPT_MISMATCH);
    IS(scrypt_hasher_verify(hasher, NULL, 0, NULL, 0, NULL, -1), SCRYPT_MISMATCH);
    IS(decoy_key_len, PARAMS[i].key_len);
    IS(decoy_salt_len, PARAMS[i].mcf ? (8 * n + 5) / 6 : n);
    new_salts(hasher);
    scrypt_hasher_close(hasher);
    IS(scrypt_hasher_verify(hasher, "right", 5, NULL, 0, NULL, -1), SCRYPT_E_CLOSED);
    scrypt_hasher_free(&hasher);
  }
}

/* A batch of one call maps only the tables of that call: a hasher keeps what it maps. */
TEST(memory_of_one_call) {
  scrypt_hasher *hasher = new_hasher(1, 4, 4);
  struct arena *arena = &hasher->queue->slots[0].arena;
  scrypt_cost cost = hasher->cost;
  char text[SCRYPT_PHC_CAPACITY];
  int before;
  make_text(text, "right", 4, 8, 1);
  IS(verify(hasher, text, "right", -1), SCRYPT_OK);
  IS(READ(mapped), size_of_queue(hasher) + cost.bytes + HUGE_PAGE);
  expect((uintptr_t)arena->tables % HUGE_PAGE == 0, "not at a huge page");
  before = READ(maps);
  IS(verify(hasher, text, "right", -1), SCRYPT_OK);
  IS(READ(maps), before);
  cost.bytes = SIZE_MAX / 2 + 1; /* twice that is 0 */
  IS(arena_reserve(arena, &cost, 4, 0), 0);
  scrypt_hasher_free(&hasher);
}

/* Tables are unmapped, or wiped if the system fails to unmap them. */
TEST(memory_that_stays) {
  scrypt_hasher *hasher = new_hasher(1, 1, 4);
  struct arena kept, *arena = &hasher->queue->slots[0].arena;
  char text[SCRYPT_PHC_CAPACITY];
  size_t at, left = 0;
  make_text(text, "right", 4, 8, 1);
  IS(verify(hasher, text, "right", -1), SCRYPT_OK);
  kept = *arena;
  for (at = 0; at < kept.len; at++) left += kept.tables[at] != 0;
  expect(left > 0, "no table");
  is_unmap_refused = 1;
  scrypt_hasher_close(hasher);
  is_unmap_refused = 0;
  for (at = left = 0; at < kept.len; at++) left += kept.tables[at] != 0;
  expect(left == 0 && arena->len == 0, "a table that is neither unmapped nor wiped");
  (void)test_unmap(kept.mapping, kept.len + HUGE_PAGE);
  scrypt_hasher_free(&hasher);
}

#if HAS_FORKS
/* A system that doesn't do what a fork needs: there is no hasher, or it works in a child too. The
 * advice is refused once, as when memory is short for a moment. */
TEST(forks_of_a_short_system) {
  static const struct {
    const char *why;
    int advice, error, new, call;
  } ROWS[] = {{"no memory to wipe a queue", MADV_WIPEONFORK, ENOMEM, SCRYPT_E_OUT_OF_MEMORY, 0},
              {"the same in Linux's words", MADV_WIPEONFORK, EAGAIN, SCRYPT_E_OUT_OF_MEMORY, 0},
              {"no memory is wiped", MADV_WIPEONFORK, EINVAL, SCRYPT_OK, SCRYPT_OK},
              {"no memory to drop a table", MADV_DONTFORK, ENOMEM, SCRYPT_OK, SCRYPT_E_OUT_OF_MEMORY}};
  const scrypt_options with = OF(4, 8, 1, .mcf = 0);
  char text[SCRYPT_PHC_CAPACITY];
  make_text(text, "right", 4, 8, 1);
  max_inside = max_tables_inside = 1;
  for (size_t i = 0; i < sizeof ROWS / sizeof *ROWS; i++) {
    int status, of_child = -1;
    pid_t child;
    scrypt_hasher *hasher = NULL;
    refused_advice = ROWS[i].advice, refusal = ROWS[i].error, refusals = 1;
    status = scrypt_hasher_new(&with, &hasher);
    expect(status == ROWS[i].new && (hasher == NULL) == (status != SCRYPT_OK), "%s: %d", ROWS[i].why, status);
    if (hasher == NULL) continue;
    expect(verify(hasher, text, "right", -1) == ROWS[i].call, "%s: a call", ROWS[i].why);
    child = fork();
    if (child == 0) _exit(verify(hasher, text, "right", 1000));
    expect(waitpid(child, &of_child, 0) == child && of_child == 0, "%s: a child %#x", ROWS[i].why, of_child);
    scrypt_hasher_free(&hasher);
  }
  refused_advice = refusals = 0;
}

/* A child maps and unmaps its own memory; it has no memory of its parent. */
static int generation(scrypt_hasher *hasher, const char *text, int more) {
  void *of_parent = hasher->queue->slots[0].arena.mapping;
  pid_t child = fork();
  int status = -1;
  if (child > 0) return waitpid(child, &status, 0) == child && status == 0;
  mapped = 0;
#if defined __x86_64__ && !defined __SANITIZE_THREAD__
  /* Elsewhere an emulator ignores the advice, and the sanitizer maps memory there itself. */
  expect(madvise(of_parent, LARGEST_PAGE, MADV_NORMAL) != 0 && errno == ENOMEM, "of the parent");
#else
  (void)of_parent;
#endif
  IS(verify(hasher, text, "right", -1), SCRYPT_OK);
  IS(READ(mapped), hasher->cost.bytes + HUGE_PAGE);
  if (more > 0) expect(generation(hasher, text, more - 1), "a grandchild");
  scrypt_hasher_close(hasher);
  IS(READ(mapped), 0);
  _exit(failed);
}

TEST(generations) {
  scrypt_hasher *hasher = new_hasher(1, 1, 4);
  char text[SCRYPT_PHC_CAPACITY];
  make_text(text, "right", 4, 8, 1);
  IS(verify(hasher, text, "right", -1), SCRYPT_OK);
  expect(generation(hasher, text, 8), "a child");
  IS(verify(hasher, text, "right", -1), SCRYPT_OK);
  scrypt_hasher_free(&hasher);
}
#endif

/* 1/250 of the derivation, and no more than 1 ms; no window if it is below 50 microseconds. */
TEST(windows) {
  static const struct {
    uint8_t log_n;
    uint32_t p;
    int64_t ns;
  } WINDOWS[] = {{4, 1, 0},       {12, 1, 0},      {12, 2, 52428},  {13, 1, 52428},
                 {14, 1, 104857}, {17, 1, 838860}, {18, 1, MAX_LINGER_NS}};
  scrypt_cost cost;
  for (size_t i = 0; i < sizeof WINDOWS / sizeof WINDOWS[0]; i++) {
    IS(scrypt_params_cost(WINDOWS[i].log_n, 8, WINDOWS[i].p, SIZE_MAX, UINT64_MAX, &cost), 0);
    IS(linger_ns(&cost), WINDOWS[i].ns);
  }
}

/* Waits that end in any order take linear time together. */
TEST(many_waits) {
  enum { N = 80000 };
  static const int STATUSES[] = {SCRYPT_OK, SCRYPT_MISMATCH, SCRYPT_OK, SCRYPT_MISMATCH};
  scrypt_hasher *hasher = new_hasher(1, 1, 4);
  struct queue *queue = hasher->queue;
  hasher->options.max_waiting = SIZE_MAX;
  struct call *all = (struct call *)calloc(N + 1, sizeof *all), *batch[4] = {&all[0]}, *it;
  clock_t begun_at = clock();
  mutex_lock(&queue->lock);
  for (int i = 0; i <= N; i++) enter(hasher, &all[i]);
  for (int i = 0; i < N; i++) {
    it = &all[1 + i * 7919L % N];
    dequeue(queue, it);
    if (i % 2 == 0) enter(hasher, it);
  }
  it = queue->first;
  for (int i = 0; i < MAX_SCANNED; i++, it = it->next) it->cost.r = 1;
  IS(extend_batch(hasher, batch, 1, 4), 1); /* it scans no further */
  it->previous->cost.r = 0;
  IS(extend_batch(hasher, batch, 1, 2), 2);
  all[0].cost.r = 1;
  IS(extend_batch(hasher, batch, 2, 4), 4);
  IS(queue->stats.waiting, N / 2 - 3);
  mutex_unlock(&queue->lock);
  scrypt_hasher_close(hasher);
  mutex_lock(&queue->lock);
  finish(hasher, batch, STATUSES, 4);
  IS(batch[3]->status, SCRYPT_MISMATCH);
  mutex_unlock(&queue->lock);
  expect(look_at(hasher).is_idle, "not idle");
  expect(clock() - begun_at < 5 * CLOCKS_PER_SEC, "not linear");
  scrypt_hasher_free(&hasher);
  free(all);
}

TEST(calibrated) {
  uint32_t log_n = 0, r = 0, p = 0;
  IS(scrypt_calibrate(1e-9, (size_t)64 << 20, &log_n, &r, &p), SCRYPT_E_TOO_COSTLY);
  IS(scrypt_calibrate(1, ((size_t)1 << 20) - 1, &log_n, &r, &p), SCRYPT_E_TOO_COSTLY);
  expect(log_n == 0 && r == 0 && p == 0, "unchanged");
  IS(scrypt_calibrate(9, (size_t)1 << 20, &log_n, &r, &p), SCRYPT_OK);
  expect(log_n == 10 && r == 8 && p > 1, "the largest table, then p: %u %u %u", log_n, r, p);
}
