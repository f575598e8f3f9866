/* How much stack a call uses, and what it leaves on the stack and in memory that it frees: nothing
 * further below than SCRYPT_STACK_BYTES, zeros where the proved code had its frames, no password or
 * key in the frames above it, and zeros in each freed block. Tests all calls of the header, with
 * each number of tables and of chunks, because the frames depend on these, and with random
 * texts. */
#include "arguments.h"
#include "test.h"

#include <limits.h>
#include <pthread.h>

/* OWN bytes hold the frames of this test and of calls.c, which aren't wiped. */
enum { OWN = 2048, ROOM = 40 << 10, PAINT = 0xa5, OF_SYSTEM = 8192 };

static const char PASSWORD[] = "a password that has a length of 40 bytes";
static const char SALT[] = "a salt has 32 bytes, as this has";
#define SECRETS PASSWORD, sizeof PASSWORD - 1, SALT, sizeof SALT - 1

/* ---- Blocks: a malloc that never reuses a block, also for the library ---- */

#ifndef _WIN32
enum { ARENA = 1 << 28, UNIT = 16, HEAD = 2 * sizeof(size_t) };
static _Alignas(64) uint8_t arena[ARENA];
static size_t used, blocks;

void *malloc(size_t len) {
  void *block = arena + used;
  if (len > ARENA - used) return NULL;
  used += (len + UNIT - 1) / UNIT * UNIT;
  blocks++;
  return block;
}
void free(void *block) { (void)block; }
void *calloc(size_t count, size_t len) { return malloc(count * len); }
void *realloc(void *block, size_t len) {
  size_t there = block == NULL ? 0 : (size_t)(arena + used - (uint8_t *)block);
  void *other = malloc(len);
  if (other != NULL && there > 0) memcpy(other, block, len < there ? len : there);
  return other;
}

/* The library writes two words before each block. */
static void check_blocks(const char *name, size_t from, size_t count) {
  size_t left = 0;
  for (size_t at = from; at < used; at++) left += arena[at] != 0;
  check(left <= count * HEAD, name);
}
#endif

/* ---- The stack ---- */

__attribute__((noinline)) static void paint(void) {
  volatile uint8_t below[ROOM];
  for (size_t i = ROOM; i-- > 0;) below[i] = PAINT;
  (void)below[0];
}

static int has(const volatile uint8_t *from, const volatile uint8_t *to, const void *secret) {
  size_t i;
  for (; from + 8 <= to; from++) {
    for (i = 0; i < 8 && from[i] == ((const uint8_t *)secret)[i]; i++) continue;
    if (i == 8) return 1;
  }
  return 0;
}

static size_t deepest;
static int new_and_freed(void);
__attribute__((noinline)) static void check_stack(const char *name, int (*call)(void), int wanted) {
  const volatile uint8_t *const top = (const uint8_t *)__builtin_frame_address(0);
  const volatile uint8_t *at = top - ROOM + OWN;
  int status, is_cleared = 1;
  memset(made.output, 0, sizeof made.output);
  memset(made.key, 0, sizeof made.key);
  paint();
  status = call();
  while (*at == PAINT) at++;
  if ((size_t)(top - at) > deepest) deepest = (size_t)(top - at);
  /* scrypt_hasher_new ends by reading the system's files, and reads no secret. */
  for (; at < top - OWN && call != new_and_freed; at++) is_cleared &= *at == PAINT || *at == 0;
  is_cleared &= !has(at, top, PASSWORD);
  is_cleared &= made.output[0] == 0 || !has(at, top, made.output);
  is_cleared &= made.key[0] == 0 || !has(at, top, made.key);
  check(is_cleared, name);
  check(wanted < 0 || status == wanted, name);
}

/* ---- Each call ---- */

#define CALL(name, arguments) \
  static int each_##name(void) { return name arguments; }
#include "each_call.h"
#undef CALL

/* No key can be derived in so little time, and scrypt_key_thin takes one table. */
static int wanted_of(int (*call)(void)) {
  scrypt_buffers of_one;
  if (call == each_scrypt_calibrate) return SCRYPT_E_TOO_COSTLY;
  if (call != each_scrypt_key_thin) return SCRYPT_OK;
  if (scrypt_buffer_lens(given.log_n, given.r, given.p, 0, &of_one)) exit(3);
  return given.buffers->table_len == of_one.table_len ? SCRYPT_OK : SCRYPT_E_BUFFER_SIZE;
}

/* A derivation that is abandoned, because one that is not freed keeps its memory. */
static int left_and_freed(void) {
  int status = each_scrypt_derivation_new();
  if (status == SCRYPT_OK) status = scrypt_derivation_run(*made.derivation, 0, made.done);
  scrypt_derivation_free(made.derivation);
  return status;
}

static int verify_wrong(void) { return scrypt_verify(SALT, 3, given.text, given.text_len); }
static int no_room(void) {
  return scrypt_hash_with_salt(SECRETS, given.log_n, given.r, given.p, 32, 1, made.text, 2);
}

static const struct {
  const char *name;
  int (*call)(void);
} CALLS[] = {
#define CALL(name, arguments) {#name, each_##name},
#include "each_call.h"
};

static int new_and_freed(void) {
  int status = each_scrypt_hasher_new();
  scrypt_hasher_free(made.hasher);
  return status;
}

/* These two choose their own parameters. */
static void check_call(const char *name, int (*call)(void), int wanted, int is_first) {
#ifndef _WIN32
  size_t from = used, before = blocks;
#endif
  if (call == each_scrypt_derivation_new) call = left_and_freed;
  if (call == each_scrypt_hasher_new) call = new_and_freed;
  if (!is_first && (call == each_scrypt_hash_password || call == each_scrypt_calibrate)) return;
  check_stack(name, call, wanted);
#ifndef _WIN32
  /* One reads files, and the other reads no secret. */
  if (call != each_scrypt_calibrate && call != new_and_freed) check_blocks(name, from, blocks - before);
#endif
}

static void all_calls(uint32_t p, size_t max_tables) {
  static char phc[SCRYPT_PHC_CAPACITY];
  static scrypt_login logins[2];
  char name[100];
  if (scrypt_hash_with_salt(SECRETS, 4, 8, p, 64, 0, phc, sizeof phc) != SCRYPT_OK) exit(3);
  logins[0] = logins[1] = (scrypt_login){PASSWORD, sizeof PASSWORD - 1, phc, strlen(phc)};
  take_arguments(SECRETS, 4, 8, p, 64, max_tables);
  take_text(phc, logins, 2);
  given.of_hasher.max_tables = 2;
  take_hasher();
  for (size_t i = 0; i < sizeof CALLS / sizeof *CALLS; i++) {
    snprintf(name, sizeof name, "%s of %u chunks in %zu tables", CALLS[i].name, p, max_tables);
    check_call(name, CALLS[i].call, wanted_of(CALLS[i].call), p == 1 && max_tables == 1);
  }
  check_call("a wrong password", verify_wrong, SCRYPT_MISMATCH, 0);
  check_call("a text that does not fit", no_room, SCRYPT_E_BUFFER_SIZE, 0);
  free_arguments();
}

TEST(each_number_of_chunks_and_tables) {
  for (uint32_t p = 1; p <= 12; p++)
    for (size_t max_tables = 1; max_tables <= 4; max_tables++) all_calls(p, max_tables);
}

/* ---- Random texts: a hash with a part repeated and some bytes changed ---- */

static char drawn[2 * SCRYPT_PHC_CAPACITY];
static size_t drawn_len;
static uint64_t state = 7914;

static size_t draw(size_t below) {
  state = state * UINT64_C(6364136223846793005) + UINT64_C(1442695040888963407);
  return (size_t)(state >> 33) % below;
}

static void draw_text(const char *text, size_t len) {
  static const char BYTES[] = "$,=.-+/lnrpv0123456789aZ\xff";
  size_t at = draw(len), twice = draw(len - at), changes = draw(4);
  memcpy(drawn, text, at + twice);
  memcpy(drawn + at + twice, text + at, len - at);
  drawn_len = len + twice;
  while (changes-- > 0) drawn[draw(drawn_len)] = BYTES[draw(sizeof BYTES - 1)];
}

static int verify_drawn(void) {
  return scrypt_hasher_verify(given.hasher, PASSWORD, 40, drawn, drawn_len, NULL, -1);
}
static int rehash_drawn(void) { return scrypt_needs_rehash(drawn, drawn_len, 1, 1, 1, 32); }

TEST(drawn_texts) {
  static const char *const TEXTS[] = {
      "$scrypt$ln=4,r=8,p=1,data=0123456789012345678901234567890123456789$c2FsdHNhbHQ$AAAAAAAAAAA",
      "$scrypt$ln=4,r=8,p=1$c2FsdHNhbHQ$AAAAAAAAAAAAAAAAAAAAAA",
      "$7$2/..../....saltsalt$......................"};
  if (scrypt_hasher_new(NULL, &given.hasher) != SCRYPT_OK) exit(3);
  for (int i = 0; i < 2000; i++) {
    draw_text(TEXTS[i % 3], strlen(TEXTS[i % 3]));
    check_stack("scrypt_hasher_verify of a drawn text", verify_drawn, -1);
    check_stack("scrypt_needs_rehash of a drawn text", rehash_drawn, -1);
  }
  scrypt_hasher_free(&given.hasher);
}

#ifndef _WIN32 /* a stack has 64 KiB or more there */
static void *on_thread(void *key) {
  return scrypt_key(SECRETS, 4, 8, 3, (uint8_t *)key, 64) == SCRYPT_OK ? key : NULL;
}

/* A thread whose stack has 8 KiB more, for the system's data. */
TEST(on_a_small_thread) {
  size_t len = SCRYPT_STACK_BYTES + OF_SYSTEM, least = (size_t)PTHREAD_STACK_MIN;
  pthread_attr_t attributes;
  pthread_t thread;
  void *answer = NULL;
  check(pthread_attr_init(&attributes) == 0, "attributes");
  check(pthread_attr_setstacksize(&attributes, len > least ? len : least) == 0, "a stack");
  check(pthread_create(&thread, &attributes, on_thread, made.key) == 0, "a thread");
  check(pthread_join(thread, &answer) == 0 && answer != NULL, "a small thread");
}
#endif

TEST(the_deepest_frame) {
  check(deepest <= SCRYPT_STACK_BYTES, "more of the stack is used than the header says");
  printf("%zu bytes of the stack were used at most\n", deepest);
}
