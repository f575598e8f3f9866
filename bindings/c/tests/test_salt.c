/* scrypt_generate_salt fills exactly the given bytes, with different ones each time, and
 * scrypt_hash_password takes such a salt. Both report a failing system call. */
#define _DEFAULT_SOURCE
#include "scrypt_c.h"
#include "test.h"

#include <stddef.h>
#include <string.h>

TEST(drawn) {
  uint8_t one[18] = {0}, other[18] = {0}, none = 7;
  check(scrypt_generate_salt(one + 1, 16) == SCRYPT_OK && scrypt_generate_salt(other + 1, 16) == SCRYPT_OK, "drawn");
  check(memcmp(one + 1, other + 1, 16) != 0, "two salts differ");
  check(one[0] == 0 && one[17] == 0, "the bytes before and after the salt");
  check(scrypt_generate_salt(&none, 0) == SCRYPT_OK && none == 7, "a salt of no bytes");
}

/* More than the system gives in one call that a signal may interrupt. */
TEST(many) {
  static uint8_t large[100000];
  size_t zeros = 0;
  check(scrypt_generate_salt(large, sizeof large) == SCRYPT_OK, "many bytes");
  for (size_t i = 0; i < sizeof large; i++) zeros += large[i] == 0;
  check(zeros > 200 && zeros < 600, "one byte in 256 is zero");
}

/* Hashes with a drawn salt and the recommended parameters. */
TEST(new_hashes) {
  char text[SCRYPT_HASH_CAPACITY + 1], other[SCRYPT_HASH_CAPACITY];
  memset(text, '!', sizeof text);
  check(scrypt_hash_password("pw", 2, text, SCRYPT_HASH_CAPACITY - 1) == SCRYPT_E_BUFFER_SIZE, "a byte too few");
  check(scrypt_hash_password("pw", 2, NULL, 0) == SCRYPT_E_BUFFER_SIZE && text[0] == '!', "no text, and no capacity");
  check(scrypt_hash_password(NULL, 0, text, SCRYPT_HASH_CAPACITY) == SCRYPT_OK, "the empty password");
  check(strlen(text) == SCRYPT_HASH_CAPACITY - 1 && text[SCRYPT_HASH_CAPACITY] == '!', "the length of its text");
  check(scrypt_needs_rehash(text, strlen(text), SCRYPT_RECOMMENDED_LOG_N, SCRYPT_RECOMMENDED_R, SCRYPT_RECOMMENDED_P,
                            SCRYPT_KEY_LEN) == SCRYPT_OK, "the recommended parameters");
  check(scrypt_hash_password("", 0, other, sizeof other) == SCRYPT_OK && strcmp(text, other) != 0, "another salt");
  check(scrypt_verify("", 0, other, strlen(other)) == SCRYPT_OK, "its password");
}

#ifndef _WIN32 /* it cannot be made to fail there */

#include <errno.h>
#include <linux/filter.h>
#include <linux/seccomp.h>
#include <sys/prctl.h>
#include <sys/syscall.h>

/* In a child whose system call fails. */
static int refused(void) {
  struct sock_filter filter[] = {
      BPF_STMT(BPF_LD | BPF_W | BPF_ABS, offsetof(struct seccomp_data, nr)),
      BPF_JUMP(BPF_JMP | BPF_JEQ | BPF_K, SYS_getrandom, 0, 1),
      BPF_STMT(BPF_RET | BPF_K, SECCOMP_RET_ERRNO | ENOSYS),
      BPF_STMT(BPF_RET | BPF_K, SECCOMP_RET_ALLOW),
  };
  struct sock_fprog program = {sizeof filter / sizeof filter[0], filter};
  uint8_t salt[16];
  char text[SCRYPT_HASH_CAPACITY] = "!";
  if (prctl(PR_SET_NO_NEW_PRIVS, 1, 0, 0, 0) != 0) return 2;
  if (prctl(PR_SET_SECCOMP, SECCOMP_MODE_FILTER, &program) != 0) return 3;
  if (scrypt_generate_salt(salt, sizeof salt) != SCRYPT_E_NO_RANDOM_BYTES) return 4;
  return scrypt_hash_password("pw", 2, text, sizeof text) == SCRYPT_E_NO_RANDOM_BYTES && text[0] == '!' ? 0 : 5;
}

TEST(refused_by_the_system) { in_a_child(refused, "a system without random bytes"); }

#endif
