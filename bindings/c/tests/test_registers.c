/* What a call leaves in registers: a dynamic linker that binds the next call of a program saves
 * them on the stack, where they stay. Each number of tables leaves others. Linked with -z lazy. */
#include "arguments.h"
#include "test.h"

#include <unistd.h>

enum { OF_LINKER = 8192, WORD = 2 };

/* Calls a function of the system for the first time. */
__attribute__((noinline)) static long bind_next(size_t tables) {
  switch (tables) {
    case 1: return getpid();
    case 2: return getppid();
    case 3: return (long)getuid();
    default: return (long)getgid();
  }
}

/* The number of words of the table below the caller's frame. */
__attribute__((noinline)) static size_t words_of_table(void) {
  const volatile uint64_t *at, *top = __builtin_frame_address(0);
  const scrypt_buffers *in = given.buffers;
  size_t found = 0;
  for (at = top - OF_LINKER / sizeof *at; at < top; at++) {
    const uint64_t word = *at;
    size_t i = 0;
    for (; i + WORD <= in->table_len && memcmp(in->table + i, &word, sizeof word) != 0; i++) continue;
    found += i + WORD <= in->table_len;
  }
  return found;
}

TEST(each_number_of_tables) {
  for (size_t tables = 1; tables <= 4; tables++) {
    char name[60];
    take_arguments("password", 8, "salt", 4, 6, 8, (uint32_t)tables, 64, tables);
    check(scrypt_key_with_buffers(given.password, given.password_len, given.salt, given.salt_len, given.log_n, given.r,
                                  given.p, made.output, given.output_len, given.buffers) == SCRYPT_OK, "a key");
    bind_next(tables);
    snprintf(name, sizeof name, "no word of a table stays, of %zu tables", tables);
    check(words_of_table() == 0, name);
    free_arguments();
  }
}
