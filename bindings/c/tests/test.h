/* A program of tests, each written as `TEST(name) { .. }`: main runs them in their order. */
#ifndef TEST_H
#define TEST_H

#include "check.h"

#ifndef _WIN32
#include <sys/wait.h>
#include <unistd.h>

/* Checks that a test, which may change its process, returns 0 in a child. */
static inline void in_a_child(int (*test)(void), const char *name) {
  int status = -1;
  pid_t child = fork();
  if (child == 0) _exit(test());
  check(child > 0 && waitpid(child, &status, 0) == child && WIFEXITED(status) && WEXITSTATUS(status) == 0, name);
}
#endif

static struct test {
  const char *name;
  void (*run)(void);
} tests[64];

#define TEST(name)                                                                                               \
  static void name(void);                                                                                        \
  __attribute__((constructor)) static void add_##name(void) { tests[__COUNTER__] = (struct test){#name, name}; } \
  static void name(void)

#ifndef AFTER_EACH
#define AFTER_EACH()
#endif

static const char *argument; /* of the program, or NULL */

/* Prints the names, so that the last one is that of a test which fails or hangs. */
int main(int count, char **words) {
  int any_ran = 0, any_failed = 0;
  argument = count > 1 ? words[1] : NULL;
  for (size_t i = 0; i < sizeof tests / sizeof *tests; i++) {
    if (tests[i].run == NULL) continue; /* a header may use __COUNTER__ too */
    puts(tests[i].name);
    (void)fflush(stdout);
    failed = 0; /* also for the children of the next test */
    tests[i].run();
    AFTER_EACH();
    any_ran = 1;
    any_failed |= failed;
  }
  return any_failed || !any_ran;
}

#endif
