/* Preloaded into a program: allocation number FAIL_AT fails, counted from 1 over malloc and realloc, and no random
   bytes are available. If SIZES is set, the size of each allocation, and each draw of random bytes, is printed on
   standard error. */
#include <stdio.h>
#include <stdlib.h>
#include <unistd.h>

void *__libc_malloc(size_t size);
void *__libc_realloc(void *block, size_t size);

static long count;

static int fails(const char *name, size_t size) {
  const char *at = getenv("FAIL_AT");
  count++;
  if (getenv("SIZES")) {
    char line[64];
    ssize_t written = write(2, line, (size_t)snprintf(line, sizeof line, "%s %zu\n", name, size));
    (void)written;
  }
  return at && atol(at) == count;
}

void *malloc(size_t size) { return fails("malloc", size) ? NULL : __libc_malloc(size); }

void *realloc(void *block, size_t size) { return fails("realloc", size) ? NULL : __libc_realloc(block, size); }

int getentropy(void *buffer, size_t length) {
  static const char drawn[] = "drawn\n";
  if (getenv("SIZES")) {
    ssize_t written = write(2, drawn, sizeof drawn - 1);
    (void)written;
  }
  return buffer && length ? -1 : 0;
}
