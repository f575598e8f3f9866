/* Implements system.h for Linux. Not proved. */
#define _GNU_SOURCE
#include "system.h"

#include <errno.h>
#include <linux/futex.h>
#include <sched.h>
#include <stdio.h>
#include <string.h>
#include <sys/mman.h>
#include <sys/syscall.h>
#include <time.h>
#include <unistd.h>

#define NS_OF_SECOND INT64_C(1000000000)

/* ---- Threads, and time ---- */

int64_t now_ns(void) {
  struct timespec now;
  (void)clock_gettime(CLOCK_MONOTONIC, &now);
  return (int64_t)now.tv_sec * NS_OF_SECOND + now.tv_nsec;
}

int can_sleep_briefly(void) { return 1; }

void mutex_lock(mutex *lock) { (void)pthread_mutex_lock(lock); }

void mutex_unlock(mutex *lock) { (void)pthread_mutex_unlock(lock); }

/* A futex instead of pthread_cond_t, which needs glibc 2.34 to wait by the monotonic clock, and is
 * a cancellation point. */
void condition_wait(condition *changed, mutex *lock, int64_t deadline_ns) {
  const struct timespec deadline = {.tv_sec = (time_t)(deadline_ns / NS_OF_SECOND),
                                    .tv_nsec = (long)(deadline_ns % NS_OF_SECOND)};
  uint32_t signals = changed->signals;
  mutex_unlock(lock);
  (void)syscall(SYS_futex, &changed->signals, FUTEX_WAIT_BITSET_PRIVATE, signals,
                deadline_ns == NO_DEADLINE ? NULL : &deadline, NULL, FUTEX_BITSET_MATCH_ANY);
  mutex_lock(lock);
}

void condition_signal(condition *changed) {
  changed->signals++;
  (void)syscall(SYS_futex, &changed->signals, FUTEX_WAKE_PRIVATE, 1);
}

void yield_processor(void) { (void)sched_yield(); }

/* ---- Memory ---- */

void *map_zeros(size_t size) {
  void *mapping = mmap(NULL, size, PROT_READ | PROT_WRITE, MAP_ANONYMOUS | MAP_PRIVATE, -1, 0);
  return mapping == MAP_FAILED ? NULL : mapping;
}

int unmap(void *at, size_t size) { return munmap(at, size) == 0; }

/* Linux before 4.14 doesn't support it. At the maximum number of mappings of a process it has no
 * memory for it, which madvise(2) reports as EAGAIN or ENOMEM. */
int wipe_on_fork(void *at, size_t size) {
  if (madvise(at, size, MADV_WIPEONFORK) == 0) return 1;
  return errno == EAGAIN || errno == ENOMEM ? -1 : 0;
}

int drop_on_fork(void *at, size_t size) { return madvise(at, size, MADV_DONTFORK) == 0; }

void advise_huge_pages(void *at, size_t size) { (void)madvise(at, size, MADV_HUGEPAGE); }

int is_resident(void *page) {
  unsigned char is_there = 0;
  return mincore(page, 1, &is_there) == 0 && (is_there & 1) != 0;
}

void prefault(void *at, size_t size) {
#ifdef MADV_POPULATE_WRITE
  (void)madvise(at, size, MADV_POPULATE_WRITE);
#else
  (void)at, (void)size; /* with an older header */
#endif
}

/* ---- The rest ---- */

int random_bytes(uint8_t *bytes, size_t len) {
  size_t done = 0;
  while (done < len) {
    long drawn = syscall(SYS_getrandom, bytes + done, len - done, 0);
    if (drawn < 0 && errno == EINTR) continue;
    if (drawn <= 0) return 0;
    done += (size_t)drawn;
  }
  return 1;
}

#ifndef ROOT /* tests define another value */
#define ROOT ""
#endif

/* The limit in a file of a control group, which may be "max" or, in version 1, -1; SIZE_MAX if
 * there is no limit. A quota is rounded up to processors. */
static size_t limit_of(const char *folder, const char *name, const char *period_name) {
  char path[1024];
  long number = 0, period = 0;
  FILE *file;
  int len = snprintf(path, sizeof path, ROOT "/sys/fs/cgroup/%s/%s", folder, name);
  if (len >= (int)sizeof path) return SIZE_MAX;
  file = fopen(path, "re");
  if (file == NULL) return SIZE_MAX;
  if (fscanf(file, "%ld %ld", &number, &period) < 1) number = 0;
  (void)fclose(file);
  if (number <= 0) return SIZE_MAX;
  if (period_name != NULL) period = (long)limit_of(folder, period_name, NULL);
  return period > 0 ? (size_t)((number - 1) / period + 1) : (size_t)number;
}

static size_t least(size_t one, size_t other) { return one < other ? one : other; }

/* Writes the path of this process's control group, or "". The file has "NUMBER:CONTROLLERS:PATH" for
 * each hierarchy, without controllers for that of version 2. */
static void find_group(const char *controller, char *group, size_t size) {
  char line[1024], wanted[16];
  FILE *file = fopen(ROOT "/proc/self/cgroup", "re");
  (void)snprintf(wanted, sizeof wanted, ",%s,", controller);
  group[0] = '\0';
  while (file != NULL && fgets(line, sizeof line, file) != NULL) {
    char *names = strchr(line, ':'), *path = names != NULL ? strchr(names + 1, ':') : NULL, *found;
    if (path == NULL) continue;
    *names = *path = ',';
    found = strstr(names, wanted);
    if (found != NULL && found < path)
      (void)snprintf(group, size, "%.*s", (int)strcspn(path + 1, "\n"), path + 1);
  }
  if (file != NULL) (void)fclose(file);
}

/* The minimum of the limits of this process's control group and of its ancestors, for a controller of
 * version 1, or "" in version 2. In a container the path may be the host's; then the mounted group is
 * the container's. */
static size_t min_of_groups(const char *controller, const char *name, const char *period_name) {
  char folder[1100], *path = folder + strlen(controller), *slash;
  size_t most = limit_of(controller, name, period_name);
  (void)snprintf(folder, sizeof folder, "%s", controller);
  find_group(controller, path, sizeof folder - strlen(controller));
  for (; (slash = strrchr(path, '/')) != NULL; *slash = '\0')
    most = least(most, limit_of(folder, name, period_name));
  return most;
}

size_t processors_of_process(void) {
  size_t of_version_1 = min_of_groups("cpu", "cpu.cfs_quota_us", "cpu.cfs_period_us"), count = 0;
  size_t quota = least(min_of_groups("", "cpu.max", NULL), of_version_1);
  cpu_set_t set;
  if (sched_getaffinity(0, sizeof set, &set) == 0) count = (size_t)CPU_COUNT(&set);
  else if (sysconf(_SC_NPROCESSORS_ONLN) > 0) count = (size_t)sysconf(_SC_NPROCESSORS_ONLN);
  count = least(count, quota);
  return count > 0 ? count : 1;
}

size_t memory_of_process(void) {
  size_t most = least(min_of_groups("", "memory.max", NULL), min_of_groups("", "memory.high", NULL));
  long pages = sysconf(_SC_PHYS_PAGES);
  most = least(most, min_of_groups("memory", "memory.limit_in_bytes", NULL));
  if (pages > 0) most = least(most, (size_t)pages * (size_t)sysconf(_SC_PAGESIZE));
  return most;
}
