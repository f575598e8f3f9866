/* The library's interface to the system: linux.c implements it for Linux, and windows.c for
 * Windows. Except for these types, no other file depends on the system. Define _GNU_SOURCE before
 * including this file. */
#ifndef SYSTEM_H
#define SYSTEM_H

#include <stddef.h>
#include <stdint.h>

#ifdef _WIN32
#define WIN32_LEAN_AND_MEAN
#include <windows.h>
typedef SRWLOCK mutex;
typedef CONDITION_VARIABLE condition;
#else
#include <pthread.h>
typedef pthread_mutex_t mutex; /* PTHREAD_MUTEX_INITIALIZER is zeros in the C libraries of Linux */
typedef struct {
  uint32_t signals; /* changes with the mutex */
} condition;
#endif

/* ---- Threads, and time ---- */

#define NO_DEADLINE INT64_MAX

/* From a monotonic clock. */
int64_t now_ns(void);

/* Whether a sleep ends less than a millisecond late. */
int can_sleep_briefly(void);

/* The initial state of a mutex and of a condition is all zeros. */
void mutex_lock(mutex *lock);
void mutex_unlock(mutex *lock);

/* Unlocks the mutex until a signal or until a time of the clock; may wake spuriously. Not a
 * cancellation point. Only one thread may wait for a condition, and the signalling thread must hold
 * the mutex. */
void condition_wait(condition *changed, mutex *lock, int64_t deadline_ns);
void condition_signal(condition *changed);

/* Yields the processor to threads that are ready. */
void yield_processor(void);

/* ---- Memory ---- */

#define HUGE_PAGE ((size_t)2 << 20)

/* On processors other than x86-64, pages can have 16 or 64 KiB, depending on the kernel. */
#ifdef __x86_64__
#define LARGEST_PAGE ((size_t)4 << 10)
#else
#define LARGEST_PAGE ((size_t)64 << 10)
#endif

/* Zeroed memory, or NULL. */
void *map_zeros(size_t size);

/* Unmaps the whole mapping. Returns 0 if that fails. */
int unmap(void *at, size_t size);

/* In a forked child the memory will be zeros. Returns 1; or 0 if the system doesn't support this, and
 * -1 if it has no memory for it: then it will be a copy. */
int wipe_on_fork(void *at, size_t size);

/* In a forked child the memory will not be mapped. Returns 0 if that fails. */
int drop_on_fork(void *at, size_t size);

/* A hint, which may have no effect. */
void advise_huge_pages(void *at, size_t size);

/* Whether a page is in memory, as far as the system knows. */
int is_resident(void *page);

/* Prefaults pages in one call, which saves time if they are small; may do nothing. */
void prefault(void *at, size_t size);

/* ---- The rest ---- */

/* Writes random bytes. Returns 0 if the system has none. */
int random_bytes(uint8_t *bytes, size_t len);

/* The number of processors that this process may use: by its affinity, limited by the quota of its
 * control group or job, rounded up; 1 or more. */
size_t processors_of_process(void);

/* The number of bytes of memory that this process may have: the machine's, limited by its control
 * group or job. */
size_t memory_of_process(void);

#endif
