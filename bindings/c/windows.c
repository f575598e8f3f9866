/* Implements system.h for Windows 8 and later, which has no fork. Not proved. */
#include "system.h"

#include <bcrypt.h>

#define NS_OF_SECOND INT64_C(1000000000)
#define NS_OF_MILLISECOND INT64_C(1000000)

/* ---- Threads, and time ---- */

int64_t now_ns(void) {
  LARGE_INTEGER now, each_second;
  (void)QueryPerformanceCounter(&now);
  (void)QueryPerformanceFrequency(&each_second);
  return now.QuadPart / each_second.QuadPart * NS_OF_SECOND +
         now.QuadPart % each_second.QuadPart * NS_OF_SECOND / each_second.QuadPart;
}

/* A sleep ends with a tick of the system: 64 in a second, unless the process asks for more. */
int can_sleep_briefly(void) { return 0; }

void mutex_lock(mutex *lock) { AcquireSRWLockExclusive(lock); }

void mutex_unlock(mutex *lock) { ReleaseSRWLockExclusive(lock); }

/* For 1 ms to a day, in whole milliseconds: with 0 a thread would spin. */
void condition_wait(condition *changed, mutex *lock, int64_t deadline_ns) {
  int64_t day = 86400000;
  int64_t ms = deadline_ns == NO_DEADLINE ? day : (deadline_ns - now_ns()) / NS_OF_MILLISECOND + 1;
  (void)SleepConditionVariableSRW(changed, lock, (DWORD)(ms < 1 ? 1 : ms > day ? day : ms), 0);
}

void condition_signal(condition *changed) { WakeConditionVariable(changed); }

void yield_processor(void) { (void)SwitchToThread(); }

/* ---- Memory ---- */

/* The system commits all of it now, so that no write can fail; each page is taken at its first
 * use. */
void *map_zeros(size_t size) {
  return VirtualAlloc(NULL, size, MEM_RESERVE | MEM_COMMIT, PAGE_READWRITE);
}

int unmap(void *at, size_t size) { return (void)size, VirtualFree(at, 0, MEM_RELEASE) != 0; }

int wipe_on_fork(void *at, size_t size) { return (void)at, (void)size, 0; }

int drop_on_fork(void *at, size_t size) { return (void)at, (void)size, 0; }

/* Large pages need the privilege to lock memory, and are locked. */
void advise_huge_pages(void *at, size_t size) { (void)at, (void)size; }

int is_resident(void *page) { return (void)page, 0; }

void prefault(void *at, size_t size) { (void)at, (void)size; }

/* ---- The rest ---- */

int random_bytes(uint8_t *bytes, size_t len) {
  while (len > 0) {
    ULONG some = len < (1 << 30) ? (ULONG)len : 1 << 30;
    if (BCryptGenRandom(NULL, bytes, some, BCRYPT_USE_SYSTEM_PREFERRED_RNG) != 0) return 0;
    bytes += some;
    len -= some;
  }
  return 1;
}

static size_t all_processors(void) { return GetActiveProcessorCount(ALL_PROCESSOR_GROUPS); }

/* The processors of its affinity. A mask is for one group of up to 64 processors; a process in
 * several groups may use all of them. */
static size_t processors_of_affinity(void) {
  USHORT groups[64] = {0}, count = sizeof groups / sizeof *groups;
  DWORD_PTR of_process, of_system;
  size_t all = 0, i;
  if (GetActiveProcessorGroupCount() == 1) count = 1;
  else if (!GetProcessGroupAffinity(GetCurrentProcess(), &count, groups)) return all_processors();
  if (count == 1 && GetProcessAffinityMask(GetCurrentProcess(), &of_process, &of_system) &&
      of_process != 0)
    return (size_t)__builtin_popcountll(of_process);
  for (i = 0; i < count; i++) all += GetActiveProcessorCount(groups[i]);
  return all;
}

/* The limits of the job of this process, or of its container; outer jobs cannot be queried. */
static int is_in_job(JOBOBJECTINFOCLASS which, void *limits, DWORD size) {
  return QueryInformationJobObject(NULL, which, limits, size, NULL) != 0;
}

/* In parts of 10,000 of all processors. Older headers don't have MaxRate, in the upper half of
 * CpuRate. */
#define MIN_MAX_RATE 0x10
static size_t quota_of_job(void) {
  JOBOBJECT_CPU_RATE_CONTROL_INFORMATION rate = {0};
  size_t parts = 0;
  if (!is_in_job(JobObjectCpuRateControlInformation, &rate, sizeof rate)) return SIZE_MAX;
  if (!(rate.ControlFlags & JOB_OBJECT_CPU_RATE_CONTROL_ENABLE)) return SIZE_MAX;
  if (rate.ControlFlags & MIN_MAX_RATE) parts = rate.CpuRate >> 16;
  else if (rate.ControlFlags & JOB_OBJECT_CPU_RATE_CONTROL_HARD_CAP) parts = rate.CpuRate;
  return parts == 0 ? SIZE_MAX : (parts * all_processors() + 9999) / 10000;
}

size_t processors_of_process(void) {
  size_t count = processors_of_affinity(), quota = quota_of_job();
  if (quota < count) count = quota;
  return count > 0 ? count : 1;
}

/* Also limited by the memory that the system could commit. */
size_t memory_of_process(void) {
  MEMORYSTATUSEX status = {.dwLength = sizeof status};
  JOBOBJECT_EXTENDED_LIMIT_INFORMATION job = {0};
  size_t least = SIZE_MAX;
  DWORD flags;
  if (GlobalMemoryStatusEx(&status)) {
    least = status.ullTotalPhys;
    if (status.ullTotalPageFile < least) least = status.ullTotalPageFile;
  }
  if (!is_in_job(JobObjectExtendedLimitInformation, &job, sizeof job)) return least;
  flags = job.BasicLimitInformation.LimitFlags;
  if ((flags & JOB_OBJECT_LIMIT_PROCESS_MEMORY) && job.ProcessMemoryLimit < least)
    least = job.ProcessMemoryLimit;
  if ((flags & JOB_OBJECT_LIMIT_JOB_MEMORY) && job.JobMemoryLimit < least)
    least = job.JobMemoryLimit;
  return least;
}
