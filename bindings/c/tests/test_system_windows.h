/* For test_system.c: the promises of windows.c only. Once in a job a process stays in it, so the
 * jobs come last, each within the one before. */

static void while_mapped(void) {}

TEST(affinity) {
  DWORD_PTR before, all, one;
  if (!GetProcessAffinityMask(GetCurrentProcess(), &before, &all)) return;
  one = before & -before;
  check(processors_of_process() == (size_t)__builtin_popcountll(before), "the processors of the affinity");
  check(SetProcessAffinityMask(GetCurrentProcess(), one) != 0 && processors_of_process() == 1, "one processor");
  check(SetProcessAffinityMask(GetCurrentProcess(), before) != 0, "set again");
}

/* Enters a job with a limit. If the system has none, what follows from it isn't tested. */
static int enter(JOBOBJECTINFOCLASS which, void *limit, DWORD size, const char *what) {
  HANDLE job = CreateJobObjectA(NULL, NULL);
  int is_set = job != NULL && SetInformationJobObject(job, which, limit, size) && AssignProcessToJobObject(job, GetCurrentProcess());
  memset(limit, 0, size);
  if (is_set && QueryInformationJobObject(NULL, which, limit, size, NULL)) return 1;
  printf("refused by this system (error %d), so not tested: %s\n", (int)GetLastError(), what);
  return 0;
}

TEST(memory_of_the_machine) {
  MEMORYSTATUSEX status = {.dwLength = sizeof status};
  check(GlobalMemoryStatusEx(&status) && memory_of_process() <= status.ullTotalPhys && memory_of_process() > 0, "the memory there is");
}

TEST(processors_of_a_job) {
  JOBOBJECT_CPU_RATE_CONTROL_INFORMATION rate = {
      .ControlFlags = JOB_OBJECT_CPU_RATE_CONTROL_ENABLE | JOB_OBJECT_CPU_RATE_CONTROL_HARD_CAP};
  size_t all = GetActiveProcessorCount(ALL_PROCESSOR_GROUPS);
  rate.CpuRate = (DWORD)(10000 / all + 1); /* a little more than one processor */
  if (enter(JobObjectCpuRateControlInformation, &rate, sizeof rate, "a job's limit on processors"))
    check(processors_of_process() == (all < 2 ? all : 2), "two processors of a job");
}

TEST(memory_of_a_job) {
  static const size_t BYTES = (size_t)64 << 20; /* less than any machine has */
  JOBOBJECT_EXTENDED_LIMIT_INFORMATION memory = {.JobMemoryLimit = BYTES};
  memory.BasicLimitInformation.LimitFlags = JOB_OBJECT_LIMIT_JOB_MEMORY;
  if (!enter(JobObjectExtendedLimitInformation, &memory, sizeof memory, "a job's limit on memory")) return;
  if (memory.JobMemoryLimit != BYTES) printf("forgotten by this system, so not tested: a job's limit on memory\n");
  else check(memory_of_process() == BYTES, "the memory of a job");
}
