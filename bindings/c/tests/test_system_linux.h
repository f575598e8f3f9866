/* For test_system.c: the promises of linux.c only. */
#ifndef ROOT
#error "it needs ROOT, a folder of this test in which linux.c looks for files"
#endif

/* ---- Memory ---- */

/* In a child, which the first thread has forked. */
static int child_finds_zeros(void) {
  check(is_all(7, mapped[0], LEN), "a child has a copy");
  check(is_all(0, mapped[1], LEN), "a child finds zeros");
  check(is_all(7, mapped[2], LEN / 2) && is_all(0, mapped[2] + LEN / 2, LEN / 2), "also in a part");
  check(madvise(mapped[3], LEN, MADV_NORMAL) != 0 && errno == ENOMEM, "or nothing at all");
  return failed;
}

static void while_mapped(void) {
  for (int i = 0; i < 4; i++) check(is_resident(mapped[i]), "what was written is in memory");
  in_a_child(child_finds_zeros, "a child");
}

/* ---- Random bytes ---- */

TEST(random_bytes_in_pieces) {
  uint8_t bytes[24] = {0};
  max_drawn = 5;
  check(random_bytes(bytes, 16) && draws == 8, "16 bytes, by fives");
  check(is_all(0, bytes + 16, 8), "no byte behind them");
  max_drawn = 0;
  check(!random_bytes(bytes, 16), "none at all");
  max_drawn = SIZE_MAX;
}

/* ---- Control groups ---- */

/* Files of control groups in the folder of this test, instead of the system's. */
static void set_group(const char *line, const char *folder, const char *file) {
  char command[1024];
  snprintf(command, sizeof command,
           "set -e; rm -rf '%s'; g='%s/sys/fs/cgroup%s'; mkdir -p '%s/proc/self' \"$g\"; "
           "printf '%s\n' > '%s/proc/self/cgroup'; "
           "set -- %s; echo \"$2 $3\" > \"$g/$1\"; echo \"${3:-100000}\" > \"$g/cpu.cfs_period_us\"",
           ROOT, ROOT, folder, ROOT, line, ROOT, file);
  check(system(command) == 0, "a control group");
}

TEST(processors_of_groups) {
  static const struct {
    const char *line, *folder, *quota;
    size_t count;
  } GROUPS[] = {{"0::/a/b", "/a/b", "cpu.max max 100000", 64},
                {"0::/a/b", "/a/b", "cpu.max 250000 100000", 3},
                {"0::/a/b", "/a", "cpu.max 100000 100000", 1}, /* a group around it */
                {"0::/x/y", "", "cpu.max 200000 100000", 2},   /* in a container, with the path of the host */
                {"0::/", "", "cpu.max 1000 100000", 1},
                {"0::/", "", "cpu.max", 64},
                {"0::/", "", "cpu.max 200000 0", 64},
                {"4:cpu:/a", "/cpu", "cpu.cfs_quota_us 2 0", 2},
                {"no colon\none:colon\n0::/a", "/a", "cpu.max 100000 100000", 1},
                {"4:cpu,cpuacct:/a", "/cpu", "cpu.cfs_quota_us -1", 64},
                {"9:memory:/m\n4:cpu,cpuacct:/a", "/cpu", "cpu.cfs_quota_us 150000", 2}, /* of version 1, in a container */
                {"4:cpuacct,cpu:/a/b\n0::/x", "/cpu/a/b", "cpu.cfs_quota_us 150000", 2}, /* and outside of one */
                {"4:cpuset:/a\n5:memory:/,cpu,", "/cpu/a", "cpu.cfs_quota_us 150000", 64}}; /* of other controllers */
  cpu_set_t set;
  size_t all = sched_getaffinity(0, sizeof set, &set) == 0 ? (size_t)CPU_COUNT(&set) : 1;
  for (size_t i = 0; i < sizeof GROUPS / sizeof *GROUPS; i++) {
    set_group(GROUPS[i].line, GROUPS[i].folder, GROUPS[i].quota);
    check(processors_of_process() == least(GROUPS[i].count, all), GROUPS[i].quota);
  }
}

TEST(memory_of_groups) {
  static const struct {
    const char *line, *folder, *most;
    size_t bytes;
  } GROUPS[] = {{"0::/a", "/a", "memory.max max", SIZE_MAX},
                {"0::/a", "/a", "memory.max 1073741824", (size_t)1 << 30},
                {"0::/a", "", "memory.high 1073741824", (size_t)1 << 30}, /* a group around it */
                {"0::/a", "/a", "memory.max 1000", 1000},
                {"9:memory:/m\n4:cpu:/a", "/memory", "memory.limit_in_bytes 1073741824", (size_t)1 << 30},
                {"0::/x\n9:memory:/a/b", "/memory/a", "memory.limit_in_bytes 1000000", 1000000}, /* around it */
                {"8:cpu:/a\n9:memory:/m", "/memory/a", "memory.limit_in_bytes 1000000", SIZE_MAX}, /* of others */
                {"9:memory:/m", "/memory", "memory.limit_in_bytes 9223372036854771712", SIZE_MAX}};
  size_t all = (size_t)sysconf(_SC_PHYS_PAGES) * (size_t)sysconf(_SC_PAGESIZE);
  for (size_t i = 0; i < sizeof GROUPS / sizeof *GROUPS; i++) {
    set_group(GROUPS[i].line, GROUPS[i].folder, GROUPS[i].most);
    check(memory_of_process() == least(GROUPS[i].bytes, all), GROUPS[i].most);
  }
}
