/* Wipes the stack that proved code used (SECURITY.md, row "freed memory"), and says which level of the processor
 * its code is for. Not proved. The object that rust/build.sh makes contains each proved call as proved_..,
 * and chooses the code when it runs. */
#include "groups.h"

#include <string.h>

/* The levels, the lowest first, each with the number of interleaved chunks that is fastest
 * (docs/DECISIONS.md). */
static const struct {
  const char *version;
  size_t pays;
} LEVELS[] = {
#ifdef __x86_64__
    {LIBRARY_VERSION " x86-64", 3},
    {LIBRARY_VERSION " x86-64-avx2", 4},
    {LIBRARY_VERSION " x86-64-avx512vl", 4},
#elif defined __aarch64__
    {LIBRARY_VERSION " arm64", 4},
#else /* big-endian, in tests */
    {LIBRARY_VERSION " s390x", 1},
#endif
};
/* A batch has an array of this size for each login. */
#if SCRYPT_MAX_LOGINS < 4
#error "a level has more tables than SCRYPT_MAX_LOGINS"
#endif

uint8_t proved_level(void);
uint8_t proved_force_level(uint8_t level);
#ifdef FORCED_LEVEL /* in tests */
__attribute__((constructor)) static void force(void) { proved_force_level(FORCED_LEVEL); }
#endif
const char *scrypt_version(void) { return LEVELS[proved_level()].version; }
size_t max_interleave(void) { return LEVELS[proved_level()].pays; }

/* BELOW is more stack than any proved call uses (tests/test_clearing.c). The frames of a proved
 * call begin APART bytes below the frame of clear_stack, so that they are wiped, whatever the
 * compiler puts into the frames here. */
enum { BELOW = 12800, APART = 256 };
#define KEEP(array) __asm__ volatile("" ::"r"(array) : "memory")
#if __has_attribute(zero_call_used_regs)
#define CLEARS __attribute__((noinline, no_stack_protector, zero_call_used_regs("all")))
#else
#define CLEARS __attribute__((noinline, no_stack_protector))
#endif

/* A dynamic linker that binds the next call of a program saves the registers on the stack
 * (tests/test_registers.c). The attribute does not clear xmm16 to xmm31, which the system's memcpy
 * uses, nor the upper halves of the others, which the compilers clear after each use. */
static void clear_registers(void) {
#ifdef __x86_64__
  if (__builtin_cpu_supports("avx512vl"))
    __asm__ volatile(".irp n, 16,17,18,19,20,21,22,23,24,25,26,27,28,29,30,31\n"
                     "vpxord %xmm\\n, %xmm\\n, %xmm\\n\n .endr");
#endif
}

/* Does not call memset, whose return address would be below. */
CLEARS static void clear_stack(void) {
  volatile uint64_t below[(BELOW + APART) / sizeof(uint64_t)];
  for (size_t i = sizeof below / sizeof *below; i-- > 0;) below[i] = 0;
}

#undef PROVED_CALL
#undef PROVED_PROCEDURE
#define PROVED_CALL(name, parameters, arguments)                 \
  int proved_##name parameters;                                  \
  __attribute__((noinline)) static int apart_##name parameters { \
    uint8_t apart[APART];                                        \
    int status;                                                  \
    KEEP(apart);                                                 \
    status = proved_##name arguments;                            \
    KEEP(apart);                                                 \
    return status;                                               \
  }                                                              \
  CLEARS int cleared_##name parameters {                         \
    int status = apart_##name arguments;                         \
    clear_registers();                                           \
    clear_stack();                                               \
    return status;                                               \
  }
#define PROVED_PROCEDURE(name, parameters, arguments)             \
  void proved_##name parameters;                                  \
  __attribute__((noinline)) static void apart_##name parameters { \
    uint8_t apart[APART];                                         \
    KEEP(apart);                                                  \
    proved_##name arguments;                                      \
    KEEP(apart);                                                  \
  }                                                               \
  CLEARS void cleared_##name parameters {                         \
    apart_##name arguments;                                       \
    clear_registers();                                            \
    clear_stack();                                                \
  }
#include "proved_calls.h"
