/* For the tests of the hasher on Windows, which has no forks and no signals. */
#include <pthread.h>
#include <stdio.h>
#include <stdlib.h>
#include <string.h>
#include <time.h>

#define _exit(status) ExitProcess((UINT)(status))

/* No sleep is shorter than a millisecond. */
typedef unsigned useconds_t;
#define usleep(us) Sleep((DWORD)(((us) + 999) / 1000))

static inline int rand_r(unsigned *seed) { return (int)((*seed = *seed * 1103515245 + 12345) >> 16 & 0x7fff); }
