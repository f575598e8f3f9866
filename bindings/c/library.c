/* The library in one translation unit, so that only the calls of the header are seen from outside.
 * _FORTIFY_SOURCE is off, because it replaces snprintf by a function that musl doesn't have. */
#undef _FORTIFY_SOURCE
#define _GNU_SOURCE
#include "calls.c"
#include "salt.c"
#include "status.c"
#include "hasher.c"
#include "options.c"
#include "calibrate.c"
#include "blocks.c"
#include "steps.c"
#include "clearing.c"
#ifdef _WIN32
#include "windows.c"
#else
#include "linux.c"
#endif
