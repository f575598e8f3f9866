/* The options of a hasher, and what follows from them. */
#ifndef OPTIONS_H
#define OPTIONS_H

#include "groups.h"

/* Writes the options, or the defaults if NULL, with SCRYPT_AUTO replaced by values, and the cost of a
 * new hash. Returns the errors of scrypt_hasher_new. */
int complete_options(const scrypt_options *options, scrypt_options *completed, scrypt_cost *cost);

/* The number of slots. */
size_t slots_of(const scrypt_options *options);

/* The number of tables of a slot: the last slots have one more if they cannot all have the same. */
size_t width_of_slot(const scrypt_options *options, size_t slots, size_t place);

#endif
