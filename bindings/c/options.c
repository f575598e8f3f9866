/* The options of a hasher, and what follows from them. Not proved. */
#define _GNU_SOURCE
#include "options.h"

#include "system.h"

#define MAX_SLOTS 8192 /* the maximum number of processors of Linux */
#define MAX_WAITING 1000

#define CHOOSE(field, value) \
  if (completed->field == SCRYPT_AUTO) completed->field = (value)

#define LEFT_FREE 8 /* one part in 8 of the memory is left to the program, in JavaScript too */

static size_t usable_memory(void) {
  size_t memory = memory_of_process();
  return memory - memory / LEFT_FREE;
}

/* The limit, or 7/8 of the memory if that is less, as in a small container, but no less than a new
 * hash needs. */
static size_t default_max_mem(size_t limit, const scrypt_cost *new) {
  size_t usable = usable_memory();
  size_t most = limit < usable ? limit : usable;
  return most > new->bytes ? most : (size_t)new->bytes;
}

/* Two tables for each processor, or the number that fits into 7/8 of the memory if that is less:
 * tables of the maximum size or, if none of that size fits, tables of new hashes. */
static size_t default_max_tables(const scrypt_options *options, const scrypt_cost *new) {
  size_t usable = usable_memory();
  size_t fit = usable / options->max_mem;
  size_t two = 2 * (options->processors < MAX_SLOTS ? options->processors : MAX_SLOTS);
  if (fit == 0) fit = usable / new->bytes;
  return fit == 0 ? 1 : fit < two ? fit : two;
}

/* Writes the fields of this version. One that adds a field gives the name to another symbol, in its
 * header, so that programs for this version get no more than they have room for. */
void scrypt_options_init(scrypt_options *options) {
  if (options == NULL) return;
  *options = (scrypt_options){
      .size = sizeof *options,
      .log_n = SCRYPT_RECOMMENDED_LOG_N,
      .r = SCRYPT_RECOMMENDED_R,
      .p = SCRYPT_RECOMMENDED_P,
      .key_len = SCRYPT_KEY_LEN,
      .salt_len = SCRYPT_SALT_LEN,
      .max_mem = SCRYPT_AUTO,
      .max_work = SCRYPT_AUTO,
      .min_key_len = SCRYPT_AUTO,
      .max_tables = SCRYPT_AUTO,
      .processors = SCRYPT_AUTO,
      .max_waiting = SCRYPT_AUTO,
      .timeout_ms = -1,
  };
}

int complete_options(const scrypt_options *options, scrypt_options *completed, scrypt_cost *cost) {
  size_t max_mem, min_key_len;
  uint64_t max_work;
  int status;
  if (options != NULL && options->size != sizeof *completed) return SCRYPT_E_OPTIONS_SIZE;
  if (options != NULL) *completed = *options;
  else scrypt_options_init(completed);
  CHOOSE(processors, processors_of_process());
  CHOOSE(max_waiting, MAX_WAITING);
  if (completed->processors == 0 || completed->max_tables == 0) return SCRYPT_E_INVALID_PARAMS;
  if (completed->key_len < SCRYPT_MIN_KEY_LEN || completed->key_len > SCRYPT_MAX_KEY_LEN) return SCRYPT_E_INVALID_PARAMS;
  status = scrypt_default_limits(completed->log_n, completed->r, completed->p, completed->key_len, &max_mem,
                                 &max_work, &min_key_len);
  if (status != SCRYPT_OK) return status;
  status = scrypt_params_cost(completed->log_n, completed->r, completed->p, SIZE_MAX, UINT64_MAX, cost);
  if (status != SCRYPT_OK) return status;
  CHOOSE(max_mem, default_max_mem(max_mem, cost));
  CHOOSE(max_work, max_work);
  CHOOSE(min_key_len, min_key_len);
  /* Otherwise new hashes would be rejected. */
  if (completed->min_key_len > completed->key_len) return SCRYPT_E_INVALID_PARAMS;
  if (completed->salt_len == 0 || completed->salt_len > SCRYPT_MAX_SALT_LEN) return SCRYPT_E_SALT_INVALID;
  status = scrypt_params_cost(completed->log_n, completed->r, completed->p, completed->max_mem, completed->max_work,
                              cost);
  if (status != SCRYPT_OK) return status;
  CHOOSE(max_tables, default_max_tables(completed, cost));
  return SCRYPT_OK;
}

size_t slots_of(const scrypt_options *options) {
  size_t tables = options->max_tables, processors = options->processors;
  size_t slots = tables < processors ? tables : processors;
  return slots < MAX_SLOTS ? slots : MAX_SLOTS;
}

size_t width_of_slot(const scrypt_options *options, size_t slots, size_t place) {
  size_t width = options->max_tables / slots + (place >= slots - options->max_tables % slots);
  return width < max_interleave() ? width : max_interleave();
}
