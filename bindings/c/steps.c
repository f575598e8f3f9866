/* Keys in steps of a given time, in the library's memory. Not proved: uses the proved steps. */
#include "groups.h"
#include "system.h"

#include <string.h>

/* From blocks.c: freed memory is wiped, or unmapped. */
void *clearing_malloc(size_t len);
void clearing_free(void *block);

/* Half the number of cores of each chunk in the first proved step, which takes less than 1 ms. */
enum { FIRST_CORES = 1 << 12 };

struct scrypt_derivation {
  uint8_t log_n;
  uint32_t r, p;
  scrypt_progress at;
  scrypt_buffers buffers; /* their lengths are those of `at.interleaved` tables */
  size_t output_len;
  size_t max_mixes; /* of the next proved step: twice as many as any before */
  double mix_ns;    /* the time of a block mix in the last proved step; 0 before the first */
  size_t password_len;
  uint8_t password[]; /* the caller's: with another one at the end the key would be wrong */
};

#define PARAMS_OF(it) (it)->log_n, (it)->r, (it)->p

static uint64_t mixes_of_chunk(const scrypt_derivation *it) { return UINT64_C(2) << it->log_n; }

static int is_mixed(const scrypt_derivation *it) { return it->at.chunks >= it->p; }

static void free_buffers(const scrypt_buffers *buffers) {
  clearing_free(buffers->chunks);
  clearing_free(buffers->table);
  clearing_free(buffers->scratch);
}

/* Allocates buffers with this number of tables. */
static int take_buffers(scrypt_buffers *it, const scrypt_cost *cost, size_t tables) {
  it->chunks_len = cost->chunks_len;
  it->table_len = tables * cost->table_len;
  it->scratch_len = tables * cost->scratch_len;
  it->chunks = (uint8_t *)clearing_malloc(it->chunks_len);
  it->table = (uint32_t *)clearing_malloc(sizeof(uint32_t) * it->table_len);
  it->scratch = (uint32_t *)clearing_malloc(sizeof(uint32_t) * it->scratch_len);
  if (it->chunks != NULL && it->table != NULL && it->scratch != NULL) return 1;
  free_buffers(it);
  return 0;
}

void scrypt_derivation_free(scrypt_derivation **derivation) {
  if (derivation == NULL || *derivation == NULL) return;
  free_buffers(&(*derivation)->buffers);
  clearing_free(*derivation);
  *derivation = NULL;
}

int scrypt_derivation_new(const void *password, size_t password_len, const void *salt, size_t salt_len,
                          uint32_t log_n, uint32_t r, uint32_t p, size_t max_mem, size_t output_len,
                          scrypt_derivation **derivation) {
  const int is_auto = max_mem == SCRYPT_AUTO;
  scrypt_derivation *it;
  scrypt_cost cost;
  size_t tables;
  int status;
  if (is_null(password, password_len) || is_null(salt, salt_len) || derivation == NULL)
    return SCRYPT_E_NULL_POINTER;
  status = scrypt_params_cost(log_n, r, p, is_auto ? MAX_INTERLEAVED_MEM : max_mem, UINT64_MAX, &cost);
  if (status != SCRYPT_OK && (status != SCRYPT_E_TOO_COSTLY || !is_auto)) return status;
  if (output_len == 0 || output_len > SCRYPT_MAX_OUTPUT_LEN) return SCRYPT_E_INVALID_OUTPUT_LEN;
  tables = cost.tables < max_interleave() ? cost.tables : max_interleave();
  if (cost.table_len < MIN_INTERLEAVED_WORDS) tables = 1;
  if (password_len > SIZE_MAX - sizeof *it) return SCRYPT_E_OUT_OF_MEMORY;
  it = (scrypt_derivation *)clearing_malloc(sizeof *it + password_len);
  if (it == NULL) return SCRYPT_E_OUT_OF_MEMORY;
  *it = (scrypt_derivation){.log_n = (uint8_t)log_n, .r = r, .p = p, .output_len = output_len,
                            .max_mixes = FIRST_CORES / r + 1, .password_len = password_len};
  memcpy(it->password, bytes_of(password), password_len);
  if (!take_buffers(&it->buffers, &cost, tables) && (tables == 1 || !take_buffers(&it->buffers, &cost, 1))) {
    clearing_free(it);
    return SCRYPT_E_OUT_OF_MEMORY;
  }
  status = cleared_scrypt_key_begin(it->password, password_len, bytes_of(salt), salt_len, PARAMS_OF(it),
                                    PARTS_OF(&it->buffers), &it->at);
  if (status != SCRYPT_OK) scrypt_derivation_free(&it);
  else *derivation = it;
  return status;
}

/* One proved step, of about this time, or of the first one's cores if no time is known. It ends
 * with the chunks that are interleaved. */
static int step(scrypt_derivation *it, int64_t ns) {
  const uint64_t left = mixes_of_chunk(it) - it->at.mixes;
  const double wanted = it->mix_ns > 0 ? (double)ns / it->mix_ns : (double)it->max_mixes;
  const size_t mixes = wanted >= (double)it->max_mixes ? it->max_mixes : wanted > 1 ? (size_t)wanted : 1;
  const int64_t begun = now_ns();
  const int status = cleared_scrypt_key_step(PARAMS_OF(it), mixes, PARTS_OF(&it->buffers), &it->at);
  const int64_t took = now_ns() - begun;
  it->mix_ns = (double)(took > 0 ? took : 1) / (double)(mixes < left ? mixes : left);
  if (mixes == it->max_mixes && mixes < mixes_of_chunk(it)) it->max_mixes *= 2;
  return status;
}

static int mix_for(scrypt_derivation *it, int64_t ns) {
  const int64_t end = now_ns() + ns;
  int64_t left = ns;
  int status = SCRYPT_OK;
  while (status == SCRYPT_OK && !is_mixed(it)) {
    status = step(it, left);
    left = end - now_ns();
    if (left <= 0) break;
  }
  return status;
}

int scrypt_derivation_run(scrypt_derivation *it, uint32_t milliseconds, double *done) {
  static const double BELOW_1 = 1 - 1.0 / (UINT64_C(1) << 53);
  double mixed;
  int status;
  if (it == NULL || done == NULL) return SCRYPT_E_NULL_POINTER;
  status = mix_for(it, INT64_C(1000000) * milliseconds);
  if (status != SCRYPT_OK) return status;
  mixed = (double)it->at.interleaved * (double)it->at.mixes / (double)mixes_of_chunk(it);
  mixed = ((double)it->at.chunks + mixed) / it->p;
  *done = is_mixed(it) ? 1 : mixed < BELOW_1 ? mixed : BELOW_1;
  return SCRYPT_OK;
}

int scrypt_derivation_finish(const scrypt_derivation *it, uint8_t *output, size_t output_len) {
  if (it == NULL || is_null(output, output_len)) return SCRYPT_E_NULL_POINTER;
  if (is_mixed(it) && output_len != it->output_len) return SCRYPT_E_INVALID_OUTPUT_LEN;
  return cleared_scrypt_key_finish(it->password, it->password_len, PARAMS_OF(it), it->buffers.chunks,
                                   it->buffers.chunks_len, &it->at, output != NULL ? output : it->buffers.chunks,
                                   output_len);
}
