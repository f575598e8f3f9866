/* The names and the messages of the statuses, for the packages too. Not proved. */
#include "scrypt_c.h"

#include <inttypes.h>
#include <stdio.h>
#include <string.h>

#define ROW(name, text) [SCRYPT_##name] = {"SCRYPT_" #name, text}
static const struct {
  const char *name, *text;
} STATUSES[] = {
    ROW(OK, "success"),
    ROW(MISMATCH, "the password does not match the hash"),
    ROW(NEEDS_REHASH, "the hash is weaker than wanted"),
    ROW(E_INVALID_PARAMS, "invalid scrypt parameters (r and p at least 1, 128 * r * 2^log_n below 2^64, "
                          "r * p below 2^30, and a key in a hash of 10 to 64 bytes; "
                          "log_n is the logarithm of N, 14 for 16384)"),
    ROW(E_INVALID_OUTPUT_LEN, "the key must have 1 to 137438953440 bytes"),
    ROW(E_OUT_OF_MEMORY, "out of memory"),
    ROW(E_ALGORITHM, "the hash is of another algorithm"),
    ROW(E_ENCODING_INVALID, "the text is not a PHC or $7$ hash"),
    ROW(E_OUTPUT_SIZE, "the hash has no key, or one that is too long"),
    ROW(E_HASH_PARAM_INVALID, "ln, r or p in the hash is not a decimal in its range"),
    ROW(E_HASH_PARAMS_INVALID, "the parameters in the hash are not accepted, or it has one other than ln, r and p"),
    ROW(E_VERSION, "the hash has a version field (v=..), which scrypt does not define"),
    ROW(E_SALT_INVALID, "the salt of a $7$ hash must be UTF-8 without a $, and that of a PHC hash must have 1 to 64 bytes"),
    ROW(E_BUFFER_SIZE, "a buffer is too short or, for scrypt_key_thin, too long; or the text does not fit"),
    ROW(E_TOO_COSTLY, "the hash or parameters exceed the limits on memory or work"),
    ROW(E_KEY_TOO_SHORT, "the key in the hash is shorter than the limits allow"),
    ROW(E_NO_RANDOM_BYTES, "the system has no random bytes"),
    ROW(E_NULL_POINTER, "a required pointer is NULL"),
    ROW(E_CLOSED, "the hasher is closed"),
    ROW(E_TIMEOUT, "timed out waiting for a free slot in the hasher"),
    ROW(E_OPTIONS_SIZE, "the size in the options or statistics of a hasher is not sizeof (scrypt_options) or "
                        "sizeof (scrypt_stats)"),
    ROW(E_UNFINISHED, "not all chunks of the derivation in steps are mixed"),
    ROW(E_INVALID_PROGRESS, "no derivation with these parameters has this progress"),
    ROW(E_BUSY, "as many calls as may wait for a slot in the hasher wait already"),
};
#undef ROW

static int is_status(int status) { return status >= 0 && (size_t)status < sizeof STATUSES / sizeof *STATUSES; }

const char *scrypt_strerror(int status) { return is_status(status) ? STATUSES[status].text : "unknown status"; }

const char *scrypt_status_name(int status) { return is_status(status) ? STATUSES[status].name : NULL; }

int scrypt_status_is_invalid_hash(int status) { return status >= SCRYPT_E_ALGORITHM && status <= SCRYPT_E_VERSION; }

/* The sentences of scrypt_explain, which JavaScript's package has from here. */
#define N "%" PRIu64
#define NEEDED "N=2^" N ", r=" N ", p=" N " need " N " bytes"
#define WORK " and a work of " N
#define AT_MOST " (at most " N ")"
#define LENGTHS "its length is " N ", and at least " N " is required"

void scrypt_explain(int status, const scrypt_cost *cost, size_t max_mem, uint64_t max_work, size_t min_key_len,
                    char *text, size_t capacity) {
  const int is_costly = status == SCRYPT_E_TOO_COSTLY;
  if (cost == NULL || text == NULL || capacity == 0) return;
  text[0] = '\0';
#define ADD(...) (void)snprintf(text + strlen(text), capacity - strlen(text), __VA_ARGS__)
  if (status == SCRYPT_E_KEY_TOO_SHORT) ADD(LENGTHS, (uint64_t)cost->key_len, (uint64_t)min_key_len);
  if (!is_costly && status != SCRYPT_E_OUT_OF_MEMORY) return;
  ADD(NEEDED, (uint64_t)cost->log_n, (uint64_t)cost->r, (uint64_t)cost->p, cost->bytes);
  if (is_costly && max_mem != SIZE_MAX) ADD(AT_MOST, (uint64_t)max_mem);
  ADD(WORK, cost->work);
  if (is_costly && max_work != UINT64_MAX) ADD(AT_MOST, max_work);
#undef ADD
}
#undef N
