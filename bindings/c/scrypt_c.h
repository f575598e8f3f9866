/* scrypt (RFC 7914) and its password hashes.
 *
 *   what you need                                    call                                     proved
 *   ----------------------------------------------   --------------------------------------   ------
 *   a key                                            scrypt_key                               yes
 *   a key with no allocation, in your own buffers    scrypt_key_with_buffers                  yes
 *   a key on a small device, with a smaller table    scrypt_key_thin                          yes
 *   a key in steps, with progress between them       scrypt_derivation_new; _run; ..          steps
 *   the lengths of buffers; wiping them              scrypt_buffer_lens; scrypt_wipe          yes
 *   a password hash to store                         scrypt_hash_password                     no
 *   the same with your salt and parameters           scrypt_hash_with_salt; .._with_buffers   yes
 *   a hash of another program's salt and key         scrypt_stored_text                       yes
 *   to verify a password against a stored hash       scrypt_verify                            yes
 *   the same within your limits; without limits      scrypt_verify_limited; .._unlimited      yes
 *   to verify with no allocation, in your buffers    scrypt_verify_limited_with_buffers       yes
 *   up to four verifications in one batch            scrypt_verify_batch_with_buffers         yes
 *   whether a stored hash is too weak now            scrypt_needs_rehash                      yes
 *   the cost of a stored hash, within limits         scrypt_hash_cost; scrypt_hash_params     yes
 *   the cost of parameters, within limits            scrypt_params_cost                       yes
 *   the default limits                               scrypt_default_limits                    yes
 *   hashes for a service: threads, limits, memory    scrypt_hasher_new; _verify; _hash; ..    no
 *   the options of a hasher                          scrypt_options_init                      no
 *   parameters that take a given time                scrypt_calibrate                         no
 *   a salt for a new key or hash                     scrypt_generate_salt                     no
 *   the version of the library                       scrypt_version                           no
 *   the message and the name of a status             scrypt_strerror; scrypt_status_name      no
 *   whether a text was rejected as not a hash        scrypt_status_is_invalid_hash            no
 *   the numbers of a rejection, for a log            scrypt_explain                           no
 *
 * "yes" marks a proved function, with a few lines of C that check for NULL, reject N passed as
 * log_n, add the NUL to a text, and wipe the stack and the heap memory that the function used.
 * "steps" marks calls over proved steps, of which enough always end with the key: the C keeps the
 * password, the buffers and the progress between them, and chooses how long each is. The other
 * calls are written in C over the proved ones, which compute each key and result. All C code is
 * tested.
 *
 * Parameters are accepted if r > 0, p > 0, 128 * r * 2^log_n < 2^64 and r * p < 2^30. log_n is the
 * base-2 logarithm of N; an N that is passed instead is rejected if it is 64 or more.
 *
 * Lengths are in bytes unless words are named; a word has 4 bytes. A password, a salt, a text or an
 * output may be NULL with length 0, and another argument if the call's comment allows it. For any
 * other NULL a call returns SCRYPT_E_NULL_POINTER before any other status. No output may overlap an
 * input or another output. The caller has to free only a scrypt_hasher and a scrypt_derivation.
 *
 * All calls are thread-safe, if they share no output or buffer.
 */
#ifndef SCRYPT_C_H
#define SCRYPT_C_H

#include <stddef.h>
#include <stdint.h>

/* The version of this header; scrypt_version returns that of the library. */
#define SCRYPT_VERSION_MAJOR 1
#define SCRYPT_VERSION_MINOR 0
#define SCRYPT_VERSION_PATCH 0
#define SCRYPT_VERSION_STRING "1.0.0"

/* The recommended parameters, which take 128 MiB, and the recommended lengths of salt and key. */
#define SCRYPT_RECOMMENDED_LOG_N 17
#define SCRYPT_RECOMMENDED_R 8
#define SCRYPT_RECOMMENDED_P 1
#define SCRYPT_SALT_LEN 16
#define SCRYPT_KEY_LEN 32

/* The maximum length of the salt of a PHC string, and of a salt that a hasher generates; and the
 * lengths of the key of a new hash. */
#define SCRYPT_MAX_SALT_LEN 64
#define SCRYPT_MIN_KEY_LEN 10
#define SCRYPT_MAX_KEY_LEN 64

/* The maximum output_len: 32 * (2^32 - 1). */
#define SCRYPT_MAX_OUTPUT_LEN UINT64_C(137438953440)

/* Capacities, including the terminating NUL: exactly what scrypt_hash_password needs; enough for
 * any PHC string; and enough for any new $7$ hash with a salt of salt_len bytes. */
#define SCRYPT_HASH_CAPACITY 89
#define SCRYPT_PHC_CAPACITY 256
#define SCRYPT_MCF_CAPACITY(salt_len) (128 + 2 * (salt_len))

/* The value of an option or a limit that the library chooses: its comment says how. */
#define SCRYPT_AUTO UINT64_C(18446744073709551614)

/* The maximum number of bytes of stack that a call uses, if malloc is the system's. A thread's
 * stack needs 8 KiB more, for the data that the system keeps there. Before it returns, a call that
 * reads a password or a key wipes the part of the stack that it used; it writes nothing beyond this
 * limit. */
#define SCRYPT_STACK_BYTES 16384

/* gcc and clang warn if a status is ignored. */
#ifdef __GNUC__
#define SCRYPT_NODISCARD __attribute__((warn_unused_result))
#else
#define SCRYPT_NODISCARD
#endif

#ifdef __cplusplus
extern "C" {
#endif

/* The statuses that calls return. If several errors apply, a call returns the one that its comment
 * names first. With any status except SCRYPT_OK the outputs are unchanged, except the salt of
 * scrypt_generate_salt, and the scrypt_cost that scrypt_hash_cost and scrypt_params_cost write. */
enum scrypt_status {
  SCRYPT_OK = 0,
  SCRYPT_MISMATCH = 1,                /* the password is wrong, or a PHC string has no salt or no key */
  SCRYPT_NEEDS_REHASH = 2,            /* the hash is weaker than wanted */
  /* Errors: */
  SCRYPT_E_INVALID_PARAMS = 3,        /* log_n, r and p, or key_len, are not accepted */
  SCRYPT_E_INVALID_OUTPUT_LEN = 4,    /* output_len is 0, or above SCRYPT_MAX_OUTPUT_LEN */
  SCRYPT_E_OUT_OF_MEMORY = 5,         /* an allocation failed */
  /* The text is not a hash that can be read: */
  SCRYPT_E_ALGORITHM = 6,             /* the hash is of another algorithm */
  SCRYPT_E_ENCODING_INVALID = 7,      /* the text does not have the grammar of its format */
  SCRYPT_E_OUTPUT_SIZE = 8,           /* no key, or one that is too long; in scrypt_hash_cost also: no salt */
  SCRYPT_E_HASH_PARAM_INVALID = 9,    /* a parameter in the text is not a decimal in its range */
  SCRYPT_E_HASH_PARAMS_INVALID = 10,  /* parameters in the text are not accepted, or not scrypt's */
  SCRYPT_E_VERSION = 11,              /* the hash has a version field, which scrypt does not define */
  /* Others: */
  SCRYPT_E_SALT_INVALID = 12,         /* the salt is not one that the format allows */
  SCRYPT_E_BUFFER_SIZE = 13,          /* the length of a buffer is wrong, or the text does not fit */
  SCRYPT_E_TOO_COSTLY = 14,           /* the parameters need more bytes or work than the limits allow */
  SCRYPT_E_KEY_TOO_SHORT = 15,        /* the key in the text is shorter than the limits allow */
  SCRYPT_E_NO_RANDOM_BYTES = 16,      /* the system has no random bytes */
  SCRYPT_E_NULL_POINTER = 17,         /* a required pointer is NULL */
  SCRYPT_E_CLOSED = 18,               /* the hasher is closed */
  SCRYPT_E_TIMEOUT = 19,              /* timed out waiting for a free slot in the hasher */
  SCRYPT_E_OPTIONS_SIZE = 20,         /* the size in scrypt_options or scrypt_stats is not its sizeof */
  SCRYPT_E_UNFINISHED = 21,           /* not all chunks of a derivation in steps are mixed */
  SCRYPT_E_INVALID_PROGRESS = 22,     /* of JavaScript's module: no derivation has this progress */
  SCRYPT_E_BUSY = 23                  /* max_waiting calls wait for a slot in the hasher already */
};

/* ---- Keys ---- */

/* Writes the scrypt key of password and salt, output_len bytes long, to output. With p of 2 or
 * more, and tables of 64 KiB or more, up to four chunks are interleaved, each in its own table, as
 * far as all buffers fit into 129 MiB together; if that allocation fails, one table is used.
 * SCRYPT_E_NULL_POINTER, SCRYPT_E_INVALID_PARAMS, SCRYPT_E_INVALID_OUTPUT_LEN, SCRYPT_E_OUT_OF_MEMORY. */
SCRYPT_NODISCARD
int scrypt_key(const void *password, size_t password_len, const void *salt, size_t salt_len, uint32_t log_n, uint32_t r,
               uint32_t p, uint8_t *output, size_t output_len);

/* The caller's buffers for a derivation that allocates nothing, and their lengths: of chunks in bytes,
 * of table and scratch in words.
 *
 *   scrypt_buffers buffers;
 *   int status = scrypt_buffer_lens(17, 8, 1, 0, &buffers);
 *   if (status != SCRYPT_OK) return status;
 *   buffers.chunks = malloc(buffers.chunks_len);
 *   buffers.table = malloc(buffers.table_len * sizeof *buffers.table);
 *   buffers.scratch = malloc(buffers.scratch_len * sizeof *buffers.scratch); */
typedef struct scrypt_buffers {
  uint8_t *chunks;
  size_t chunks_len;
  uint32_t *table;
  size_t table_len;
  uint32_t *scratch;
  size_t scratch_len;
} scrypt_buffers;

/* Writes the lengths of the buffers, and leaves the pointers. With s = 0 they are the minimum lengths
 * for scrypt_key_with_buffers; with any s up to log_n they are the exact lengths for scrypt_key_thin
 * with this s.
 * SCRYPT_E_INVALID_PARAMS, also if s is above log_n. */
SCRYPT_NODISCARD
int scrypt_buffer_lens(uint32_t log_n, uint32_t r, uint32_t p, uint8_t s, scrypt_buffers *buffers);

/* Writes the same key, in the caller's buffers, each at least as long as scrypt_buffer_lens returns
 * for s = 0. With a table and a scratch of w times that length, up to w chunks are interleaved, but
 * no more than four. The initial content of the buffers does not matter. Afterwards the used parts
 * of the chunks and the scratch are zeros, the used part of the table is unspecified, and the rest
 * is unchanged. Nothing is allocated. On an error the buffers are unchanged too.
 * SCRYPT_E_INVALID_PARAMS, SCRYPT_E_INVALID_OUTPUT_LEN, SCRYPT_E_BUFFER_SIZE if a buffer is too short. */
SCRYPT_NODISCARD
int scrypt_key_with_buffers(const void *password, size_t password_len, const void *salt, size_t salt_len,
                            uint32_t log_n, uint32_t r, uint32_t p, uint8_t *output, size_t output_len,
                            const scrypt_buffers *buffers);

/* Writes the same key, with a table that keeps one row in 2^s: a time-memory trade-off, because the
 * table is 2^s times smaller, and the work is larger. Each buffer must have exactly the length that
 * scrypt_buffer_lens returns for this s. Afterwards the chunks and the scratch are zeros, and the
 * table is unspecified. Nothing is allocated. On an error the buffers are unchanged too.
 * SCRYPT_E_INVALID_PARAMS, also if s is above log_n, SCRYPT_E_INVALID_OUTPUT_LEN,
 * SCRYPT_E_BUFFER_SIZE. */
SCRYPT_NODISCARD
int scrypt_key_thin(const void *password, size_t password_len, const void *salt, size_t salt_len, uint32_t log_n,
                    uint32_t r, uint32_t p, uint8_t s, uint8_t *output, size_t output_len,
                    const scrypt_buffers *buffers);

/* Overwrites the buffers of a call with zeros; a NULL in it is a buffer of no length. Does nothing
 * for NULL. The data that a call leaves in them makes it possible to guess passwords at far less
 * than scrypt's cost. */
void scrypt_wipe(const scrypt_buffers *buffers);

/* ---- Keys in steps, to show the progress of a derivation or to abandon it ---- */

/* A derivation in steps of a given time, for callers that do something between the steps. It has a
 * copy of the password, because the last step needs it too: the caller may wipe its own after
 * scrypt_derivation_new, and cannot finish with another one, whose key would be wrong.
 *
 *   scrypt_derivation *steps = NULL;
 *   double done = 0;
 *   int status = scrypt_derivation_new(password, password_len, salt, salt_len, 20, 8, 1,
 *                                      SCRYPT_AUTO, 32, &steps);
 *   while (status == SCRYPT_OK && done < 1) {
 *     status = scrypt_derivation_run(steps, SCRYPT_STEP_MS, &done);
 *     show(done);
 *   }
 *   if (status == SCRYPT_OK) status = scrypt_derivation_finish(steps, key, 32);
 *   scrypt_derivation_free(&steps);
 *
 * Threads: any thread may make the next call, but only one at a time.
 * fork: the child has its own copy, which it continues or frees.
 * Memory: until a derivation is freed, its memory has the password. */
typedef struct scrypt_derivation scrypt_derivation;

/* Begins to derive the key of password and salt, output_len bytes long, and writes the derivation,
 * which the caller frees. If max_mem is SCRYPT_AUTO, the tables are those of scrypt_key; otherwise
 * chunks are interleaved as far as all buffers fit into max_mem bytes together, and
 * SCRYPT_E_TOO_COSTLY means that the buffers with one table do not fit. If several tables cannot be
 * allocated, one is used.
 * No core is run.
 * SCRYPT_E_NULL_POINTER, SCRYPT_E_INVALID_PARAMS, SCRYPT_E_TOO_COSTLY,
 * SCRYPT_E_INVALID_OUTPUT_LEN, SCRYPT_E_OUT_OF_MEMORY. */
SCRYPT_NODISCARD
int scrypt_derivation_new(const void *password, size_t password_len, const void *salt, size_t salt_len, uint32_t log_n,
                          uint32_t r, uint32_t p, size_t max_mem, size_t output_len, scrypt_derivation **derivation);

/* The milliseconds of a step that the packages choose, about a hundred steps a second. */
#define SCRYPT_STEP_MS 10

/* Derives for about this many milliseconds, or until all chunks are mixed, but always at least one
 * block mix of each interleaved chunk. Writes the fraction that is done: 1 if all chunks are mixed,
 * and less if not.
 * SCRYPT_E_NULL_POINTER. */
SCRYPT_NODISCARD
int scrypt_derivation_run(scrypt_derivation *derivation, uint32_t milliseconds, double *done);

/* Writes the key after all chunks are mixed. The output_len must be that of scrypt_derivation_new.
 * SCRYPT_E_NULL_POINTER, SCRYPT_E_UNFINISHED, SCRYPT_E_INVALID_OUTPUT_LEN. */
SCRYPT_NODISCARD
int scrypt_derivation_finish(const scrypt_derivation *derivation, uint8_t *output, size_t output_len);

/* Wipes and frees a derivation, finished or not, and sets it to NULL. Does nothing if it is NULL. */
void scrypt_derivation_free(scrypt_derivation **derivation);

/* ---- Password hashes ---- */

/* Writes the PHC string of a new hash, NUL-terminated, to text, with a random salt and the
 * recommended parameters. The capacity must be SCRYPT_HASH_CAPACITY or more.
 * SCRYPT_E_NULL_POINTER, SCRYPT_E_BUFFER_SIZE if the capacity is less, SCRYPT_E_NO_RANDOM_BYTES,
 * SCRYPT_E_OUT_OF_MEMORY. */
SCRYPT_NODISCARD
int scrypt_hash_password(const void *password, size_t password_len, char *text, size_t capacity);

/* Writes the hash of password and salt, NUL-terminated, to text: the PHC string $scrypt$ln=.. if
 * mcf is 0, and otherwise the $7$ hash of crypt(5). The key has key_len bytes, 10 to 64. The salt of
 * a PHC string has 1 to 64 bytes, and that of a $7$ hash any length. A capacity of
 * SCRYPT_PHC_CAPACITY or SCRYPT_MCF_CAPACITY(salt_len) is enough.
 * SCRYPT_E_NULL_POINTER, SCRYPT_E_INVALID_PARAMS (also for key_len), SCRYPT_E_SALT_INVALID,
 * SCRYPT_E_BUFFER_SIZE, SCRYPT_E_OUT_OF_MEMORY. */
SCRYPT_NODISCARD
int scrypt_hash_with_salt(const void *password, size_t password_len, const void *salt, size_t salt_len, uint32_t log_n,
                          uint32_t r, uint32_t p, size_t key_len, int mcf, char *text, size_t capacity);

/* The same, in the caller's buffers, each at least as long as scrypt_buffer_lens returns for s = 0;
 * their initial content does not matter. If a key was derived, the used parts of chunks and scratch
 * are zeros afterwards, the used part of the table is unspecified, and the rest is unchanged;
 * otherwise all buffers are unchanged. With a table and a scratch of w times that length, up to w
 * chunks are interleaved, but no more than four. Nothing is allocated.
 * SCRYPT_E_NULL_POINTER, SCRYPT_E_INVALID_PARAMS (also for key_len), SCRYPT_E_SALT_INVALID,
 * SCRYPT_E_BUFFER_SIZE if the text does not fit, or if a buffer is too short. */
SCRYPT_NODISCARD
int scrypt_hash_with_buffers(const void *password, size_t password_len, const void *salt, size_t salt_len, uint32_t log_n,
                             uint32_t r, uint32_t p, size_t key_len, int mcf, char *text, size_t capacity,
                             const scrypt_buffers *buffers);

/* The value of mcf by which scrypt_stored_text chooses the format. */
#define SCRYPT_PHC_OR_MCF 2

/* Writes the hash of a salt and a key that another program has derived with these parameters,
 * NUL-terminated, to text: a PHC string if mcf is 0, and otherwise a $7$ hash. SCRYPT_PHC_OR_MCF
 * chooses a PHC string, with the first 64 bytes of the key, if the lengths allow it. The text is
 * read as exactly these parts. For a PHC string the salt has 1 to 64 bytes and the key 10 to 64; a
 * shorter key is a prefix of a longer one. The salt of a $7$ hash is UTF-8 without a $; it is copied
 * unchanged to offset 14 of the text. If it contains a zero byte, strlen(text) is too short: the
 * length is 14 + salt_len + strlen(text + 14 + salt_len). A capacity of
 * SCRYPT_PHC_CAPACITY + 2 * (salt_len + key_len) is enough. Nothing is allocated.
 * SCRYPT_E_NULL_POINTER, SCRYPT_E_INVALID_PARAMS, SCRYPT_E_SALT_INVALID, SCRYPT_E_INVALID_OUTPUT_LEN for the
 * length of the key, SCRYPT_E_BUFFER_SIZE. */
SCRYPT_NODISCARD
int scrypt_stored_text(const void *salt, size_t salt_len, const void *key, size_t key_len, uint32_t log_n, uint32_t r,
                       uint32_t p, int mcf, char *text, size_t capacity);

/* Verifies a password against a hash string: returns SCRYPT_OK if the derived key is the key
 * of the hash, and SCRYPT_MISMATCH if it is not, or if a PHC string has no salt or no key.
 * A text that is $7 or begins with $7$ is read as a $7$ hash, and any other as a PHC string.
 * The hash sets the parameters, and an untrusted one can demand any memory and time: one that
 * exceeds the default limits (scrypt_default_limits, for the recommended parameters) is rejected
 * before anything is allocated.
 * For a PHC string: SCRYPT_E_ENCODING_INVALID, SCRYPT_E_ALGORITHM, SCRYPT_E_VERSION;
 * SCRYPT_E_HASH_PARAM_INVALID or SCRYPT_E_HASH_PARAMS_INVALID, for the first parameter that is
 * rejected; SCRYPT_E_HASH_PARAMS_INVALID if the parameters are not accepted; SCRYPT_MISMATCH without
 * a salt or a key. For a $7$ hash: SCRYPT_E_ENCODING_INVALID if its first field encodes no
 * parameters; SCRYPT_E_HASH_PARAMS_INVALID; SCRYPT_E_ENCODING_INVALID for what follows;
 * SCRYPT_E_OUTPUT_SIZE.
 * Then, for a hash that can be read, SCRYPT_E_TOO_COSTLY, SCRYPT_E_KEY_TOO_SHORT, SCRYPT_E_OUT_OF_MEMORY,
 * and last SCRYPT_MISMATCH if the password is wrong. */
SCRYPT_NODISCARD
int scrypt_verify(const void *password, size_t password_len, const char *text, size_t text_len);

/* The same, within these limits. */
SCRYPT_NODISCARD
int scrypt_verify_limited(const void *password, size_t password_len, const char *text, size_t text_len, size_t max_mem,
                          uint64_t max_work, size_t min_key_len);

/* The same for a hash of any cost, and a key of any length: only for hashes from a trusted source.
 * SCRYPT_E_TOO_COSTLY means that the bytes or the work exceed 64 bits. */
SCRYPT_NODISCARD
int scrypt_verify_unlimited(const void *password, size_t password_len, const char *text, size_t text_len);

/* Like scrypt_verify_limited, in the caller's buffers, each at least as long as scrypt_buffer_lens
 * returns for s = 0 and the parameters of the hash; their initial content does not matter. If the
 * keys were compared, the used parts of chunks and scratch are zeros afterwards, the used part of
 * the table is unspecified, and the rest is unchanged; otherwise all buffers are unchanged. With a
 * table and a scratch of w times that length, up to w chunks are interleaved, but no more than
 * four. Nothing is allocated: SCRYPT_E_BUFFER_SIZE, for a buffer that is too short, replaces
 * SCRYPT_E_OUT_OF_MEMORY. */
SCRYPT_NODISCARD
int scrypt_verify_limited_with_buffers(const void *password, size_t password_len, const char *text, size_t text_len,
                                       size_t max_mem, uint64_t max_work, size_t min_key_len,
                                       const scrypt_buffers *buffers);

/* A password, and the hash string that it is verified against, or NULL for an unknown user. */
typedef struct scrypt_login {
  const void *password;
  size_t password_len;
  const char *text;
  size_t text_len;
} scrypt_login;

#define SCRYPT_MAX_LOGINS 4

/* Verifies up to SCRYPT_MAX_LOGINS passwords, each against its own hash. Each status becomes what
 * scrypt_verify_limited_with_buffers would return, without limits, for this login in these buffers,
 * whatever the other logins are. A login with NULL and length 0 for its text is verified against a
 * decoy: no password is right, and it is proved to take the work of a stored hash with log_n, r, p,
 * a salt of salt_len bytes and a key of key_len bytes. The salt of a $7$ hash is its letters: for n
 * bytes these are (4 * n + 2) / 3. The status is SCRYPT_E_HASH_PARAMS_INVALID if no new hash can
 * have log_n, r, p and key_len. Without such a login these numbers are ignored.
 *
 * If all hashes that are not rejected have the log_n and r of the first, and the buffers are long
 * enough for one derivation with all their chunks, the keys are derived in one batch. If table and
 * scratch are w times as long as scrypt_buffer_lens returns for one hash and s = 0, up to w chunks
 * are interleaved, but no more than four. Otherwise the first password is verified on its own, and
 * the rest are tried again as a batch in the same way. Afterwards the used parts of chunks and
 * scratch are zeros. With AVX2 a batch of two takes 0.59 of the time of two calls, and a batch
 * of four 0.43 of the time of four; on some CPUs a batch of two takes as long as two calls.
 * SCRYPT_E_BUFFER_SIZE for a greater count; then no login is read, and no status is written.
 * SCRYPT_E_SALT_INVALID if salt_len is more than 86, the letters of 64 bytes. */
SCRYPT_NODISCARD
int scrypt_verify_batch_with_buffers(const scrypt_login *logins, size_t count, uint32_t log_n, uint32_t r, uint32_t p,
                                     size_t salt_len, size_t key_len, int *statuses, const scrypt_buffers *buffers);

/* Compares a hash with wanted parameters: returns SCRYPT_NEEDS_REHASH if its log_n, r, p or key
 * length is less than wanted, or if it is a PHC string without a salt or a key; otherwise
 * SCRYPT_OK. Nothing is allocated. First SCRYPT_E_INVALID_PARAMS (also for key_len), then the errors
 * of scrypt_verify for a text that cannot be read, except SCRYPT_MISMATCH. */
SCRYPT_NODISCARD
int scrypt_needs_rehash(const char *text, size_t text_len, uint32_t log_n, uint32_t r, uint32_t p, size_t key_len);

/* Writes the parameters of a hash, and the length of its key, or 0 if it has none: also of a PHC
 * string without a salt or a key, which scrypt_hash_cost rejects. Nothing is allocated.
 * The errors of scrypt_verify for a text that cannot be read, except SCRYPT_MISMATCH. */
SCRYPT_NODISCARD
int scrypt_hash_params(const char *text, size_t text_len, uint32_t *log_n, uint32_t *r, uint32_t *p, size_t *key_len);

/* The cost of a derivation. bytes and work saturate: UINT64_MAX means this number or more. */
typedef struct scrypt_cost {
  uint32_t log_n, r, p;
  size_t key_len;     /* of a hash */
  /* the number of tables within the limit on bytes: 1 to 4, at most p, and 1 if not even one fits */
  size_t tables;
  size_t chunks_len;  /* the length of the chunks in bytes */
  size_t table_len;   /* the length of one table in words */
  size_t scratch_len; /* the length of the scratch in words, for one table */
  uint64_t bytes;     /* of all buffers with one table */
  uint64_t work;      /* 4 * (2^log_n + 32) * r * p */
} scrypt_cost;

/* Checks a hash against limits, and writes what it costs to verify it. Nothing is allocated. The
 * errors of scrypt_verify for a text that cannot be read, but SCRYPT_E_OUTPUT_SIZE for a PHC string
 * without a salt or a key: such a hash is damaged, whatever the password. Then SCRYPT_E_TOO_COSTLY if
 * the bytes exceed max_mem, or the work exceeds max_work; then SCRYPT_E_KEY_TOO_SHORT if the key has
 * fewer than min_key_len bytes. With these two the cost is written too; with any other error
 * nothing is written. */
SCRYPT_NODISCARD
int scrypt_hash_cost(const char *text, size_t text_len, size_t max_mem, uint64_t max_work, size_t min_key_len,
                     scrypt_cost *cost);

/* The same for a derivation with these parameters. SCRYPT_E_INVALID_PARAMS, and then nothing is
 * written; SCRYPT_E_TOO_COSTLY. */
SCRYPT_NODISCARD
int scrypt_params_cost(uint32_t log_n, uint32_t r, uint32_t p, size_t max_mem, uint64_t max_work, scrypt_cost *cost);

/* Writes the default limits of a hasher that makes such hashes: a little more than a table of
 * 256 MiB, four times the work of the recommended parameters, and keys of 16 bytes or more. They are
 * changed as far as necessary to admit these hashes. (On a machine with little memory, a hasher's
 * default of max_mem is lower.)
 * SCRYPT_E_INVALID_PARAMS; then nothing is written. */
SCRYPT_NODISCARD
int scrypt_default_limits(uint32_t log_n, uint32_t r, uint32_t p, size_t key_len, size_t *max_mem, uint64_t *max_work,
                          size_t *min_key_len);

/* ---- Hashers: password hashes for a service. Not proved: they use the calls above ----
 *
 * A hasher makes and verifies password hashes, within limits, for any number of threads.
 *
 *   scrypt_hasher *hasher = NULL;
 *   int status = scrypt_hasher_new(NULL, &hasher);
 *   if (status == SCRYPT_OK)
 *     status = scrypt_hasher_verify(hasher, password, password_len, text, text_len, NULL, 1000);
 *
 * A hasher has a slot for each CPU, but no more slots than max_tables. A call derives in a
 * slot; the others wait in the wait queue, in FIFO order. Up to four waiting verifications with the
 * same log_n, r and p are derived in one batch, which is faster on some CPUs. They are
 * searched for among the first 1000 that wait. A batch of two or more has no more chunks than its
 * slot has tables, and no more calls than the slot's share of all calls. While all slots are taken,
 * the leader of a batch waits for others to join it, for a batching window of up to 1 ms. An error
 * of one call does not affect another. A hasher keeps its memory for later calls: up to max_tables
 * tables of max_mem, whatever p is, which it maps when they are needed. If the system has memory
 * for fewer tables, a batch is derived in fewer.
 *
 * Threads: a hasher is thread-safe, except that scrypt_hasher_free must come after all other calls
 *   have returned.
 * Signals: not async-signal-safe: a call in a signal handler can deadlock with the one that it
 *   interrupts. A signal handler must not leave a call by longjmp, and a child that it forks must
 *   not return to one. A signal that is handled in a thread that waits or derives ends neither.
 * Cancellation of threads: no call that waits or derives is a cancellation point.
 * fork: a hasher is fork-safe: it works in the child too, whatever other threads were doing with
 *   it. In the child no call waits or derives, and the hasher has no memory of its parent. On the
 *   few systems that don't fill memory with zeros in a child (Linux before 4.14, some emulators), a
 *   child must not use a hasher that was in use when it was forked.
 * Other threads: a verification may be derived by the thread of another verification, which reads
 *   the password and the text. So these must not be in memory that only one thread can read
 *   (protection keys); and a thread with a low priority, or with slow signal handlers, can keep
 *   others waiting.
 * Memory: tables hold secrets until scrypt_hasher_close or the end of the process, which unmap
 *   them. */
typedef struct scrypt_hasher scrypt_hasher;

/* The options of a hasher. scrypt_options_init writes the defaults; then set those that you choose:
 *
 *   scrypt_options options;
 *   scrypt_options_init(&options);
 *   options.max_tables = 4;
 *
 * Each value is meant as it is, 0 too. The limits that SCRYPT_AUTO chooses are those of
 * scrypt_default_limits. More than 8192 CPUs count as 8192. */
typedef struct scrypt_options {
  size_t size;              /* sizeof (scrypt_options), so that later versions can add fields */
  uint32_t log_n, r, p;     /* of new hashes and keys: SCRYPT_RECOMMENDED_LOG_N, .. */
  int mcf;                  /* new hashes are PHC strings if 0, otherwise $7$ hashes of crypt(5) */
  size_t key_len, salt_len; /* of new hashes: SCRYPT_KEY_LEN and SCRYPT_SALT_LEN */
  /* The rest are SCRYPT_AUTO: */
  size_t max_mem;           /* maximum bytes of the buffers for a hash, as in scrypt_hash_cost: */
                            /* the default limit, or 7/8 of the memory (see max_tables) if that */
                            /* is less; but no less than a new hash needs */
  uint64_t max_work;        /* maximum work of a hash */
  size_t min_key_len;       /* minimum key length of a hash that is verified, up to key_len */
  size_t max_tables;        /* maximum number of tables: two for each CPU, or the number of */
                            /* tables of max_mem that fit into 7/8 of the memory of the */
                            /* machine and of its control group if that is less; one or more */
  size_t processors;        /* maximum number of slots: the CPUs that this process may use, */
                            /* by its affinity and CPU quota; one or more */
  size_t max_waiting;       /* maximum number of calls that wait for a slot: 1000; with 0 none */
  /* -1: */
  int64_t timeout_ms;       /* of calls whose own is negative; no limit if this is negative too */
} scrypt_options;

/* Writes the size and the defaults. Does nothing for NULL. */
void scrypt_options_init(scrypt_options *options);

/* Creates a hasher, with all defaults if options is NULL, and writes it; the caller frees it.
 * SCRYPT_E_NULL_POINTER if hasher is NULL, SCRYPT_E_OPTIONS_SIZE, SCRYPT_E_INVALID_PARAMS (also for
 * key_len and min_key_len, and without a table or a slot), SCRYPT_E_SALT_INVALID unless
 * salt_len is 1 to 64, SCRYPT_E_TOO_COSTLY if new hashes exceed the limits, SCRYPT_E_OUT_OF_MEMORY. */
SCRYPT_NODISCARD
int scrypt_hasher_new(const scrypt_options *options, scrypt_hasher **hasher);

/* Returns the options of a hasher, with the values of the defaults, valid until the hasher is
 * freed; or NULL for NULL. */
const scrypt_options *scrypt_hasher_options(const scrypt_hasher *hasher);

/* Verifies a password against a hash string, like scrypt_verify, within the limits of the
 * hasher. If the password is right and needs_rehash is not NULL, *needs_rehash becomes 1 if the hash
 * is weaker than new hashes, so that a new one should be stored, and otherwise 0.
 * This and the next two calls wait for a slot of the hasher for up to timeout_ms milliseconds, or
 * if that is negative the hasher's timeout_ms, which is no limit by default, and then return
 * SCRYPT_E_TIMEOUT; the timeout doesn't end a derivation. INT64_MAX is no limit. If max_waiting
 * calls wait already, they return SCRYPT_E_BUSY immediately.
 * For an unknown user, pass NULL with text_len 0: the call verifies a decoy with
 * the parameters and lengths of new hashes, like scrypt_verify_batch_with_buffers, and returns
 * SCRYPT_MISMATCH after the work of a wrong password for such a hash, so that a timing attack
 * doesn't tell who exists. While hashes of older parameters are stored, it does: then verify
 * against the hash of another user, chosen by a keyed hash of the name, and ignore the result.
 * SCRYPT_E_NULL_POINTER; the errors of scrypt_hash_cost, without waiting; SCRYPT_E_CLOSED,
 * SCRYPT_E_BUSY, SCRYPT_E_TIMEOUT, SCRYPT_E_OUT_OF_MEMORY, and last SCRYPT_MISMATCH if the password is wrong. */
SCRYPT_NODISCARD
int scrypt_hasher_verify(scrypt_hasher *hasher, const void *password, size_t password_len, const char *text,
                         size_t text_len, int *needs_rehash, int64_t timeout_ms);

/* Writes the text of a new hash, NUL-terminated. If the salt is NULL, with length 0, a random salt
 * of salt_len bytes is used. The capacity must be SCRYPT_PHC_CAPACITY or more or, for a $7$ hash,
 * SCRYPT_MCF_CAPACITY of the salt's length.
 * SCRYPT_E_NULL_POINTER, SCRYPT_E_SALT_INVALID if the salt of a PHC string does not have 1 to 64 bytes,
 * SCRYPT_E_BUFFER_SIZE, SCRYPT_E_NO_RANDOM_BYTES, SCRYPT_E_CLOSED, SCRYPT_E_BUSY,
 * SCRYPT_E_TIMEOUT, SCRYPT_E_OUT_OF_MEMORY. */
SCRYPT_NODISCARD
int scrypt_hasher_hash(scrypt_hasher *hasher, const void *password, size_t password_len, const void *salt,
                       size_t salt_len, char *text, size_t capacity, int64_t timeout_ms);

/* Writes the scrypt key of password and salt with the parameters of new hashes, key_len bytes long.
 * SCRYPT_E_NULL_POINTER, SCRYPT_E_INVALID_OUTPUT_LEN, SCRYPT_E_CLOSED, SCRYPT_E_BUSY,
 * SCRYPT_E_TIMEOUT, SCRYPT_E_OUT_OF_MEMORY. */
SCRYPT_NODISCARD
int scrypt_hasher_key(scrypt_hasher *hasher, const void *password, size_t password_len, const void *salt,
                      size_t salt_len, uint8_t *key, size_t key_len, int64_t timeout_ms);

/* Compares a hash with the parameters of new hashes, like scrypt_needs_rehash. It works after
 * scrypt_hasher_close too.
 * SCRYPT_E_NULL_POINTER, then the statuses of scrypt_needs_rehash. */
SCRYPT_NODISCARD
int scrypt_hasher_needs_rehash(const scrypt_hasher *hasher, const char *text, size_t text_len);

/* Statistics of a hasher, for metrics; in a child, since the fork. */
typedef struct scrypt_stats {
  size_t size;      /* sizeof (scrypt_stats), which the caller sets: later versions can add fields */
  size_t waiting;   /* calls in the wait queue */
  size_t deriving;  /* calls that derive, including each call of a batch */
  uint64_t failed;  /* calls that have returned SCRYPT_E_OUT_OF_MEMORY, _TIMEOUT or _BUSY */
} scrypt_stats;

/* Writes the statistics. SCRYPT_E_NULL_POINTER, SCRYPT_E_OPTIONS_SIZE. */
SCRYPT_NODISCARD
int scrypt_hasher_stats(const scrypt_hasher *hasher, scrypt_stats *stats);

/* Closes a hasher: calls that wait, and later ones, return SCRYPT_E_CLOSED; calls that derive run to
 * completion. The memory is unmapped. Does nothing for NULL. */
void scrypt_hasher_close(scrypt_hasher *hasher);

/* Closes and frees a hasher, and sets it to NULL. All other calls must have returned, and no call may
 * follow. Does nothing if it is NULL. */
void scrypt_hasher_free(scrypt_hasher **hasher);

/* Finds parameters by measuring how long a hasher takes on this machine, now: the maximum log_n
 * whose table has no more than max_mem bytes, and then the maximum p, such that one derivation
 * in one table takes no more than `seconds`; r is 8. The call takes about four times `seconds`.
 * SCRYPT_E_NULL_POINTER, SCRYPT_E_TOO_COSTLY if even log_n = 10 with p = 1 takes longer, or needs more;
 * SCRYPT_E_OUT_OF_MEMORY. */
SCRYPT_NODISCARD
int scrypt_calibrate(double seconds, size_t max_mem, uint32_t *log_n, uint32_t *r, uint32_t *p);

/* ---- Salts, and the version ---- */

/* Fills salt with random bytes from the system (getrandom; on Windows BCryptGenRandom);
 * SCRYPT_SALT_LEN bytes are enough. Not proved.
 * SCRYPT_E_NULL_POINTER, SCRYPT_E_NO_RANDOM_BYTES if that fails: then a part of the salt may be
 * written, which must not be used. */
SCRYPT_NODISCARD
int scrypt_generate_salt(uint8_t *salt, size_t len);

/* Returns the version of the linked library, and the CPU that its proved code is for, as in
 * "1.0.0 x86-64-avx2" or "1.0.0 arm64". On x86-64 the library has code for any CPU, for AVX2 and
 * for AVX-512VL, and chooses the newest that this CPU can run. */
const char *scrypt_version(void);

/* ---- Statuses ---- */

/* Return an English description of a status, and its name in this header, which is NULL for a
 * number that is not a status. */
const char *scrypt_strerror(int status);
const char *scrypt_status_name(int status);

/* Returns 1 if the status means that the text is not a hash that can be read (from SCRYPT_E_ALGORITHM
 * to SCRYPT_E_VERSION above), so that neither the password nor the memory is at fault; otherwise
 * 0. */
int scrypt_status_is_invalid_hash(int status);

/* Enough for any text of scrypt_explain, including its NUL. */
#define SCRYPT_EXPLANATION_CAPACITY 256

/* Writes the numbers of a status in English, NUL-terminated, for a log that has them after the text
 * of scrypt_strerror. For SCRYPT_E_TOO_COSTLY they are the cost, as scrypt_hash_cost writes it, and
 * the limits, except SIZE_MAX and UINT64_MAX, which mean no limit; for SCRYPT_E_OUT_OF_MEMORY the
 * cost; for SCRYPT_E_KEY_TOO_SHORT the length of the key and the minimum; for any other status "".
 * A longer text than the capacity is cut. Does nothing without a cost or a capacity. */
void scrypt_explain(int status, const scrypt_cost *cost, size_t max_mem, uint64_t max_work, size_t min_key_len,
                    char *text, size_t capacity);

#ifdef __cplusplus
}
#endif

#endif
