/* The hasher: slots, a wait queue and batches. Not proved, but what derives and checks limits is.
 *
 * A slot is the right to derive on one processor, with the memory for that. Each call runs in the
 * thread of its caller. If no slot is free it waits in the queue, first in, first out. The call
 * that leads a slot takes compatible calls from the queue into its batch, and derives for all of
 * them, while their threads sleep. A call changes its state only under the lock:
 *
 *   state       its thread                       left by                           for
 *   WAITING     sleeps; the call is queued       release_slot                      LEADING
 *                                                extend_batch                      FOLLOWING
 *                                                its timeout, scrypt_hasher_close  DONE
 *   FOLLOWING   sleeps; in the batch of another  finish, by its leader             DONE
 *   LEADING     forms a batch, derives for it    finish                            DONE
 *
 * Five invariants hold whenever the lock is free:
 *
 * 1. While a call is queued, no slot is free and the hasher is open: a slot that is released is
 *    handed directly to the first call of the queue.
 * 2. The queue is in FIFO order. Only members of a batch overtake others.
 * 3. A status is an error until a proved call has returned it. Then it is on the leader's stack,
 *    and is copied to the calls of the batch together with the state DONE.
 * 4. A call is on the stack of its thread, which returns only after it has seen, under the lock,
 *    that the call is DONE: so the call exists whenever another thread accesses it under the lock.
 * 5. In a child the kernel has filled the queue with zeros, its initial state: the lock and all
 *    slots are free, no call waits, and there is no memory. The child's only thread is the one that
 *    forked, and it was in no call, because hashers are not async-signal-safe. */
#define _GNU_SOURCE
#include "arena.h"
#include "options.h"
#include "system.h"

#include <stdlib.h>

#define MAX_SCANNED 1000 /* maximum number of calls that are scanned under the lock */
#define NS_OF_MS INT64_C(1000000)
#define MAX_TIMEOUT_MS (INT64_MAX / NS_OF_MS / 2) /* a longer one counts as none */

/* The batching window. It is no shorter than the delay with which a sleep may end. */
#define MAX_LINGER_NS 1000000
#ifndef MIN_LINGER_NS /* tests define another value */
#define MIN_LINGER_NS 50000
#endif

struct slot {
  int is_taken;
  struct arena arena;
};

/* On the stack of its thread. Initially the fields before `kind` are zeros. */
struct call {
  enum { WAITING, FOLLOWING, LEADING, DONE } state;
  int status;
  condition changed; /* signals its thread that the state has changed */
  struct call *previous, *next;
  struct slot *slot; /* of a call that leads */

  enum { VERIFY, HASH, KEY } kind;
  scrypt_cost cost;
  scrypt_login login; /* without a text if this is no verification */
  const void *salt;
  size_t salt_len;
  void *output;
  size_t output_len;
};

/* Its initial state is all zeros. */
struct queue {
  mutex lock;
  struct call *first, *last;
  scrypt_stats stats;
  struct slot slots[];
};

struct scrypt_hasher {
  scrypt_options options;
  scrypt_cost cost; /* of new hashes */
  int is_closed;
  int is_wiped_on_fork; /* whether the queue is zeros in a child, whose slots then have no arenas */
  size_t slots;
  struct queue *queue;
};

/* ---- States: under the lock ---- */

static void end_call(struct call *call, int status) {
  call->state = DONE;
  call->status = status;
  condition_signal(&call->changed);
}

static void enqueue(struct queue *queue, struct call *call) {
  call->previous = queue->last;
  call->next = NULL;
  *(queue->last != NULL ? &queue->last->next : &queue->first) = call;
  queue->last = call;
  queue->stats.waiting++;
}

static void dequeue(struct queue *queue, struct call *call) {
  *(call->previous != NULL ? &call->previous->next : &queue->first) = call->next;
  *(call->next != NULL ? &call->next->previous : &queue->last) = call->previous;
  queue->stats.waiting--;
}

/* Returns the first free slot, or NULL: the first slots are the narrowest, and used most. */
static struct slot *find_free_slot(const scrypt_hasher *hasher) {
  struct slot *slot = hasher->queue->slots, *end = slot + hasher->slots;
  while (slot < end && slot->is_taken) slot++;
  return slot < end ? slot : NULL;
}

static void assign_slot(struct queue *queue, struct slot *slot, struct call *call) {
  slot->is_taken = 1;
  call->slot = slot;
  queue->stats.deriving++;
  call->state = LEADING;
  condition_signal(&call->changed);
}

static void enter(scrypt_hasher *hasher, struct call *call) {
  struct slot *slot = find_free_slot(hasher);
  call->status = SCRYPT_E_OUT_OF_MEMORY;
  if (hasher->is_closed) end_call(call, SCRYPT_E_CLOSED);
  else if (slot != NULL) assign_slot(hasher->queue, slot, call);
  else if (hasher->queue->stats.waiting >= hasher->options.max_waiting) end_call(call, SCRYPT_E_BUSY);
  else enqueue(hasher->queue, call);
}

/* Ends a wait without a slot. */
static void leave(struct queue *queue, struct call *call, int status) {
  dequeue(queue, call);
  end_call(call, status);
}

/* Hands the slot directly to the first call of the queue, or frees it. */
static void release_slot(struct queue *queue, struct slot *slot) {
  struct call *first = queue->first;
  slot->is_taken = 0;
  if (first == NULL) return;
  dequeue(queue, first);
  assign_slot(queue, slot, first);
}

static int are_compatible(const struct call *call, const struct call *leader) {
  return call->kind == VERIFY && call->cost.log_n == leader->cost.log_n && call->cost.r == leader->cost.r &&
         call->cost.p == leader->cost.p;
}

/* Adds compatible calls to a batch, in the order of the queue, until it has `max`, or a slot's
 * share of all calls: a larger batch would leave a processor idle. Returns the batch's size. */
static size_t extend_batch(scrypt_hasher *hasher, struct call **batch, size_t count, size_t max) {
  struct queue *queue = hasher->queue;
  size_t calls = queue->stats.waiting + queue->stats.deriving, scanned = 0;
  size_t share = (calls + hasher->slots - 1) / hasher->slots;
  struct call *call = queue->first, *next;
  if (max > share) max = share;
  for (; call != NULL && count < max && scanned < MAX_SCANNED; call = next, scanned++) {
    next = call->next;
    if (!are_compatible(call, batch[0])) continue;
    dequeue(queue, call);
    call->state = FOLLOWING;
    queue->stats.deriving++;
    batch[count++] = call;
  }
  return count;
}

static void finish(scrypt_hasher *hasher, struct call **batch, const int *statuses, size_t count) {
  struct slot *slot = batch[0]->slot;
  if (hasher->is_closed) arena_free(&slot->arena);
  hasher->queue->stats.deriving -= count;
  for (size_t i = 0; i < count; i++) end_call(batch[i], statuses[i]);
  release_slot(hasher->queue, slot);
}

/* ---- A call, in its thread ---- */

/* Sleeps until the call leads or is done. The timeout applies only while it waits. */
static void await(struct queue *queue, struct call *call, int64_t timeout_ms) {
  int has_timeout = timeout_ms >= 0 && timeout_ms <= MAX_TIMEOUT_MS;
  int64_t deadline = has_timeout ? now_ns() + timeout_ms * NS_OF_MS : NO_DEADLINE;
  while (call->state == WAITING || call->state == FOLLOWING) {
    if (call->state == FOLLOWING) condition_wait(&call->changed, &queue->lock, NO_DEADLINE);
    else if (now_ns() < deadline) condition_wait(&call->changed, &queue->lock, deadline);
    else leave(queue, call, SCRYPT_E_TIMEOUT);
  }
}

/* The batching window of a leader: 1/250 of a derivation, if a core takes 50 ns. */
static int64_t linger_ns(const scrypt_cost *cost) {
  int64_t ns = (int64_t)(cost->table_len / 8 * cost->p / 5); /* 4 * N * r * p cores */
  if (ns < MIN_LINGER_NS || !can_sleep_briefly()) return 0;
  return ns < MAX_LINGER_NS ? ns : MAX_LINGER_NS;
}

/* Returns the number of calls in the batch; the first one leads. Clients whose batch has just ended
 * often come back immediately: they are ready to run, or would miss the batch by less than the
 * window. */
static size_t form_batch(scrypt_hasher *hasher, struct call **batch, size_t max) {
  struct queue *queue = hasher->queue;
  int64_t linger = linger_ns(&batch[0]->cost);
  size_t count;
  if (max <= 1) return 1;
  mutex_unlock(&queue->lock);
  yield_processor();
  mutex_lock(&queue->lock);
  count = extend_batch(hasher, batch, 1, max);
  if (count == max || linger == 0 || find_free_slot(hasher) != NULL) return count;
  condition_wait(&batch[0]->changed, &queue->lock, now_ns() + linger);
  return extend_batch(hasher, batch, count, max);
}

static int write_hash(const scrypt_options *options, const struct call *call, const scrypt_buffers *buffers) {
  return scrypt_hash_with_buffers(call->login.password, call->login.password_len, call->salt, call->salt_len,
                                  options->log_n, options->r, options->p, options->key_len, options->mcf,
                                  (char *)call->output, call->output_len, buffers);
}

static int write_key(const scrypt_options *options, const struct call *call, const scrypt_buffers *buffers) {
  return scrypt_key_with_buffers(call->login.password, call->login.password_len, call->salt, call->salt_len,
                                 options->log_n, options->r, options->p, (uint8_t *)call->output, call->output_len,
                                 buffers);
}

/* The salt of a $7$ hash is its letters. */
static void verify_batch(const scrypt_options *options, struct call **batch, size_t count, int *statuses,
                         const scrypt_buffers *buffers) {
  size_t salt_len = options->mcf ? (4 * options->salt_len + 2) / 3 : options->salt_len, i;
  scrypt_login logins[SCRYPT_MAX_LOGINS];
  int status;
  for (i = 0; i < count; i++) logins[i] = batch[i]->login;
  status = scrypt_verify_batch_with_buffers(logins, count, options->log_n, options->r, options->p, salt_len,
                                            options->key_len, statuses, buffers);
  (void)status; /* no error: no buffer is NULL, and a batch has no more than four calls */
}

/* Runs without the lock. If there is memory only for fewer tables, derives the batch in parts. */
static void derive(scrypt_hasher *hasher, struct call **batch, size_t count, size_t width, int *statuses) {
  struct arena *arena = &batch[0]->slot->arena;
  const scrypt_cost *cost = &batch[0]->cost;
  size_t wanted = count * cost->p;
  size_t tables = arena_reserve(arena, cost, width < wanted ? width : wanted, hasher->is_wiped_on_fork);
  size_t most = tables > cost->p ? tables / cost->p : 1, done;
  for (done = 0; done < count && tables > 0; done += most) {
    size_t part = most < count - done ? most : count - done;
    const scrypt_buffers buffers = arena_buffers(arena, cost, tables, part);
    if (batch[0]->kind == VERIFY) verify_batch(&hasher->options, batch + done, part, statuses + done, &buffers);
    else if (batch[0]->kind == HASH) statuses[0] = write_hash(&hasher->options, batch[0], &buffers);
    else statuses[0] = write_key(&hasher->options, batch[0], &buffers);
  }
}

/* A batch has no more chunks than the slot has tables, so that no call waits for others' chunks. */
static void lead(scrypt_hasher *hasher, struct call *call) {
  struct call *batch[SCRYPT_MAX_LOGINS] = {call};
  int statuses[SCRYPT_MAX_LOGINS];
  size_t place = (size_t)(call->slot - hasher->queue->slots);
  size_t width = width_of_slot(&hasher->options, hasher->slots, place);
  size_t count = form_batch(hasher, batch, call->kind == VERIFY ? width / call->cost.p : 1), i;
  for (i = 0; i < count; i++) statuses[i] = SCRYPT_E_OUT_OF_MEMORY;
  mutex_unlock(&hasher->queue->lock);
  derive(hasher, batch, count, width, statuses);
  mutex_lock(&hasher->queue->lock);
  finish(hasher, batch, statuses, count);
}

static int run(scrypt_hasher *hasher, struct call *call, int64_t timeout_ms) {
  struct queue *queue = hasher->queue;
  mutex_lock(&queue->lock);
  enter(hasher, call);
  await(queue, call, timeout_ms >= 0 ? timeout_ms : hasher->options.timeout_ms);
  if (call->state == LEADING) lead(hasher, call);
  queue->stats.failed +=
      call->status == SCRYPT_E_OUT_OF_MEMORY || call->status == SCRYPT_E_TIMEOUT || call->status == SCRYPT_E_BUSY;
  mutex_unlock(&queue->lock);
  return call->status;
}

/* ---- The calls ---- */

/* Without a text, a decoy is verified, with the work of a wrong password for a new hash. */
int scrypt_hasher_verify(scrypt_hasher *hasher, const void *password, size_t password_len, const char *text,
                         size_t text_len, int *needs_rehash, int64_t timeout_ms) {
  struct call call = {.kind = VERIFY, .login = {password, password_len, text, text_len}};
  const scrypt_options *options = scrypt_hasher_options(hasher);
  int status = SCRYPT_OK;
  if (hasher == NULL || is_null(password, password_len) || is_null(text, text_len)) return SCRYPT_E_NULL_POINTER;
  if (text == NULL) call.cost = hasher->cost;
  else status = scrypt_hash_cost(text, text_len, options->max_mem, options->max_work, options->min_key_len, &call.cost);
  if (status == SCRYPT_OK) status = run(hasher, &call, timeout_ms);
  if (status == SCRYPT_OK && needs_rehash != NULL)
    *needs_rehash = scrypt_hasher_needs_rehash(hasher, text, text_len) == SCRYPT_NEEDS_REHASH;
  return status;
}

int scrypt_hasher_hash(scrypt_hasher *hasher, const void *password, size_t password_len, const void *salt,
                       size_t salt_len, char *text, size_t capacity, int64_t timeout_ms) {
  struct call call = {.kind = HASH, .login = {.password = password, .password_len = password_len},
                      .salt = salt, .salt_len = salt_len, .output = text, .output_len = capacity};
  const scrypt_options *options = scrypt_hasher_options(hasher);
  uint8_t random_salt[SCRYPT_MAX_SALT_LEN];
  if (hasher == NULL || is_null(password, password_len) || is_null(salt, salt_len) || is_null(text, capacity))
    return SCRYPT_E_NULL_POINTER;
  call.cost = hasher->cost;
  if (salt == NULL) call.salt = random_salt, call.salt_len = options->salt_len;
  if (!options->mcf && (call.salt_len == 0 || call.salt_len > SCRYPT_MAX_SALT_LEN)) return SCRYPT_E_SALT_INVALID;
  /* A text that doesn't fit is detected before the call waits. */
  if (call.salt_len > capacity ||
      capacity < (options->mcf ? SCRYPT_MCF_CAPACITY(call.salt_len) : SCRYPT_PHC_CAPACITY))
    return SCRYPT_E_BUFFER_SIZE;
  if (salt == NULL && !random_bytes(random_salt, call.salt_len)) return SCRYPT_E_NO_RANDOM_BYTES;
  return run(hasher, &call, timeout_ms);
}

int scrypt_hasher_key(scrypt_hasher *hasher, const void *password, size_t password_len, const void *salt,
                      size_t salt_len, uint8_t *key, size_t key_len, int64_t timeout_ms) {
  struct call call = {.kind = KEY, .login = {.password = password, .password_len = password_len},
                      .salt = salt, .salt_len = salt_len, .output = key, .output_len = key_len};
  if (hasher == NULL || is_null(password, password_len) || is_null(salt, salt_len) || is_null(key, key_len))
    return SCRYPT_E_NULL_POINTER;
  call.cost = hasher->cost;
  if (key_len == 0 || key_len > SCRYPT_MAX_OUTPUT_LEN) return SCRYPT_E_INVALID_OUTPUT_LEN;
  return run(hasher, &call, timeout_ms);
}

int scrypt_hasher_needs_rehash(const scrypt_hasher *hasher, const char *text, size_t text_len) {
  const scrypt_options *options = scrypt_hasher_options(hasher);
  if (options == NULL) return SCRYPT_E_NULL_POINTER;
  return scrypt_needs_rehash(text, text_len, options->log_n, options->r, options->p, options->key_len);
}

int scrypt_hasher_stats(const scrypt_hasher *hasher, scrypt_stats *stats) {
  if (hasher == NULL || stats == NULL) return SCRYPT_E_NULL_POINTER;
  if (stats->size != sizeof *stats) return SCRYPT_E_OPTIONS_SIZE;
  mutex_lock(&hasher->queue->lock);
  *stats = hasher->queue->stats;
  mutex_unlock(&hasher->queue->lock);
  stats->size = sizeof *stats;
  return SCRYPT_OK;
}

/* ---- Creation and destruction ---- */

static size_t size_of_queue(const scrypt_hasher *hasher) {
  return sizeof(struct queue) + hasher->slots * sizeof(struct slot);
}

/* Maps the queue. Returns 0 if there is no memory for it, or for wiping it on a fork. */
static int map_queue(scrypt_hasher *hasher) {
  const size_t size = size_of_queue(hasher);
  struct queue *queue = hasher->queue = (struct queue *)map_zeros(size);
  const int wiped = queue != NULL ? wipe_on_fork(queue, size) : -1;
  hasher->is_wiped_on_fork = wiped > 0;
  if (wiped < 0 && queue != NULL) (void)unmap(queue, size);
  return wiped >= 0;
}

int scrypt_hasher_new(const scrypt_options *options, scrypt_hasher **hasher) {
  scrypt_hasher made = {.is_closed = 0}, *it;
  int status;
  if (hasher == NULL) return SCRYPT_E_NULL_POINTER;
  status = complete_options(options, &made.options, &made.cost);
  if (status != SCRYPT_OK) return status;
  made.slots = slots_of(&made.options);
  it = (scrypt_hasher *)malloc(sizeof *it);
  if (it == NULL || !map_queue(&made)) {
    free(it);
    return SCRYPT_E_OUT_OF_MEMORY;
  }
  *it = made;
  *hasher = it;
  return SCRYPT_OK;
}

const scrypt_options *scrypt_hasher_options(const scrypt_hasher *it) { return it != NULL ? &it->options : NULL; }

void scrypt_hasher_close(scrypt_hasher *hasher) {
  struct queue *queue;
  if (hasher == NULL) return;
  queue = hasher->queue;
  mutex_lock(&queue->lock);
  hasher->is_closed = 1;
  while (queue->first != NULL) leave(queue, queue->first, SCRYPT_E_CLOSED);
  for (size_t i = 0; i < hasher->slots; i++)
    if (!queue->slots[i].is_taken) arena_free(&queue->slots[i].arena);
  mutex_unlock(&queue->lock);
}

void scrypt_hasher_free(scrypt_hasher **hasher) {
  if (hasher == NULL || *hasher == NULL) return;
  scrypt_hasher_close(*hasher);
  (void)unmap((*hasher)->queue, size_of_queue(*hasher));
  free(*hasher);
  *hasher = NULL;
}
