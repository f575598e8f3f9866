/* A model checker of the queue: explores every interleaving of its events, without threads. Five
 * calls enter, form batches, finish and time out in two slots, and the hasher is closed. After each
 * event the states are compared with a model without links, and the invariants of hasher.c are
 * checked. */
#define _GNU_SOURCE
#ifdef _WIN32
#include "windows.c"
#else
#include "linux.c"
#endif
#include "groups.h"
#include "test.h"

#include <stdlib.h>
#include <string.h>

static void note_signal(condition *it);
#define condition_signal note_signal
#define max_interleave() ((size_t)4)
#include "hasher.c"
#include "options.c"

enum { CALLS = 5, SLOTS = 2, CLASSES = 3, ROUNDS = 2, ABSENT = DONE + 1, MAX_SEEN = 1 << 22 };

/* All that events change. The model's state is in `wanted` and `statuses`. */
static struct world {
  scrypt_hasher hasher;
  union {
    struct queue queue;
    uint8_t room[sizeof(struct queue) + SLOTS * sizeof(struct slot)];
  } of;
  struct call calls[CALLS];
  struct batch {
    struct call *calls[SCRYPT_MAX_LOGINS];
    size_t count, rounds; /* the number of times that it was extended */
  } batches[SLOTS];
  int entered, wanted[CALLS], statuses[CALLS];
} now, before;
static int signaled[CALLS];

static void note_signal(condition *it) {
  for (int i = 0; i < CALLS; i++) signaled[i] |= it == &now.calls[i].changed;
}

/* ---- Events: each makes its changes in the model, and then in the queue ---- */

static int first_waiting(void) {
  for (int i = 0; i < now.entered; i++)
    if (now.wanted[i] == WAITING) return i;
  return -1;
}

static void end_in_model(int i, int status) {
  now.wanted[i] = DONE;
  now.statuses[i] = status;
}

/* Of the classes 0 and 1 are verifications that are not compatible, and 2 is a key. */
static int is_full(void) {
  size_t waiting = 0;
  for (int i = 0; i < now.entered; i++) waiting += now.wanted[i] == WAITING;
  return waiting >= now.hasher.options.max_waiting;
}

static void enter_one(int class) {
  int is_busy = is_full(), i = now.entered++, is_free = now.batches[0].count == 0 || now.batches[1].count == 0;
  now.calls[i].kind = class == 2 ? KEY : VERIFY;
  now.calls[i].cost.log_n = (uint32_t)class;
  now.wanted[i] = is_free ? LEADING : WAITING;
  if (!is_free && is_busy) end_in_model(i, SCRYPT_E_BUSY);
  if (now.hasher.is_closed) end_in_model(i, SCRYPT_E_CLOSED);
  enter(&now.hasher, &now.calls[i]);
}

static void extend(int slot) {
  struct batch *batch = &now.batches[slot];
  const struct call *leader = batch->calls[0];
  size_t width = width_of_slot(&now.hasher.options, SLOTS, (size_t)slot), calls = 0, share, count;
  for (int i = 0; i < now.entered; i++) calls += now.wanted[i] != DONE;
  share = calls / SLOTS + (calls % SLOTS > 0), count = batch->count;
  for (int i = 0; i < now.entered && count < width && count < share; i++) {
    const struct call *it = &now.calls[i];
    if (now.wanted[i] != WAITING || it->kind == KEY || it->cost.log_n != leader->cost.log_n)
      continue;
    now.wanted[i] = FOLLOWING, count++;
  }
  batch->count = extend_batch(&now.hasher, batch->calls, batch->count, width);
  batch->rounds++;
  check(batch->count == count, "a batch of another size");
}

/* Each call has its own status. */
static void finish_batch(int slot) {
  struct batch batch = now.batches[slot];
  int statuses[SCRYPT_MAX_LOGINS];
  for (size_t k = 0; k < batch.count; k++) {
    int i = (int)(batch.calls[k] - now.calls);
    statuses[k] = 100 + i;
    end_in_model(i, 100 + i);
  }
  if (first_waiting() >= 0) now.wanted[first_waiting()] = LEADING;
  now.batches[slot] = (struct batch){.count = 0};
  finish(&now.hasher, batch.calls, statuses, batch.count);
}

static void time_out(int i) {
  end_in_model(i, SCRYPT_E_TIMEOUT);
  leave(now.hasher.queue, &now.calls[i], SCRYPT_E_TIMEOUT);
}

static void close_all(void) {
  while (first_waiting() >= 0) end_in_model(first_waiting(), SCRYPT_E_CLOSED);
  scrypt_hasher_close(&now.hasher);
}

/* Event number `event`, or 0 if it can't happen now. A key is never in a batch. */
enum { EVENTS = CLASSES + CALLS + 2 * SLOTS + 1 };
static int happens(int event) {
  int call = event - CLASSES, slot = call - CALLS, is_finish = slot >= SLOTS;
  const struct batch *batch = &now.batches[slot & 1];
  if (event < CLASSES) return now.entered < CALLS ? enter_one(event), 1 : 0;
  if (slot < 0) return call < now.entered && now.wanted[call] == WAITING ? time_out(call), 1 : 0;
  if (event == EVENTS - 1) return !now.hasher.is_closed ? close_all(), 1 : 0;
  if (batch->count == 0) return 0;
  if (is_finish) return finish_batch(slot - SLOTS), 1;
  return batch->rounds < ROUNDS && batch->calls[0]->kind != KEY ? extend(slot), 1 : 0;
}

/* ---- What holds after each event ---- */

static void check_calls(void) {
  for (int i = 0; i < now.entered; i++) {
    const struct call *it = &now.calls[i];
    int had = i < before.entered ? (int)before.calls[i].state : ABSENT, has = (int)it->state;
    struct batch *batch = &now.batches[has == LEADING ? it->slot - now.of.queue.slots : 0];
    check(has == now.wanted[i], "a state that differs from the model");
    check(has == DONE ? it->status == now.statuses[i] : it->status != SCRYPT_OK,
          "a status that differs from the model");
    check(had == has || had == ABSENT || has == FOLLOWING || signaled[i], "a lost wake-up");
    if (has == LEADING && batch->count == 0) batch->calls[batch->count++] = &now.calls[i];
    check(has != LEADING || batch->calls[0] == it, "two calls lead a slot");
  }
}

static void check_queue(void) {
  const struct queue *queue = &now.of.queue;
  const struct call *it = queue->first, *last = NULL;
  size_t waiting = 0, deriving = 0, taken = 0, in_batches = 0;
  for (int i = 0; i < now.entered; i++) {
    deriving += now.wanted[i] == LEADING || now.wanted[i] == FOLLOWING;
    if (now.wanted[i] != WAITING) continue;
    check(it == &now.calls[i] && it->previous == last, "an order that differs from the model");
    if (failed) return;
    last = it, it = it->next, waiting++;
  }
  for (int slot = 0; slot < SLOTS; slot++) {
    check(queue->slots[slot].is_taken == (now.batches[slot].count > 0), "a lost slot");
    taken += now.batches[slot].count > 0;
    in_batches += now.batches[slot].count;
  }
  check(it == NULL && queue->last == last && queue->stats.waiting == waiting, "the queue's end");
  check(in_batches == deriving && queue->stats.deriving == deriving, "calls that derive");
  check(waiting == 0 || (taken == SLOTS && !now.hasher.is_closed), "a call waits for nothing");
}

/* ---- All runs ---- */

static uint64_t seen[MAX_SEEN];
static size_t states, events, ends;

/* The state on which the next events depend: the queue has the order of the calls. */
static int is_new(void) {
  uint64_t key = (uint64_t)(now.hasher.is_closed != 0) << 1 | 1;
  for (int i = 0; i < CALLS; i++)
    key = key << 5 | (uint64_t)(i < now.entered ? now.wanted[i] : ABSENT) << 2 |
          (i < now.entered ? now.calls[i].cost.log_n : 0);
  for (int slot = 0; slot < SLOTS; slot++) {
    const struct batch *batch = &now.batches[slot];
    key = key << 2 | batch->rounds;
    for (size_t k = 0; k < SCRYPT_MAX_LOGINS; k++)
      key = key << 3 | (k < batch->count ? (uint64_t)(batch->calls[k] - now.calls) : 7);
  }
  size_t at = (size_t)(key * UINT64_C(0x9e3779b97f4a7c15) >> 42);
  while (seen[at] != 0 && seen[at] != key) at = (at + 1) % MAX_SEEN;
  if (seen[at] == key) return 0;
  seen[at] = key;
  return 1;
}

static void explore(void) {
  const struct world here = now;
  int happened = 0;
  if (failed || !is_new()) return;
  states++;
  for (int event = 0; event < EVENTS && !failed; event++) {
    memset(signaled, 0, sizeof signaled);
    before = here;
    if (!happens(event)) continue;
    check_calls();
    check_queue();
    happened = 1, events++;
    explore();
    now = here;
  }
  ends += !happened;
  for (int i = 0; i < CALLS && !happened; i++) check(now.wanted[i] == DONE, "an endless call");
}

TEST(all_runs) {
  static const struct { size_t tables, waiting; } RUNS[] = {
      {2, CALLS}, {5, CALLS}, {8, CALLS}, /* one table in each slot; two and three; four */
      {8, 2}, {5, 1}, {8, 0}};            /* calls find the queue full, or none may wait */
  for (size_t i = 0; i < sizeof RUNS / sizeof *RUNS; i++) {
    const scrypt_options options = {.max_tables = RUNS[i].tables, .max_waiting = RUNS[i].waiting};
    memset(seen, 0, sizeof seen);
    now = (struct world){.hasher = {.options = options, .slots = SLOTS}};
    now.hasher.queue = &now.of.queue;
    explore();
  }
  printf("%zu states, %zu events, %zu ends\n", states, events, ends);
  check(ends > 0, "runs end");
}
