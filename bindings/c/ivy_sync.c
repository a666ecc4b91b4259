/* Locks, barriers, queues and reductions: see ivy_sync.h. Not proved. */
#define _POSIX_C_SOURCE 200809L
#include "ivy_sync.h"
#include "ivy_inside.h"
#include <stdlib.h>

enum { WORD = 8 };

uint64_t ivy_cleared_word(ivy_process *process) {
  uint64_t address = ivy_alloc(process, WORD);
  ivy_store(process, WORD, address, 0);
  return address;
}

/* ---- Locks ------------------------------------------------------------------------------------------------------------------ */

uint32_t ivy_lock_acquire(ivy_process *process, ivy_lock lock) {
  while (ivy_swap(process, WORD, lock.address, 1) != 0) {
  }
  return ivy_error(process);
}

int ivy_lock_try(ivy_process *process, ivy_lock lock) {
  uint64_t was = 1;
  return ivy_call(process, IVY_SWAP, WORD, lock.address, 1, 0, &was) == IVY_DONE && was == 0;
}

/* When a time is over; 0 where it has no end. */
static int64_t end_of(long wait_us) { return wait_us < 0 ? 0 : ivy_in_after(ivy_in_now(), wait_us); }

/* What is left of it. */
static long left_until(int64_t end) {
  int64_t now = ivy_in_now();
  return end == 0 ? -1 : end > now ? (long)(end - now) : 0;
}

/* Waits until a word compares so with a number, before a time is over. */
static int becomes(ivy_process *process, uint64_t address, ivy_comparison comparison, uint64_t number, int64_t end) {
  uint64_t found;
  return ivy_wait_until(process, WORD, address, comparison, number, left_until(end), &found) == IVY_DONE;
}

int ivy_lock_acquire_for(ivy_process *process, ivy_lock lock, long wait_us) {
  int64_t end = end_of(wait_us);
  do {
    if (ivy_lock_try(process, lock)) return 1;
  } while (becomes(process, lock.address, IVY_EQ, 0, end));
  return 0;
}

uint32_t ivy_lock_release(ivy_process *process, ivy_lock lock) {
  ivy_store(process, WORD, lock.address, 0);
  return ivy_error(process);
}

uint64_t ivy_ticket_lock_acquire(ivy_process *process, ivy_ticket_lock lock) {
  uint64_t ticket = ivy_fetch_add(process, WORD, lock.next, 1);
  ivy_await(process, lock.turn, ticket);
  return ticket;
}

/* The next ticket is drawn where it is that of this turn. */
static int draw_ticket(ivy_process *process, ivy_ticket_lock lock, uint64_t turn) {
  uint64_t was = 0;
  return ivy_call(process, IVY_COMPARE_AND_SWAP, WORD, lock.next, turn + 1, turn, &was) == IVY_DONE && was == turn;
}

int ivy_ticket_lock_try(ivy_process *process, ivy_ticket_lock lock) {
  return ivy_ticket_lock_acquire_for(process, lock, 0);
}

int ivy_ticket_lock_acquire_for(ivy_process *process, ivy_ticket_lock lock, long wait_us) {
  int64_t end = end_of(wait_us);
  uint64_t turn = 0;
  uint32_t status = ivy_call(process, IVY_COUNT, 0, lock.turn, 0, 0, &turn);
  while (status == IVY_DONE && !draw_ticket(process, lock, turn))
    status = ivy_await_for(process, lock.turn, turn + 1, left_until(end), &turn);
  return status == IVY_DONE;
}

uint32_t ivy_ticket_lock_release(ivy_process *process, ivy_ticket_lock lock) {
  ivy_advance(process, lock.turn);
  return ivy_error(process);
}

/* Looks at a word until it is at least so much, with rests. */
static uint32_t look_until(ivy_process *process, uint64_t address, uint64_t least) {
  uint64_t found;
  return ivy_wait_until(process, WORD, address, IVY_GE, least, -1, &found);
}

static uint64_t place_of(ivy_array_lock lock, uint64_t ticket) { return lock.places + lock.apart * (ticket % lock.size); }

uint64_t ivy_array_lock_acquire(ivy_process *process, ivy_array_lock lock) {
  uint64_t ticket = ivy_fetch_add(process, WORD, lock.next, 1);
  look_until(process, place_of(lock, ticket), ticket);
  return ticket;
}

uint32_t ivy_array_lock_release(ivy_process *process, ivy_array_lock lock, uint64_t ticket) {
  ivy_store(process, WORD, place_of(lock, ticket + 1), ticket + 1);
  return ivy_error(process);
}

/* In the word of a readers' lock, while a writer is inside or the number of readers is changed. */
static const uint64_t taken = UINT64_MAX;

/* Takes the word, where nobody has it: whether it is had now, and then how many readers are inside. */
static int take(ivy_process *process, ivy_readers_lock lock, uint64_t *readers) {
  return ivy_call(process, IVY_SWAP, WORD, lock.address, taken, 0, readers) == IVY_DONE && *readers != taken;
}

/* Changes the number of readers, by one. */
static uint32_t count_reader(ivy_process *process, ivy_readers_lock lock, uint64_t by) {
  uint64_t readers = ivy_swap(process, WORD, lock.address, taken);
  while (readers == taken) readers = ivy_swap(process, WORD, lock.address, taken);
  ivy_store(process, WORD, lock.address, readers + by);
  return ivy_error(process);
}

uint32_t ivy_readers_lock_read(ivy_process *process, ivy_readers_lock lock) { return count_reader(process, lock, 1); }

uint32_t ivy_readers_lock_leave_read(ivy_process *process, ivy_readers_lock lock) {
  return count_reader(process, lock, UINT64_MAX);
}

uint32_t ivy_readers_lock_write(ivy_process *process, ivy_readers_lock lock) {
  ivy_readers_lock_write_for(process, lock, -1);
  return ivy_error(process);
}

uint32_t ivy_readers_lock_leave_write(ivy_process *process, ivy_readers_lock lock) {
  ivy_store(process, WORD, lock.address, 0);
  return ivy_error(process);
}

int ivy_readers_lock_read_for(ivy_process *process, ivy_readers_lock lock, long wait_us) {
  int64_t end = end_of(wait_us);
  uint64_t readers = 0;
  do {
    if (!take(process, lock, &readers)) continue;
    ivy_store(process, WORD, lock.address, readers + 1);
    return ivy_error(process) == IVY_DONE;
  } while (becomes(process, lock.address, IVY_NE, taken, end));
  return 0;
}

int ivy_readers_lock_write_for(ivy_process *process, ivy_readers_lock lock, long wait_us) {
  int64_t end = end_of(wait_us);
  uint64_t readers = 0;
  do {
    if (!take(process, lock, &readers)) continue;
    if (readers == 0) return 1;
    ivy_store(process, WORD, lock.address, readers);
  } while (becomes(process, lock.address, IVY_EQ, 0, end));
  return 0;
}

/* ---- What nodes do together --------------------------------------------------------------------------------------------- */

uint32_t ivy_barrier_wait(ivy_process *process, ivy_barrier *barrier) {
  uint64_t all = barrier->passed + barrier->nodes;
  ivy_advance(process, barrier->count);
  ivy_await(process, barrier->count, all);
  barrier->passed = all;
  return ivy_error(process);
}

uint32_t ivy_word_barrier_wait(ivy_process *process, ivy_word_barrier *barrier) {
  uint64_t all = barrier->passed + barrier->nodes;
  if (ivy_fetch_add(process, WORD, barrier->arrived, 1) + 1 == all) ivy_store(process, WORD, barrier->opened, all);
  else look_until(process, barrier->opened, all);
  barrier->passed = all;
  return ivy_error(process);
}

/* So many nodes are below each one of a tree. */
enum { WIDTH = 4 };

/* The first node below this one, and the one after the last that can be. */
static uint64_t first_below(uint32_t me) { return WIDTH * (uint64_t)me + 1; }

static uint64_t end_below(const ivy_tree_barrier *tree, uint32_t me) {
  uint64_t end = first_below(me) + WIDTH;
  return end < tree->nodes ? end : tree->nodes;
}

static void gather(ivy_process *process, const ivy_tree_barrier *tree, uint32_t me, uint64_t phase) {
  for (uint64_t below = first_below(me); below < end_below(tree, me); below++)
    look_until(process, tree->raised + tree->apart * below, phase);
}

static void await_parent(ivy_process *process, const ivy_tree_barrier *tree, uint32_t me, uint64_t phase) {
  if (me > 0) look_until(process, tree->opened + tree->apart * ((me - 1) / WIDTH), phase);
}

uint32_t ivy_tree_barrier_wait(ivy_process *process, ivy_tree_barrier *barrier, uint32_t me) {
  uint64_t phase = barrier->passed + 1, own = barrier->apart * me;
  gather(process, barrier, me, phase);
  ivy_store(process, WORD, barrier->raised + own, phase);
  await_parent(process, barrier, me, phase);
  ivy_store(process, WORD, barrier->opened + own, phase);
  barrier->passed = phase;
  return ivy_error(process);
}

uint64_t ivy_tree_reduction_fold(ivy_process *process, ivy_tree_reduction *reduction, uint32_t me, uint64_t value,
                                 uint64_t (*fold)(uint64_t so_far, uint64_t one)) {
  ivy_tree_barrier *tree = &reduction->tree;
  uint64_t phase = tree->passed + 1, at = tree->apart * me;
  gather(process, tree, me, phase);
  for (uint64_t below = first_below(me); below < end_below(tree, me); below++)
    value = fold(value, ivy_load(process, WORD, reduction->part + tree->apart * below));
  ivy_store(process, WORD, reduction->part + at, value);
  ivy_store(process, WORD, tree->raised + at, phase);
  await_parent(process, tree, me, phase);
  if (me > 0) value = ivy_load(process, WORD, reduction->given + tree->apart * ((me - 1) / WIDTH));
  ivy_store(process, WORD, reduction->given + at, value);
  ivy_store(process, WORD, tree->opened + at, phase);
  tree->passed = phase;
  return value;
}

static uint64_t own(uint64_t so_far, uint64_t one) {
  (void)one;
  return so_far;
}

uint64_t ivy_tree_reduction_share(ivy_process *process, ivy_tree_reduction *reduction, uint32_t me, uint64_t value) {
  return ivy_tree_reduction_fold(process, reduction, me, value, own);
}

uint32_t ivy_touch(ivy_process *process, uint64_t address, uint64_t pages, uint64_t apart) {
  for (uint64_t k = 0; k < pages; k++) ivy_fetch_add(process, WORD, address + apart * k, 0);
  return ivy_error(process);
}

uint32_t ivy_broadcast_give(ivy_process *process, const ivy_broadcast *broadcast, uint64_t value) {
  ivy_store(process, WORD, broadcast->address, value);
  return ivy_barrier_wait(process, broadcast->barrier);
}

uint64_t ivy_broadcast_get(ivy_process *process, const ivy_broadcast *broadcast) {
  ivy_barrier_wait(process, broadcast->barrier);
  return ivy_load(process, WORD, broadcast->address);
}

uint64_t ivy_reduction_fold(ivy_process *process, const ivy_reduction *reduction, uint32_t me, uint64_t value, uint64_t first,
                            uint64_t (*fold)(uint64_t so_far, uint64_t one)) {
  ivy_store(process, WORD, reduction->address + WORD * (uint64_t)me, value);
  ivy_barrier_wait(process, reduction->barrier);
  for (uint32_t node = 0; node < reduction->barrier->nodes; node++)
    first = fold(first, ivy_load(process, WORD, reduction->address + WORD * (uint64_t)node));
  return first;
}

uint64_t ivy_sum(uint64_t so_far, uint64_t one) { return so_far + one; }

uint64_t ivy_least(uint64_t so_far, uint64_t one) { return one < so_far ? one : so_far; }

uint64_t ivy_greatest(uint64_t so_far, uint64_t one) { return one > so_far ? one : so_far; }

uint32_t ivy_gather(ivy_process *process, const ivy_reduction *reduction, uint32_t me, const void *piece, size_t len,
                    void *all) {
  uint32_t status = ivy_put(process, reduction->address + (uint64_t)me * len, piece, len);
  if (status != IVY_DONE) return status;
  ivy_barrier_wait(process, reduction->barrier);
  return ivy_get(process, reduction->address, all, len * reduction->barrier->nodes);
}

uint32_t ivy_reduction_doubles(ivy_process *process, const ivy_reduction *reduction, uint32_t me, double *values, size_t many,
                               double (*fold)(double so_far, double one)) {
  double *all = (double *)malloc((many + !many) * reduction->barrier->nodes * sizeof *all);
  if (!all) return IVY_MEMORY;
  uint32_t status = ivy_gather(process, reduction, me, values, many * sizeof *all, all);
  for (size_t i = 0; i < many && status == IVY_DONE; i++) {
    values[i] = all[i];
    for (uint32_t node = 1; node < reduction->barrier->nodes; node++) values[i] = fold(values[i], all[node * many + i]);
  }
  free(all);
  return status;
}

double ivy_sum_of_doubles(double so_far, double one) { return so_far + one; }
double ivy_least_of_doubles(double so_far, double one) { return one < so_far ? one : so_far; }
double ivy_greatest_of_doubles(double so_far, double one) { return one > so_far ? one : so_far; }

uint32_t ivy_queue_send(ivy_process *process, ivy_queue_end *sender, uint64_t value) {
  ivy_queue queue = sender->queue;
  uint64_t after = sender->next + 1;
  ivy_await(process, queue.taken, after > queue.size ? after - queue.size : 0);
  ivy_store(process, WORD, queue.at + WORD * (sender->next % queue.size), value);
  ivy_advance(process, queue.sent);
  sender->next = after;
  return ivy_error(process);
}

uint64_t ivy_queue_take(ivy_process *process, ivy_queue_end *receiver) {
  ivy_queue queue = receiver->queue;
  uint64_t value;
  ivy_await(process, queue.sent, receiver->next + 1);
  value = ivy_load(process, WORD, queue.at + WORD * (receiver->next % queue.size));
  ivy_advance(process, queue.taken);
  receiver->next++;
  return value;
}

uint32_t ivy_queue_send_shared(ivy_process *process, ivy_queue queue, ivy_lock lock, uint64_t value) {
  ivy_queue_end sender = { queue, 0 };
  ivy_lock_acquire(process, lock);
  sender.next = ivy_count(process, queue.sent);
  ivy_queue_send(process, &sender, value);
  return ivy_lock_release(process, lock);
}

int ivy_once_begin(ivy_process *process, ivy_once once) {
  if (ivy_compare_and_swap(process, WORD, once.word, 0, 1) == 0) return 1;
  ivy_await(process, once.done, 1);
  return 0;
}

uint32_t ivy_once_finish(ivy_process *process, ivy_once once) {
  ivy_advance(process, once.done);
  return ivy_error(process);
}
