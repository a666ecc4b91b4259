/* Addresses that are handed on, and what is built on calls: timed locks, a lock for readers, nodes of a list, a barrier that
 * several have a hand in, others by words and by a tree, a lock with places. Called as an example is, or by ivyrun, and then there are roots. */
#define _POSIX_C_SOURCE 200809L
#include "../examples/example.h"
#include "ivy_sync.h"
#include <time.h>

enum { PAGES = 32, PAGE = 256, EACH = 40, SHORT_US = 3000, FIRST = PAGE * 4, APART = PAGE * 10, MOST_NODES = 6 };
enum { TURN = 2, OF_LIST = 3, MET = 4 };

static int64_t microseconds(void) {
  struct timespec t;
  clock_gettime(CLOCK_MONOTONIC, &t);
  return (int64_t)t.tv_sec * 1000000 + t.tv_nsec / 1000;
}

/* Node 0 makes a block, which all others find. */
static void hand_on(example *e) {
  uint64_t found = 7, block = 0;
  expect(e, "no such root", ivy_give_root(e->ivy, IVY_ROOTS, 1), IVY_BAD_ARGUMENT);
  expect(e, "a root that nobody gives", ivy_root_for(e->ivy, 1, SHORT_US, &found), IVY_TIMEOUT);
  if (e->me == 0) {
    block = ivy_alloc_aligned(e->ivy, PAGE, PAGE);
    ivy_put_double(e->ivy, block + 8, 2.5);
    expect(e, "a root that is given", ivy_give_root(e->ivy, 0, block), IVY_DONE);
  }
  uint64_t address = ivy_root(e->ivy, 0);
  expect(e, "whether it is 2.5", ivy_get_double(e->ivy, address + 8) == 2.5, 1);
  expect(e, "its page", ivy_page_of(e->ivy, address + 8) * PAGE, address);
  expect(e, "whether it is here", (uint64_t)ivy_is_here(e->ivy, address + 13), 1);
  barrier(e);
  if (e->me == 0) ivy_put_double(e->ivy, block + 8, 3.5);
  barrier(e);
  if (e->me != 0) expect(e, "whether it is here still", (uint64_t)ivy_is_here(e->ivy, address), 0);
  barrier(e);
  expect(e, "whether it is 3.5", ivy_get_double(e->ivy, address + 8) == 3.5, 1);
  barrier(e);
  if (e->me == 0) ivy_free_aligned(e->ivy, block);
}

/* Node 0 holds locks while others try, for a time, and then leaves them. */
static void try_locks(example *e) {
  const ivy_lock lock = { FIRST };
  const ivy_ticket_lock tickets = { FIRST + 8, TURN };
  if (e->me == 0) {
    expect(e, "a lock", (uint64_t)ivy_lock_try(e->ivy, lock), 1);
    expect(e, "a lock by tickets", (uint64_t)ivy_ticket_lock_try(e->ivy, tickets), 1);
  }
  barrier(e);
  int64_t begun = microseconds();
  expect(e, "a try", (uint64_t)ivy_lock_try(e->ivy, lock), 0);
  expect(e, "a try for a time", (uint64_t)ivy_lock_acquire_for(e->ivy, lock, SHORT_US), 0);
  expect(e, "whether the time was over", microseconds() - begun >= SHORT_US, 1);
  expect(e, "a try by tickets", (uint64_t)ivy_ticket_lock_try(e->ivy, tickets), 0);
  expect(e, "the same for a time", (uint64_t)ivy_ticket_lock_acquire_for(e->ivy, tickets, SHORT_US), 0);
  barrier(e);
  if (e->me == 0) {
    expect(e, "what is left", ivy_lock_release(e->ivy, lock), IVY_DONE);
    expect(e, "what is left", ivy_ticket_lock_release(e->ivy, tickets), IVY_DONE);
  }
  for (int i = 0; i < EACH; i++) {
    expect(e, "a lock that is free sometime", (uint64_t)ivy_lock_acquire_for(e->ivy, lock, -1), 1);
    ivy_store(e->ivy, 8, FIRST + 16, ivy_load(e->ivy, 8, FIRST + 16) + 1);
    ivy_lock_release(e->ivy, lock);
    if (i % 2) expect(e, "a turn", (uint64_t)ivy_ticket_lock_acquire_for(e->ivy, tickets, -1), 1);
    else ivy_ticket_lock_acquire(e->ivy, tickets);
    ivy_store(e->ivy, 8, FIRST + 24, ivy_load(e->ivy, 8, FIRST + 24) + 1);
    ivy_ticket_lock_release(e->ivy, tickets);
  }
  barrier(e);
  expect(e, "a sum under a lock", ivy_load(e->ivy, 8, FIRST + 16), EACH * (uint64_t)e->nodes);
  expect(e, "a sum by tickets", ivy_load(e->ivy, 8, FIRST + 24), EACH * (uint64_t)e->nodes);
}

/* Two words are changed together by writers: readers find them equal, and are inside together. */
static void read_and_write(example *e) {
  const ivy_readers_lock lock = { FIRST + 32 };
  uint64_t one = FIRST + PAGE, two = FIRST + 2 * PAGE;
  ivy_readers_lock_read(e->ivy, lock);
  barrier(e);
  expect(e, "readers", ivy_load(e->ivy, 8, lock.address), e->nodes);
  barrier(e);
  expect(e, "a writer beside readers", (uint64_t)ivy_readers_lock_write_for(e->ivy, lock, SHORT_US), 0);
  barrier(e);
  expect(e, "what is left", ivy_readers_lock_leave_read(e->ivy, lock), IVY_DONE);
  for (int i = 0; i < EACH; i++) {
    ivy_readers_lock_write(e->ivy, lock);
    ivy_store(e->ivy, 8, one, ivy_load(e->ivy, 8, one) + 1);
    ivy_store(e->ivy, 8, two, ivy_load(e->ivy, 8, two) + 1);
    ivy_readers_lock_leave_write(e->ivy, lock);
    if (i % 2) ivy_readers_lock_read(e->ivy, lock);
    else expect(e, "a reader", (uint64_t)ivy_readers_lock_read_for(e->ivy, lock, -1), 1);
    expect(e, "the other word", ivy_load(e->ivy, 8, two), ivy_load(e->ivy, 8, one));
    ivy_readers_lock_leave_read(e->ivy, lock);
  }
  barrier(e);
  expect(e, "what writers added", ivy_load(e->ivy, 8, one), EACH * (uint64_t)e->nodes);
  expect(e, "who is inside", ivy_load(e->ivy, 8, lock.address), 0);
  barrier(e);
  if (e->me == 0) ivy_readers_lock_write(e->ivy, lock);
  barrier(e);
  expect(e, "a reader beside a writer", (uint64_t)ivy_readers_lock_read_for(e->ivy, lock, SHORT_US), 0);
  expect(e, "a second writer", (uint64_t)ivy_readers_lock_write_for(e->ivy, lock, 0), 0);
  barrier(e);
  if (e->me == 0) ivy_readers_lock_leave_write(e->ivy, lock);
}

/* All but node 0 are a list, who work together while that does something else. */
static void be_of_list(example *e) {
  ivy_barrier meet = { OF_LIST, e->nodes - 1, 0 };
  const ivy_reduction words = { FIRST + PAGE, &meet };
  const ivy_broadcast given = { FIRST + 2 * PAGE, &meet };
  uint32_t place = e->me - 1;
  if (e->me == 0 || e->nodes < 3) return;
  expect(e, "a sum of a list", ivy_reduction_fold(e->ivy, &words, place, e->me, 0, ivy_sum),
         (uint64_t)e->nodes * (e->nodes - 1) / 2);
  expect(e, "whether all met", ivy_barrier_wait(e->ivy, &meet), IVY_DONE);
  if (place == 0) expect(e, "what is given", ivy_broadcast_give(e->ivy, &given, 42), IVY_DONE);
  else expect(e, "what was given", ivy_broadcast_get(e->ivy, &given), 42);
  ivy_barrier_wait(e->ivy, &meet);
  double value = e->me, all[32];
  expect(e, "a gather", ivy_gather(e->ivy, &words, place, &value, sizeof value, all), IVY_DONE);
  for (uint32_t i = 1; i < e->nodes; i++) expect(e, "what was gathered", (uint64_t)all[i - 1], i);
}

/* A barrier goes on where a reduction and a broadcast have used it: nobody passes before the last one. */
static void go_on(example *e) {
  ivy_barrier meet = { MET, e->nodes, 0 };
  const ivy_reduction words = { FIRST + PAGE, &meet };
  const ivy_broadcast given = { FIRST + 2 * PAGE, &meet };
  const struct timespec nap = { 0, 20000000 };
  ivy_reduction_fold(e->ivy, &words, e->me, 1, 0, ivy_sum);
  if (e->me == 0) ivy_broadcast_give(e->ivy, &given, 1);
  else ivy_broadcast_get(e->ivy, &given);
  if (e->me == 0) {
    nanosleep(&nap, NULL);
    ivy_store(e->ivy, 8, FIRST + 40, 42);
  }
  ivy_barrier_wait(e->ivy, &meet);
  expect(e, "what was stored before the barrier", ivy_load(e->ivy, 8, FIRST + 40), 42);
}

/* In each phase a number of a barrier is the last one at all nodes; and a sum under a lock with places. */
static void meet_otherwise(example *e) {
  ivy_word_barrier words = { APART, APART + PAGE, e->nodes, 0 };
  ivy_tree_barrier tree = { APART + 2 * PAGE, APART + 2 * PAGE + 8, PAGE, e->nodes, 0 };
  ivy_tree_reduction both = { { APART + 2 * PAGE + 16, APART + 2 * PAGE + 24, PAGE, e->nodes, 0 },
                              APART + 2 * PAGE + 32, APART + 2 * PAGE + 40 };
  const ivy_array_lock lock = { APART + 8 * PAGE, APART + 9 * PAGE, PAGE, e->nodes };
  uint64_t own = FIRST + PAGE + 64 + 8 * (uint64_t)e->me, sum = FIRST + 48;
  for (uint64_t i = 1; i <= EACH; i++) {
    ivy_store(e->ivy, 8, own, i);
    expect(e, "a barrier by words", ivy_word_barrier_wait(e->ivy, &words), IVY_DONE);
    for (uint64_t k = 0; k < e->nodes; k++)
      expect(e, "what all stored", ivy_load(e->ivy, 8, FIRST + PAGE + 64 + 8 * k), i);
    expect(e, "a barrier by a tree", ivy_tree_barrier_wait(e->ivy, &tree, e->me), IVY_DONE);
    expect(e, "a sum by a tree", ivy_tree_reduction_fold(e->ivy, &both, e->me, i + e->me, ivy_sum),
           e->nodes * i + (uint64_t)e->nodes * (e->nodes - 1) / 2);
    expect(e, "what node 0 shares", ivy_tree_reduction_share(e->ivy, &both, e->me, i + 7 * e->me), i);
    uint64_t ticket = ivy_array_lock_acquire(e->ivy, lock);
    ivy_store(e->ivy, 8, sum, ivy_load(e->ivy, 8, sum) + 1);
    expect(e, "what is left", ivy_array_lock_release(e->ivy, lock, ticket), IVY_DONE);
  }
  ivy_tree_barrier_wait(e->ivy, &tree, e->me);
  expect(e, "a sum by places", ivy_load(e->ivy, 8, sum), EACH * (uint64_t)e->nodes);
  ivy_tree_barrier_wait(e->ivy, &tree, e->me);
  expect(e, "pages that are to be here", ivy_touch(e->ivy, APART + 16 * PAGE, 3, PAGE), IVY_DONE);
}

int main(int argc, char **argv) {
  example e;
  begin_example(&e, argc, argv, PAGES, PAGE);
  uint64_t found;
  if (e.nodes > MOST_NODES) return 2;
  if (ivy_root_for(e.ivy, 1, 0, &found) != IVY_BAD_ARGUMENT) hand_on(&e);
  else expect(&e, "whether there are roots", argc > 1, 1);
  barrier(&e);
  try_locks(&e);
  barrier(&e);
  read_and_write(&e);
  barrier(&e);
  be_of_list(&e);
  barrier(&e);
  go_on(&e);
  barrier(&e);
  meet_otherwise(&e);
  barrier(&e);
  ivy_counts counts = ivy_counts_of(e.ivy);
  expect(&e, "the sum of counts", counts.hits + counts.misses + counts.waits, counts.calls);
  expect(&e, "whether all were counted", counts.hits && counts.misses && counts.waits && counts.sent && counts.heard, 1);
  if (e.me == 0) printf("sync: %u nodes\n", e.nodes);
  end_example(&e);
  return 0;
}
