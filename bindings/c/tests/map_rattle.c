/* Nodes in C beside one in Rattle, which does the work AddsUp with pages of 4,096 bytes: each raises a sum by its number under a lock,
 * and all read it once all have met. Node 0 does so by calls, and the last one by pointers, where a word has its bytes the other way
 * round. Node 1 is the one in Rattle, behind a relay. */
#include "map_test.h"
#include "ivy_sync.h"
#include <sched.h>

enum { LOCK = 20 * 4096, SUM = 21 * 4096, MET = 0 };

static uint64_t turned(uint64_t number) { return __builtin_bswap64(number); }

static void add_by_calls(void) {
  const ivy_lock lock = { LOCK };
  ivy_lock_acquire(ivy, lock);
  ivy_store(ivy, 8, SUM, ivy_load(ivy, 8, SUM) + me);
  ivy_lock_release(ivy, lock);
}

static void add_by_pointers(void) {
  uint8_t *base = (uint8_t *)ivy_map_base(ivy);
  uint64_t *lock = (uint64_t *)(void *)(base + LOCK);
  volatile uint64_t *sum = (volatile uint64_t *)(void *)(base + SUM);
  while (__atomic_exchange_n(lock, turned(1), __ATOMIC_SEQ_CST)) sched_yield();
  *sum = turned(turned(*sum) + me);
  __atomic_store_n(lock, 0, __ATOMIC_SEQ_CST);
}

int main(void) {
  ivy_config config;
  memset(&config, 0, sizeof config);
  config.pages = 64;
  config.page_size = 4096;
  config.manager = IVY_DYNAMIC;
  if (ivy_init_as(NULL, NULL, &config, &ivy) != IVY_DONE) return 2;
  ivy_exit_on_error(ivy, 1);
  me = ivy_me(ivy);
  nodes = ivy_nodes(ivy);
  ivy_barrier all = { MET, nodes, 0 };
  if (me == 0) {
    add_by_calls();
  } else {
    if (ivy_map(ivy) != IVY_DONE) return 5;
    add_by_pointers();
  }
  ivy_barrier_wait(ivy, &all);
  must("the sum by a call", ivy_load(ivy, 8, SUM), (uint64_t)nodes * (nodes - 1) / 2);
  if (me) must("the sum by a pointer", turned(*(volatile uint64_t *)(void *)((uint8_t *)ivy_map_base(ivy) + SUM)), (uint64_t)nodes * (nodes - 1) / 2);
  return ivy_finalize(ivy);
}
