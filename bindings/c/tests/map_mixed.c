/* A process that makes calls alone, without a mapping, beside those that use pointers: a counter, a lock round a number, and a row
 * of bytes that each fills a part of. Node 0 makes calls. */
#include "map_test.h"
#include "ivy_native.h"
#include <sched.h>

enum { TIMES = 60, PART = 600, COUNTER = 0, LOCK = 4096, NUMBER = 8192, BYTES = 3 * 4096, SIZE = 8 * 4096 };

static uint64_t place;

static void meet(uint64_t times) {
  ivy_advance(ivy, 5);
  ivy_await(ivy, 5, times * nodes);
}

static void by_calls(void) {
  uint8_t part[PART];
  memset(part, 1, sizeof part);
  for (int i = 0; i < TIMES; i++) {
    ivy_add_uint64(ivy, place + COUNTER, 1);
    while (ivy_swap_uint64(ivy, place + LOCK, 1)) sched_yield();
    ivy_put_double(ivy, place + NUMBER, ivy_get_double(ivy, place + NUMBER) + 0.5);
    ivy_put_uint64(ivy, place + LOCK, 0);
  }
  must("a part of the bytes", ivy_put(ivy, place + BYTES, part, sizeof part), IVY_DONE);
}

static void by_pointers(uint8_t *base) {
  volatile double *number = (volatile double *)(void *)(base + place + NUMBER);
  uint64_t *lock = (uint64_t *)(void *)(base + place + LOCK);
  for (int i = 0; i < TIMES; i++) {
    __atomic_fetch_add((uint64_t *)(void *)(base + place + COUNTER), 1, __ATOMIC_SEQ_CST);
    while (__atomic_exchange_n(lock, 1, __ATOMIC_SEQ_CST)) sched_yield();
    *number = *number + 0.5;
    __atomic_store_n(lock, 0, __ATOMIC_SEQ_CST);
  }
  memset(base + place + BYTES + me * PART, (int)(me + 1), PART);
}

int main(void) {
  ivy_config config;
  memset(&config, 0, sizeof config);
  config.pages = 64;
  config.page_size = 4096;
  config.manager = IVY_DYNAMIC;
  if (ivy_init_as(NULL, NULL, &config, &ivy) != IVY_DONE) return 2;
  ivy_exit_on_error(ivy, 1);
  me = ivy_me(ivy);
  nodes = ivy_nodes(ivy);
  if (me && ivy_map(ivy) != IVY_DONE) return 5;
  uint8_t *base = (uint8_t *)ivy_map_base(ivy);
  if (me == 1) ivy_give_root(ivy, 0, (uint64_t)((uint8_t *)ivy_map_malloc_pages(ivy, SIZE) - base));
  place = ivy_root(ivy, 0);
  if (me) by_pointers(base);
  else by_calls();
  meet(1);
  for (uint32_t i = 0; i < nodes * PART; i++) {
    uint8_t byte = 0;
    if (me) byte = base[place + BYTES + i];
    else ivy_get(ivy, place + BYTES + i, &byte, 1);
    must("a byte", byte, i / PART + 1);
  }
  must("the counter", ivy_get_uint64(ivy, place + COUNTER), TIMES * nodes);
  must("the number under the lock", ivy_get_double(ivy, place + NUMBER) == 0.5 * TIMES * nodes, 1);
  meet(2);
  return ivy_finalize(ivy);
}
