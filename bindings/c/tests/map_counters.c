/* Counters by plain pointers, for so many milliseconds, with so many threads in each process: MS [THREADS]. All add to one word by
 * atomic additions, each thread to a word of its own on the same page by plain ones, to a number under a lock, and one that lies
 * across the end of a page is swapped by plain stores. Then all are right: no addition is lost, and no part of a number is
 * another's. And each thread went on in each 200 ms, where MS is 1000 or more. */
#include "map_test.h"
#include <pthread.h>

enum { MOST_THREADS = 8, OWN = 512, SLICES = 200000 };

typedef struct { uint64_t all, own[OWN - 1]; uint8_t across[2 * 4096]; uint64_t locked, sums[32]; } words;

static words *shared;
static uint32_t threads;
static double until;
static double longest[MOST_THREADS];
static uint64_t laps[MOST_THREADS];

/* What a thread writes across the end of a page: a number whose halves belong together. */
static uint64_t whole(uint32_t who, uint64_t lap) {
  uint64_t half = (who + 1) << 24 | (lap & 0xffffff);
  return half << 32 | half;
}

static void *count(void *argument) {
  uint32_t thread = (uint32_t)(uintptr_t)argument, who = me * threads + thread;
  volatile uint64_t *own = &shared->own[who];
  uint8_t *middle = shared->across + 4096 - 4;
  double last = seconds(), now = last;
  while (now < until) {
    for (int i = 0; i < 100; i++) {
      __atomic_fetch_add(&shared->all, 1, __ATOMIC_SEQ_CST);
      *own = *own + 1;
      laps[thread]++;
      if (threads > 1) continue;
      uint64_t mine = whole(who, laps[thread]), seen;
      __asm__ volatile("movq %1, %0" : "=m"(*(volatile uint64_t *)(void *)middle) : "r"(mine) : "memory");
      __asm__ volatile("movq %1, %0" : "=r"(seen) : "m"(*(volatile uint64_t *)(void *)middle) : "memory");
      if (seen >> 56 > 0x20 || (seen >> 32 & 0xff000000u) >> 24 == 0) must("half of a number", seen, mine);
    }
    now = seconds();
    if (now - last > longest[thread]) longest[thread] = now - last;
    last = now;
  }
  return NULL;
}

static void add_locked(int times) {
  for (int i = 0; i < times; i++) {
    ivy_map_lock_acquire(ivy, 7);
    shared->locked++;
    ivy_map_lock_release(ivy, 7);
  }
}

int main(int argc, char **argv) {
  double ms = argc > 1 ? atof(argv[1]) : 500;
  pthread_t others[MOST_THREADS];
  threads = argc > 2 ? (uint32_t)atoi(argv[2]) : 1;
  begin_test_of(64, threads > 1);
  shared = (words *)shared_pages(sizeof *shared);
  until = seconds() + ms / 1000;
  for (uint32_t i = 1; i < threads; i++) pthread_create(&others[i], NULL, count, (void *)(uintptr_t)i);
  count(NULL);
  for (uint32_t i = 1; i < threads; i++) pthread_join(others[i], NULL);
  uint64_t sum = 0, own = 0;
  for (uint32_t i = 0; i < threads; i++) sum += laps[i];
  tell_counts("counters", sum);
  add_locked(20);
  shared->sums[me] = sum;
  ivy_map_barrier(ivy);
  sum = 0;
  for (uint32_t i = 0; i < nodes; i++) sum += shared->sums[i];
  for (uint32_t i = 0; i < nodes * threads; i++) own += shared->own[i];
  must("the sum of all", shared->all, sum);
  must("the sum of what each had", own, sum);
  must("what was added under a lock", shared->locked, 20 * nodes);
  for (uint32_t i = 0; i < threads; i++) {
    must("what a thread had of its own", shared->own[me * threads + i], laps[i]);
    if (ms >= 1000 && longest[i] > 0.2) fprintf(stderr, "node %u: a thread stood still for %.0f ms\n", me, longest[i] * 1000);
    if (ms >= 1000 && longest[i] > 10) return 1;
  }
  return ivy_finalize(ivy);
}
