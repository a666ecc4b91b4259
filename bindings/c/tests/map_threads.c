/* Threads that miss at once, and make calls beside: TIMES. In each process some threads add to drawn words of pages that all use, by
 * atomic additions and by calls, and to one word of a page that is never lent, by calls; others sweep over the pages. No addition is
 * lost, and no call is refused. */
#include "map_test.h"
#include <pthread.h>

enum { PAGES = 24, ADDING = 3, SWEEPING = 2, CALLED = 4096 + 64 };

typedef struct { uint64_t words[512]; } page;

static page *pages;
static uint64_t times, base;

static void *add(void *argument) {
  uint64_t seed = 88172645463325252u + 977 * (uint64_t)(uintptr_t)argument;
  for (uint64_t i = 0; i < times; i++) {
    uint64_t which = draw_next(&seed) % PAGES, word = draw_next(&seed) % 4;
    if (i % 8 == 7) ivy_fetch_add(ivy, 8, CALLED, 1);
    else if (i % 8 == 6) ivy_fetch_add(ivy, 8, base + which * sizeof *pages + 8 * (4 + word), 1);
    else __atomic_fetch_add(&pages[which].words[word], 1, __ATOMIC_SEQ_CST);
  }
  return NULL;
}

/* What was added by calls has its highest byte first. */
static uint64_t sum_of(uint64_t *by_calls) {
  uint64_t sum = 0;
  *by_calls = 0;
  for (int i = 0; i < PAGES; i++)
    for (int k = 0; k < 4; k++) {
      sum += __atomic_load_n(&pages[i].words[k], __ATOMIC_SEQ_CST);
      *by_calls += __builtin_bswap64(__atomic_load_n(&pages[i].words[4 + k], __ATOMIC_SEQ_CST));
    }
  return sum;
}

static void *sweep(void *argument) {
  uint64_t last = 0, sum, by_calls;
  (void)argument;
  for (uint64_t i = 0; i < times / 50; i++, last = sum) {
    sum = sum_of(&by_calls);
    must("whether a sum is not less than before", sum >= last, 1);
  }
  return NULL;
}

int main(int argc, char **argv) {
  pthread_t threads[ADDING + SWEEPING];
  uint64_t by_calls;
  times = argc > 1 ? strtoull(argv[1], NULL, 10) : 400;
  times -= times % 8;
  begin_test_of(128, 1);
  pages = (page *)shared_pages(PAGES * sizeof *pages);
  base = (uint64_t)((uint8_t *)pages - (uint8_t *)ivy_map_base(ivy));
  for (uintptr_t i = 0; i < ADDING + SWEEPING; i++)
    pthread_create(&threads[i], NULL, i < ADDING ? add : sweep, (void *)(i + ADDING * (uintptr_t)me + 1));
  for (int i = 0; i < ADDING + SWEEPING; i++) pthread_join(threads[i], NULL);
  ivy_map_barrier(ivy);
  must("what all added by pointers", sum_of(&by_calls), times / 8 * 6 * ADDING * nodes);
  must("what all added by calls", by_calls, times / 8 * ADDING * nodes);
  must("what all added elsewhere", ivy_load(ivy, 8, CALLED), times / 8 * ADDING * nodes);
  tell_counts("threads", times);
  ivy_map_barrier(ivy);
  return ivy_finalize(ivy);
}
