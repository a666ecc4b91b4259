/* What plain pointers take, between two processes: a hit beside plain memory; a read miss, a raise and a write miss beside the same by
 * a call on a page that is never lent, by turns in one run. Started by ivyrun -n 2. What is told is the least, a tenth and the median
 * of all, in microseconds, and how often the call's. With a number of seconds: all processes write one page without a pause so long,
 * and what is told is how long one of them did not go on, at most. */
#ifndef _GNU_SOURCE
#define _GNU_SOURCE
#endif
#include "ivy_map.h"
#include <stdlib.h>
#include <string.h>
#include <time.h>

enum { ROUNDS = 600, HITS = 4000000, HIT_ROUNDS = 20, BY_CALL = 5 * 4096 + 2048 };

typedef struct { double took[ROUNDS]; } samples;
typedef enum { READ, RAISE, WRITE, KINDS } kind;

static ivy_process *ivy;
static uint32_t me;
static uint64_t steps;

static double now_us(void) {
  struct timespec t;
  clock_gettime(CLOCK_MONOTONIC, &t);
  return (double)t.tv_sec * 1e6 + (double)t.tv_nsec / 1e3;
}

static int compare(const void *a, const void *b) {
  double x = *(const double *)a, y = *(const double *)b;
  return x < y ? -1 : x > y;
}

static void wrong(void) {
  fprintf(stderr, "pointers: a load is wrong\n");
  exit(1);
}

/* Both are here. */
static void meet(void) {
  ivy_advance(ivy, 0);
  ivy_await(ivy, 0, 2 * ++steps);
}

/* Node 0 has written, and node 1 does what is timed. */
static double by_pointer(kind it, volatile uint64_t *word, uint64_t should) {
  uint64_t seen = it == RAISE ? *word : 0;
  double begun = now_us();
  if (it == READ) seen = *word;
  else *word = seen + 1;
  double took = now_us() - begun;
  if (it == READ && seen != should) wrong();
  return took;
}

static double by_call(kind it, uint64_t should) {
  uint64_t seen = it == RAISE ? ivy_load(ivy, 8, BY_CALL) : 0;
  double begun = now_us();
  if (it == READ) seen = ivy_load(ivy, 8, BY_CALL);
  else ivy_store(ivy, 8, BY_CALL, seen + 1);
  double took = now_us() - begun;
  if (it == READ && seen != should) wrong();
  return took;
}

static void tell(const char *what, samples *own, samples *other) {
  qsort(own->took, ROUNDS, sizeof own->took[0], compare);
  qsort(other->took, ROUNDS, sizeof other->took[0], compare);
  printf("%s, by a pointer %.1f / %.1f / %.1f us, by a call %.1f / %.1f / %.1f, ratio %.2f / %.2f / %.2f\n", what, own->took[0],
         own->took[ROUNDS / 10], own->took[ROUNDS / 2], other->took[0], other->took[ROUNDS / 10], other->took[ROUNDS / 2],
         own->took[0] / other->took[0], own->took[ROUNDS / 10] / other->took[ROUNDS / 10], own->took[ROUNDS / 2] / other->took[ROUNDS / 2]);
}

/* The nanoseconds of a load and a store, where that is less than before. */
static void hit(volatile uint64_t *words, double *least) {
  double begun = now_us();
  for (int i = 0; i < HITS; i++) words[i & 511]++;
  double took = (now_us() - begun) * 1000 / HITS;
  if (took < *least) *least = took;
}

typedef struct { uint64_t all, laps[32]; double longest[32]; } shared_page;

static void share(shared_page *page, double seconds) {
  double last, now, end;
  ivy_map_barrier(ivy);
  last = now_us();
  end = last + seconds * 1e6;
  while ((now = now_us()) < end) {
    if (now - last > page->longest[me]) page->longest[me] = now - last;
    last = now;
    for (int i = 0; i < 100; i++) __atomic_fetch_add(&page->all, 1, __ATOMIC_SEQ_CST);
    page->laps[me] += 100;
  }
  ivy_map_barrier(ivy);
  double longest = 0;
  uint64_t laps = 0;
  for (uint32_t i = 0; i < ivy_nodes(ivy); i++) {
    laps += page->laps[i];
    if (page->longest[i] > longest) longest = page->longest[i];
  }
  if (laps != page->all) wrong();
  if (me == 0) printf("%s: one page that %u processes write for %.0f s: one stood still for %.0f ms at most, %.1f million additions\n",
                      ivy_map_image(ivy), ivy_nodes(ivy), seconds, longest / 1000, (double)laps / 1e6);
  ivy_map_barrier(ivy);
}

int main(int argc, char **argv) {
  static const char *const names[] = { "a read miss", "a raise", "a write miss" };
  static samples own, other;
  static uint64_t plain[512];
  ivy_config config;
  memset(&config, 0, sizeof config);
  config.pages = 64;
  config.page_size = 4096;
  config.manager = IVY_DYNAMIC;
  if (ivy_init_as(&argc, &argv, &config, &ivy) != IVY_DONE || ivy_map(ivy) != IVY_DONE) return 2;
  ivy_exit_on_error(ivy, 1);
  me = ivy_me(ivy);
  if (me == 0) *ivy_map_root(ivy) = ivy_map_malloc_pages(ivy, 4096);
  if (argc > 1) {
    ivy_map_barrier(ivy);
    share((shared_page *)*ivy_map_root(ivy), atof(argv[1]));
    return ivy_finalize(ivy);
  }
  meet();
  volatile uint64_t *word = (volatile uint64_t *)*ivy_map_root(ivy);
  if (me == 1) {
    double mapped = 1e18, here = 1e18;
    for (int round = 0; round < HIT_ROUNDS; round++) {
      hit(word, &mapped);
      hit(plain, &here);
    }
    printf("%s: a load and a store that hit, %.3f ns, in plain memory %.3f, ratio %.2f\n", ivy_map_image(ivy), mapped, here, mapped / here);
  }
  meet();
  for (int it = READ; it < KINDS; it++) {
    for (int round = 0; round < ROUNDS; round++) {
      if (me == 0) *word = (uint64_t)round;
      if (me == 0) ivy_store(ivy, 8, BY_CALL, (uint64_t)round);
      meet();
      if (me == 1 && round % 2) other.took[round] = by_call((kind)it, (uint64_t)round);
      if (me == 1) own.took[round] = by_pointer((kind)it, word, (uint64_t)round);
      if (me == 1 && round % 2 == 0) other.took[round] = by_call((kind)it, (uint64_t)round);
      meet();
    }
    if (me == 1) tell(names[it], &own, &other);
  }
  return ivy_finalize(ivy);
}
