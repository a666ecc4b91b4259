/* What a page takes by plain pointers where many are gone through: between two processes, of which node 0 has written all pages, and node
 * 1 loads from each, upwards, and then stores to each. With a number of threads they load at once, each of its own pages, downwards. Prints
 * the median microseconds a page of both, or of the loads alone, and so many faults a sweep. Started by ivyrun -n 2. */
#ifndef _GNU_SOURCE
#define _GNU_SOURCE
#endif
#include "ivy_map.h"
#include <pthread.h>
#include <stdlib.h>
#include <time.h>

enum { PAGES = 256, ROUNDS = 31, MOST_THREADS = 8 };

typedef struct { uint64_t words[512]; } page;

static ivy_process *ivy;
static page *pages;
static uint64_t round_number;
static int threads;

static double now_us(void) {
  struct timespec t;
  clock_gettime(CLOCK_MONOTONIC, &t);
  return (double)t.tv_sec * 1e6 + (double)t.tv_nsec / 1e3;
}

static int compare(const void *a, const void *b) {
  double x = *(const double *)a, y = *(const double *)b;
  return x < y ? -1 : x > y;
}

static double median_of(double *took) {
  qsort(took, ROUNDS, sizeof took[0], compare);
  return took[ROUNDS / 2] / PAGES;
}

static void load(int i) {
  if (pages[i].words[0] == round_number) return;
  fprintf(stderr, "pointers: a load is wrong\n");
  exit(1);
}

static void *load_own(void *argument) {
  int which = (int)(intptr_t)argument;
  for (int i = PAGES / threads * (which + 1) - 1; i >= PAGES / threads * which; i--) load(i);
  return NULL;
}

static void load_all(void) {
  pthread_t others[MOST_THREADS];
  for (int i = 0; threads < 2 && i < PAGES; i++) load(i);
  for (int i = 0; threads > 1 && i < threads; i++) pthread_create(&others[i], NULL, load_own, (void *)(intptr_t)i);
  for (int i = 0; threads > 1 && i < threads; i++) pthread_join(others[i], NULL);
}

/* Who does so, between two meetings: how long that took. */
static double time_of(int is_store, uint32_t who) {
  ivy_map_barrier(ivy);
  double begun = now_us();
  for (int i = 0; ivy_me(ivy) == who && is_store && i < PAGES; i++) pages[i].words[0] = round_number;
  if (ivy_me(ivy) == who && !is_store) load_all();
  double took = now_us() - begun;
  ivy_map_barrier(ivy);
  return took;
}

int main(int argc, char **argv) {
  static double loads[ROUNDS], stores[ROUNDS];
  const ivy_config config = { 0, 2 * PAGES, 4096, IVY_DYNAMIC };
  threads = argc > 1 ? atoi(argv[1]) : 1;
  if (threads > MOST_THREADS || ivy_init_as(&argc, &argv, &config, &ivy) != IVY_DONE) return 2;
  if (threads > 1) ivy_use_threads(ivy);
  if (ivy_map(ivy) != IVY_DONE) return 2;
  ivy_exit_on_error(ivy, 1);
  if (ivy_me(ivy) == 0) *ivy_map_root(ivy) = ivy_map_malloc_pages(ivy, PAGES * sizeof *pages);
  ivy_map_barrier(ivy);
  pages = (page *)*ivy_map_root(ivy);
  for (int i = 0; i < ROUNDS; i++) {
    round_number++;
    time_of(1, 0);
    loads[i] = time_of(0, 1);
    round_number++;
    stores[i] = time_of(1, 1);
  }
  double faults = (double)ivy_map_counts_of(ivy).faults / ROUNDS;
  if (ivy_me(ivy) == 1 && threads > 1) printf("%.1f %.0f\n", median_of(loads), faults);
  else if (ivy_me(ivy) == 1) printf("%.1f %.1f %.0f\n", median_of(loads), median_of(stores), faults);
  return ivy_finalize(ivy);
}
