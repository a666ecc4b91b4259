/* A product of matrices and a relaxation, by plain pointers between the processes of ivyrun, or by as many plain threads of one
 * process, of which each has a processor as those have: product|rows|relaxation SIZE threads|copies|nodes PARTS. Prints the
 * milliseconds of the best of some rounds, and what a process asked for. `rows` is the product row by row. `copies` is plain
 * processes, of which each has all matrices in memory of its own and gets nothing from the others: what no shared memory of
 * processes with copies can be faster than. */
#ifndef _GNU_SOURCE
#define _GNU_SOURCE
#endif
#include "ivy_map.h"
#include <pthread.h>
#include <sched.h>
#include <stdlib.h>
#include <string.h>
#include <sys/mman.h>
#include <sys/wait.h>
#include <time.h>
#include <unistd.h>

enum { ROUNDS = 3, SWEEPS = 20, MOST_PARTS = 8 };

static ivy_process *ivy;
static uint32_t parts;
static int size, block, is_product, has_copy;
static double *area;
static pthread_barrier_t *all_here;
static double best = 1e18;

static double now_ms(void) {
  struct timespec t;
  clock_gettime(CLOCK_MONOTONIC, &t);
  return (double)t.tv_sec * 1e3 + (double)t.tv_nsec / 1e6;
}

static void meet(void) {
  if (ivy) ivy_map_barrier(ivy);
  else pthread_barrier_wait(all_here);
}

/* By blocks of rows of the second operand that a processor's own cache holds. Where a block is all rows, each process streams its own
 * copy of that operand through the cache that all share, and threads stream one copy together. */
static void multiply(int first, int last) {
  const double *a = area, *b = area + (size_t)size * (size_t)size;
  double *c = area + 2 * (size_t)size * (size_t)size;
  for (int from = 0; from < size; from += block)
    for (int i = first; i < last; i++) {
      double *row = c + (size_t)i * (size_t)size;
      if (!from) memset(row, 0, (size_t)size * sizeof *row);
      for (int k = from; k < from + block && k < size; k++)
        for (int j = 0; j < size; j++) row[j] += a[(size_t)i * (size_t)size + (size_t)k] * b[(size_t)k * (size_t)size + (size_t)j];
    }
}

static void relax(int first, int last) {
  for (int half = 0; half < 2 * SWEEPS; half++) {
    for (int i = first > 0 ? first : 1; i < last && i < size - 1; i++) {
      double *row = area + (size_t)i * (size_t)size;
      for (int j = 1 + (i + half) % 2; j < size - 1; j += 2)
        row[j] += 0.4 * (row[j - size] + row[j + size] + row[j - 1] + row[j + 1] - 4 * row[j]);
    }
    meet();
  }
}

/* The processor of a thread: one of those that are allowed. */
static void take_processor(int part) {
  cpu_set_t allowed, own;
  int at = -1;
  if (sched_getaffinity(0, sizeof allowed, &allowed)) return;
  for (int left = part % CPU_COUNT(&allowed) + 1; left; left -= CPU_ISSET(at, &allowed) != 0) at++;
  CPU_ZERO(&own);
  CPU_SET(at, &own);
  sched_setaffinity(0, sizeof own, &own);
}

static void *work(void *argument) {
  int part = (int)(uintptr_t)argument, first = size * part / (int)parts, last = size * (part + 1) / (int)parts;
  if (!ivy) take_processor(part);
  for (int i = has_copy ? 0 : first; i < (has_copy ? size : last); i++)
    for (int j = 0; j < (is_product ? 3 : 1) * size; j++)
      area[(size_t)i * (size_t)size + (size_t)j % (size_t)size + (size_t)(j / size) * (size_t)size * (size_t)size] = (double)((i * 7 + j) % 13);
  for (int round = 0; round < ROUNDS; round++) {
    meet();
    double begun = now_ms();
    if (is_product) multiply(first, last);
    else relax(first, last);
    meet();
    if (part == 0 && now_ms() - begun < best) best = now_ms() - begun;
  }
  return NULL;
}

static void take_area(void) {
  area = (double *)calloc((size_t)(is_product ? 3 : 1) * (size_t)size * (size_t)size, sizeof *area);
}

/* One barrier for threads and for processes. */
static void take_barrier(void) {
  pthread_barrierattr_t shared;
  all_here = (pthread_barrier_t *)mmap(NULL, sizeof *all_here, PROT_READ | PROT_WRITE, MAP_SHARED | MAP_ANONYMOUS, -1, 0);
  pthread_barrierattr_init(&shared);
  pthread_barrierattr_setpshared(&shared, PTHREAD_PROCESS_SHARED);
  pthread_barrier_init(all_here, &shared, parts);
}

static void by_threads(void) {
  pthread_t threads[MOST_PARTS];
  take_area();
  for (uint32_t i = 0; i < parts; i++) pthread_create(&threads[i], NULL, work, (void *)(uintptr_t)i);
  for (uint32_t i = 0; i < parts; i++) pthread_join(threads[i], NULL);
  printf("%.1f\n", best);
}

static void by_copies(void) {
  has_copy = 1;
  for (uint32_t i = 1; i < parts; i++)
    if (!fork()) {
      take_area();
      work((void *)(uintptr_t)i);
      _exit(0);
    }
  take_area();
  work(NULL);
  while (wait(NULL) > 0) continue;
  printf("%.1f\n", best);
}

static int by_nodes(int argc, char **argv) {
  ivy_config config;
  memset(&config, 0, sizeof config);
  config.pages = 32768;
  config.page_size = 4096;
  config.manager = IVY_DYNAMIC;
  if (ivy_init_as(&argc, &argv, &config, &ivy) != IVY_DONE || ivy_map(ivy) != IVY_DONE) return 2;
  ivy_exit_on_error(ivy, 1);
  size_t bytes = (size_t)(is_product ? 3 : 1) * (size_t)size * (size_t)size * sizeof *area;
  if (ivy_me(ivy) == 0) *ivy_map_root(ivy) = ivy_map_malloc_pages(ivy, bytes);
  meet();
  area = (double *)*ivy_map_root(ivy);
  parts = ivy_nodes(ivy);
  work((void *)(uintptr_t)ivy_me(ivy));
  ivy_map_counts c = ivy_map_counts_of(ivy);
  if (ivy_me(ivy) == 0)
    printf("%.1f %llu %llu %llu\n", best, (unsigned long long)c.asked, (unsigned long long)c.gone, (unsigned long long)c.kept);
  return ivy_finalize(ivy);
}

int main(int argc, char **argv) {
  if (argc < 5) return 2;
  is_product = strcmp(argv[1], "relaxation") != 0;
  size = atoi(argv[2]);
  block = strcmp(argv[1], "product") ? size : 64;
  parts = (uint32_t)atoi(argv[4]);
  if (parts < 1 || parts > MOST_PARTS) return 2;
  if (!strcmp(argv[3], "nodes")) return by_nodes(argc, argv);
  take_barrier();
  if (strcmp(argv[3], "copies")) by_threads();
  else by_copies();
  return 0;
}
