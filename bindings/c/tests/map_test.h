/* What the tests of mapped memory share. Started by ivyrun, each ends with 0 where all is right. */
#ifndef IVY_MAP_TEST_H
#define IVY_MAP_TEST_H
#ifndef _GNU_SOURCE
#define _GNU_SOURCE
#endif
#include "ivy_map.h"
#include <stdlib.h>
#include <string.h>
#include <time.h>
#include <unistd.h>

static ivy_process *ivy;
static uint32_t me, nodes;

static inline void begin_test_of(uint32_t pages, int threads) {
  ivy_config config;
  memset(&config, 0, sizeof config);
  config.pages = pages;
  config.page_size = 4096;
  config.manager = IVY_DYNAMIC;
  if (ivy_init_as(NULL, NULL, &config, &ivy) != IVY_DONE) exit(2);
  if (threads) ivy_use_threads(ivy);
  ivy_exit_on_error(ivy, 1);
  if (ivy_map(ivy) != IVY_DONE) exit(5);
  me = ivy_me(ivy);
  nodes = ivy_nodes(ivy);
}

/* Memory that all processes have, in whole pages: what node 0 got. */
static inline void *shared_pages(size_t bytes) {
  void **root = ivy_map_root(ivy);
  if (me == 0) *root = ivy_map_malloc_pages(ivy, bytes);
  ivy_map_barrier(ivy);
  void *found = *root;
  if (!found) exit(6);
  ivy_map_barrier(ivy);
  return found;
}

static inline void must(const char *what, uint64_t is, uint64_t should) {
  if (is == should) return;
  fprintf(stderr, "node %u: %s is %llu and not %llu\n", me, what, (unsigned long long)is, (unsigned long long)should);
  _exit(1);
}

static inline double seconds(void) {
  struct timespec t;
  clock_gettime(CLOCK_MONOTONIC, &t);
  return (double)t.tv_sec + (double)t.tv_nsec / 1e9;
}

static inline void tell_counts(const char *what, unsigned long long laps) {
  ivy_map_counts c = ivy_map_counts_of(ivy);
  if (getenv("IVY_TELL"))
    fprintf(stderr, "%s, node %u, %s: %llu laps, %llu faults, %llu asked, %llu gone, %llu taken, %llu tokens, %llu kept\n", what, me,
            ivy_map_image(ivy), laps, (unsigned long long)c.faults, (unsigned long long)c.asked, (unsigned long long)c.gone,
            (unsigned long long)c.taken, (unsigned long long)c.tokens, (unsigned long long)c.kept);
}

/* Numbers that are drawn: the same in all processes from one seed. */
static inline uint64_t draw_next(uint64_t *seed) {
  *seed ^= *seed << 13;
  *seed ^= *seed >> 7;
  *seed ^= *seed << 17;
  return *seed * 2685821657736338717ull >> 11;
}
#endif
