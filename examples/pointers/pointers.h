/* What the examples of plain pointers share: each joins, maps 4,096 pages of 4,096 bytes, checks its result against one process,
 * and ends with 0. `ivyrun -n 4 NAME` runs it; compiled by mpicc with -DWITH_MPI, mpirun does. */
#ifndef IVY_POINTERS_H
#define IVY_POINTERS_H
#include "ivy_map.h"
#include <stdio.h>
#include <stdlib.h>
#include <string.h>
#ifdef WITH_MPI
#include "ivy_mpi.h"
#endif

static ivy_process *ivy;
static uint32_t me, nodes;

static inline void begin(int argc, char **argv) {
  ivy_config config;
  memset(&config, 0, sizeof config);
  config.pages = config.page_size = 4096;
  config.manager = IVY_DYNAMIC;
#ifdef WITH_MPI
  uint32_t status = ivy_init_mpi_as(&argc, &argv, &config, &ivy);
#else
  uint32_t status = ivy_init_as(&argc, &argv, &config, &ivy);
#endif
  if (status != IVY_DONE || ivy_map(ivy) != IVY_DONE) exit(2);
  ivy_exit_on_error(ivy, 1);
  me = ivy_me(ivy);
  nodes = ivy_nodes(ivy);
}

/* Memory in whole pages that all processes have: node 0 gets it, and the others find it at the root. */
static inline void *shared(size_t bytes) {
  if (me == 0) *ivy_map_root(ivy) = ivy_map_malloc_pages(ivy, bytes);
  ivy_map_barrier(ivy);
  void *found = *ivy_map_root(ivy);
  if (!found) exit(2);
  ivy_map_barrier(ivy);
  return found;
}

static inline int end(void) {
#ifdef WITH_MPI
  return ivy_finalize_mpi(ivy);
#else
  return ivy_finalize(ivy);
#endif
}

/* Ends with status 1 where something is another than it should be. */
static inline void expect(const char *what, int is_so) {
  if (is_so) return;
  fprintf(stderr, "node %u: %s is wrong\n", me, what);
  exit(1);
}
#endif
