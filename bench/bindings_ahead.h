/* What bindings_ahead.c and bindings_grid.c share: two processes that join memories over UDP, or over MPI (WITH_MPI), with
 * progress by a thread. Over UDP each is called with a port, of which it and three more are taken. */
#ifndef BINDINGS_AHEAD_H
#define BINDINGS_AHEAD_H
#define _GNU_SOURCE
#include "ivy_native.h"
#include <sched.h>
#include <stdlib.h>
#include <string.h>
#include <sys/wait.h>
#include <time.h>
#include <unistd.h>
#ifdef WITH_MPI
#include <mpi.h>
#endif

#ifndef MANAGER
#define MANAGER IVY_DYNAMIC
#endif

enum { PAGE = 4096, NODES = 2, MOST_FORMS = 2 };

static uint32_t me;
static int forms;

static double now_us(void) {
  struct timespec t;
  clock_gettime(CLOCK_MONOTONIC, &t);
  return (double)t.tv_sec * 1e6 + (double)t.tv_nsec / 1e3;
}

static void wrong(const char *what) {
  fprintf(stderr, "bindings: %s\n", what);
  exit(1);
}

static int compare(const void *a, const void *b) {
  double x = *(const double *)a, y = *(const double *)b;
  return x < y ? -1 : x > y;
}

static double median_of(double *took, int many) {
  qsort(took, (size_t)many, sizeof took[0], compare);
  return took[many / 2];
}

#ifdef WITH_MPI
static const char *const by = "MPI, by thread";

static void begin_both(int argc, char **argv) {
  int level, rank;
  MPI_Init_thread(&argc, &argv, MPI_THREAD_MULTIPLE, &level);
  MPI_Comm_rank(MPI_COMM_WORLD, &rank);
  me = (uint32_t)rank;
}

static ivy_transport transport_of(int form) {
  (void)form;
  return ivy_mpi();
}

static int end_both(void) {
  MPI_Finalize();
  return 0;
}
#else
static const char *const by = "UDP, by thread";
static int child, port;

/* Each has a processor of its own, as mpirun gives them. */
static void begin_both(int argc, char **argv) {
  cpu_set_t one;
  port = argc > 1 ? atoi(argv[1]) : 9000;
  child = fork();
  me = child == 0;
  CPU_ZERO(&one);
  CPU_SET(me, &one);
  if (sched_setaffinity(0, sizeof one, &one)) fprintf(stderr, "bindings: processor %u is not to be had\n", me);
}

static ivy_transport transport_of(int form) { return ivy_udp(me, NODES, (uint16_t)(port + 2 * form), 0, 0, 0); }

static int end_both(void) {
  int status = 0;
  if (child) waitpid(child, &status, 0);
  return status != 0;
}
#endif

/* Joins a memory in which so many pages at most are fetched ahead. */
static ivy_process *join_with(const char *ahead, uint32_t pages) {
  const ivy_config config = { NODES, pages, PAGE, MANAGER };
  setenv("IVY_AHEAD", ahead, 1);
  ivy_process *ivy = ivy_join(&config, me, transport_of(forms++), IVY_BY_THREAD, 10000, 0);
  if (!ivy) wrong("the processes do not join");
  ivy_exit_on_error(ivy, 1);
  return ivy;
}

/* Nobody goes on before both are here: so many meetings were before. */
static void meet(ivy_process *ivy, uint64_t *before) {
  ivy_advance(ivy, 0);
  ivy_await(ivy, 0, NODES * ++*before);
}

#endif
