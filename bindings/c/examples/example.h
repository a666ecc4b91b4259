/* What the examples share: one source runs as `ivyrun -n NODES NAME`, by the environment; over UDP, as `NAME udp NODE NODES
 * PORT [OPTION..]`; and over MPI, as `mpirun -np NODES NAME mpi [OPTION..]`. Options: thread, fixed, lossy, and `log FOLDER`,
 * where each node's log is FOLDER/NODE.log. */
#ifndef IVY_EXAMPLE_H
#define IVY_EXAMPLE_H
#include "ivy_runtime.h"
#include <stdio.h>
#include <stdlib.h>
#include <string.h>
#ifdef WITH_MPI
#include <mpi.h>
#endif

typedef struct {
  ivy_process *ivy;
  uint32_t me, nodes;
  uint64_t rounds; /* of the barrier, which is eventcount 0 */
  int by_mpi;
  FILE *log;
} example;

/* The log of this node in a folder. */
static inline FILE *open_log(const example *e, const char *folder) {
  char path[4096];
  snprintf(path, sizeof path, "%s/%u.log", folder, e->me);
  FILE *log;
  if (ivy_open_log(path, &log)) exit(2);
  return log;
}

/* Where and how a process of an example joins. */
typedef struct {
  ivy_config config;
  ivy_progress progress;
  ivy_transport transport;
  const char *folder;
  int lossy;
} example_start;

static inline void read_options(example_start *start, int argc, char **argv, int first) {
  for (int i = first; i < argc; i++) {
    if (!strcmp(argv[i], "thread")) start->progress = IVY_BY_THREAD;
    if (!strcmp(argv[i], "fixed")) start->config.manager = IVY_FIXED;
    if (!strcmp(argv[i], "dynamic")) start->config.manager = IVY_DYNAMIC;
    if (!strcmp(argv[i], "steady")) start->config.manager = IVY_STEADY;
    if (!strcmp(argv[i], "lossy")) start->lossy = 1;
    if (!strcmp(argv[i], "log") && i + 1 < argc) start->folder = argv[++i];
  }
}

static inline void begin_by_mpi(example *e, example_start *start, int argc, char **argv) {
#ifdef WITH_MPI
  int level, rank, size;
  read_options(start, argc, argv, 2);
  MPI_Init_thread(&argc, &argv, MPI_THREAD_MULTIPLE, &level);
  MPI_Comm_rank(MPI_COMM_WORLD, &rank);
  MPI_Comm_size(MPI_COMM_WORLD, &size);
  e->by_mpi = 1;
  e->me = (uint32_t)rank;
  e->nodes = (uint32_t)size;
  start->transport = ivy_mpi();
#else
  (void)e, (void)start, (void)argc, (void)argv;
  fprintf(stderr, "built without MPI\n");
  exit(2);
#endif
}

static inline void begin_by_udp(example *e, example_start *start, int argc, char **argv) {
  if (argc < 5) {
    fprintf(stderr, "usage: %s udp NODE NODES PORT [thread] [fixed | dynamic] [lossy] [log FOLDER]\n", argv[0]);
    exit(2);
  }
  read_options(start, argc, argv, 5);
  e->me = (uint32_t)atoi(argv[2]);
  e->nodes = (uint32_t)atoi(argv[3]);
  unsigned tenth = start->lossy ? 10 : 0;
  start->transport = ivy_udp(e->me, e->nodes, (uint16_t)atoi(argv[4]), tenth, tenth, 2 * tenth);
}

static inline void begin_example(example *e, int argc, char **argv, uint32_t pages, uint32_t page_size) {
  example_start start;
  memset(e, 0, sizeof *e);
  memset(&start, 0, sizeof start);
  start.config.pages = pages;
  start.config.page_size = page_size;
  start.config.manager = IVY_STEADY;
  if (argc == 1) {
    ivy_init_as(&argc, &argv, &start.config, &e->ivy);
  } else {
    if (!strcmp(argv[1], "mpi")) begin_by_mpi(e, &start, argc, argv);
    else begin_by_udp(e, &start, argc, argv);
    start.config.nodes = e->nodes;
    if (start.folder) e->log = open_log(e, start.folder);
    e->ivy = ivy_join_logging(&start.config, e->me, start.transport, start.progress, 10000, 5000, e->log);
  }
  if (!e->ivy) exit(2);
  ivy_exit_on_error(e->ivy, 1);
  e->me = ivy_me(e->ivy);
  e->nodes = ivy_nodes(e->ivy);
}

static inline void end_example(example *e) {
  ivy_leave(e->ivy);
  if (e->log) fclose(e->log);
#ifdef WITH_MPI
  if (e->by_mpi) MPI_Finalize();
#endif
}

/* Nobody goes on before all are here. */
static inline void barrier(example *e) {
  e->rounds++;
  ivy_advance(e->ivy, 0);
  ivy_await(e->ivy, 0, e->rounds * e->nodes);
}

/* Ends with status 1 where the result is another one. */
static inline void expect(const example *e, const char *what, uint64_t is, uint64_t should) {
  if (is == should) return;
  fprintf(stderr, "node %u: %s is %llu and not %llu\n", e->me, what, (unsigned long long)is, (unsigned long long)should);
  exit(1);
}
#endif
