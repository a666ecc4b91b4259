/* What a meeting takes: by a count, by two words, by a tree, and over MPI by MPI_Barrier, by turns in one run of as many processes
 * as ivyrun or mpirun started. Node 0 tells the median of all rounds, and each median beside that of a count. */
#define _POSIX_C_SOURCE 200809L
#include "ivy_sync.h"
#ifdef WITH_MPI
#include "ivy_mpi.h"
#endif
#include <stdlib.h>
#include <time.h>

enum { PAGE = 1024, PAGES = 128, ROUNDS = 11, TIMES = 40, SETTLED = 0, MET = 1 };
enum { ARRIVED = 1, OPENED, RAISED, GONE_ON = RAISED + 32 }; /* pages */
enum { COUNT, WORDS, TREE, PLAIN, KINDS };

static const char *const names[KINDS] = { "a count", "two words", "a tree", "MPI_Barrier" };
static ivy_process *ivy;
static ivy_barrier by_count, settled;
static ivy_word_barrier by_words;
static ivy_tree_barrier by_tree;

static double now_us(void) {
  struct timespec t;
  clock_gettime(CLOCK_MONOTONIC, &t);
  return (double)t.tv_sec * 1e6 + (double)t.tv_nsec / 1e3;
}

static int compare(const void *a, const void *b) {
  double x = *(const double *)a, y = *(const double *)b;
  return x < y ? -1 : x > y;
}

static void meet(int kind) {
  if (kind == COUNT) ivy_barrier_wait(ivy, &by_count);
  if (kind == WORDS) ivy_word_barrier_wait(ivy, &by_words);
  if (kind == TREE) ivy_tree_barrier_wait(ivy, &by_tree, ivy_me(ivy));
#ifdef WITH_MPI
  if (kind == PLAIN) MPI_Barrier(MPI_COMM_WORLD);
#endif
}

/* Nobody goes on before all are here; over MPI all serve until then. */
static void settle(void) {
  ivy_barrier_wait(ivy, &settled);
#ifdef WITH_MPI
  MPI_Request all;
  int is_over = 0;
  MPI_Ibarrier(MPI_COMM_WORLD, &all);
  while (!is_over) {
    ivy_progress_now(ivy);
    MPI_Test(&all, &is_over, MPI_STATUS_IGNORE);
  }
#endif
}

/* Microseconds of one meeting. */
static double time_of(int kind) {
  settle();
  meet(kind);
  double begun = now_us();
  for (int i = 0; i < TIMES; i++) meet(kind);
  return (now_us() - begun) / TIMES;
}

static void tell(double took[KINDS][ROUNDS], int kinds, const char *by) {
  double medians[KINDS];
  for (int kind = 0; kind < kinds; kind++) {
    qsort(took[kind], ROUNDS, sizeof took[kind][0], compare);
    medians[kind] = took[kind][ROUNDS / 2];
  }
  printf("%s, %u meet:", by, ivy_nodes(ivy));
  for (int kind = 0; kind < kinds; kind++)
    printf(" %s %.1f us (%.2f of a count)%s", names[kind], medians[kind], medians[kind] / medians[COUNT], kind + 1 < kinds ? "," : "\n");
}

int main(int argc, char **argv) {
  static double took[KINDS][ROUNDS];
  ivy_config config = { 0, PAGES, PAGE, IVY_DYNAMIC };
#ifdef WITH_MPI
  uint32_t status = ivy_init_mpi_as(&argc, &argv, &config, &ivy);
  const char *by = "MPI";
  int kinds = KINDS;
#else
  uint32_t status = ivy_init_as(&argc, &argv, &config, &ivy);
  const char *by = "UDP";
  int kinds = PLAIN;
#endif
  if (status != IVY_DONE) return 2;
  ivy_exit_on_error(ivy, 1);
  const ivy_barrier count = { MET, ivy_nodes(ivy), 0 }, first = { SETTLED, ivy_nodes(ivy), 0 };
  const ivy_word_barrier words = { ARRIVED * PAGE, OPENED * PAGE, ivy_nodes(ivy), 0 };
  const ivy_tree_barrier tree = { RAISED * PAGE, GONE_ON * PAGE, PAGE, ivy_nodes(ivy), 0 };
  by_count = count;
  settled = first;
  by_words = words;
  by_tree = tree;
  for (int round = 0; round < ROUNDS; round++)
    for (int kind = 0; kind < kinds; kind++) took[kind][round] = time_of(kind);
  if (ivy_me(ivy) == 0) tell(took, kinds, by);
#ifdef WITH_MPI
  settle();
  return ivy_finalize_mpi(ivy);
#else
  return ivy_finalize(ivy);
#endif
}
