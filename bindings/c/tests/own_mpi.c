/* Ivy beside what a program does with MPI itself, by 4 processes: [thread] [single]. Messages of the program reach it and no
 * node, and no string reaches it; two memories in one job; a memory of a part of the processes; and by a thread a barrier of
 * MPI while others wait for this node. */
#include "ivy_mpi.h"
#include <stdlib.h>
#include <string.h>

enum { PAGE = 256, EACH = 100, LONG = 6000, TAG = 1989, MEMORIES = 2 };

static int me, all;
static ivy_progress progress = IVY_IN_CALLS;

static void should_be(const char *what, uint64_t is, uint64_t should) {
  if (is == should) return;
  fprintf(stderr, "process %d: %s is %llu and not %llu\n", me, what, (unsigned long long)is, (unsigned long long)should);
  MPI_Abort(MPI_COMM_WORLD, 1);
}

static ivy_process *join(MPI_Comm communicator) {
  int own, many;
  MPI_Comm_rank(communicator, &own);
  MPI_Comm_size(communicator, &many);
  const ivy_config config = { (uint32_t)many, 4, PAGE, IVY_DYNAMIC };
  ivy_process *ivy = ivy_join(&config, (uint32_t)own, ivy_mpi_over(communicator), progress, 10000, 5000);
  should_be("whether it joined", ivy != NULL, 1);
  return ivy;
}

static void add(ivy_process *ivy) {
  for (int i = 0; i < EACH; i++) ivy_fetch_add(ivy, 8, PAGE, 1);
}

static void meet(ivy_process *ivy, uint64_t round) {
  ivy_advance(ivy, 0);
  ivy_await(ivy, 0, round * ivy_nodes(ivy));
}

/* A receive of the program for anything finds what the program sent, which has more bytes than a string. */
static void beside_messages(ivy_process *ivy) {
  static char sent[LONG], came[2 * LONG];
  MPI_Request coming, going;
  MPI_Status status;
  int is_there = 0, count;
  MPI_Irecv(came, sizeof came, MPI_BYTE, MPI_ANY_SOURCE, MPI_ANY_TAG, MPI_COMM_WORLD, &coming);
  add(ivy);
  meet(ivy, 1);
  MPI_Test(&coming, &is_there, &status);
  should_be("what nobody sent", (uint64_t)is_there, 0);
  meet(ivy, 2);
  MPI_Isend(sent, LONG, MPI_BYTE, (me + 1) % all, TAG, MPI_COMM_WORLD, &going);
  add(ivy);
  meet(ivy, 3);
  while (!is_there) {
    ivy_progress_now(ivy);
    MPI_Test(&coming, &is_there, &status);
  }
  MPI_Get_count(&status, MPI_BYTE, &count);
  should_be("what came", (uint64_t)count, LONG);
  MPI_Wait(&going, MPI_STATUS_IGNORE);
  meet(ivy, 4);
  should_be("the sum", ivy_load(ivy, 8, PAGE), 2 * EACH * (uint64_t)all);
  meet(ivy, 5);
}

static void several(void) {
  ivy_process *memories[MEMORIES];
  for (int i = 0; i < MEMORIES; i++) memories[i] = join(MPI_COMM_WORLD);
  for (int round = 0; round < EACH; round++)
    for (int i = 0; i < MEMORIES; i++) ivy_fetch_add(memories[i], 8, PAGE, (uint64_t)i + 1);
  for (int i = 0; i < MEMORIES; i++) meet(memories[i], 1);
  for (int i = 0; i < MEMORIES; i++)
    should_be("the sum", ivy_load(memories[i], 8, PAGE), (uint64_t)(i + 1) * EACH * (uint64_t)all);
  for (int i = 0; i < MEMORIES; i++) should_be("the last status", ivy_leave(memories[i]), IVY_DONE);
}

static void parts(void) {
  MPI_Comm part;
  MPI_Comm_split(MPI_COMM_WORLD, me % 2, 0, &part);
  ivy_process *ivy = join(part);
  add(ivy);
  meet(ivy, 1);
  should_be("the sum of a part", ivy_load(ivy, 8, PAGE), EACH * (uint64_t)ivy_nodes(ivy));
  ivy_leave(ivy);
  MPI_Comm_free(&part);
}

int main(int argc, char **argv) {
  int level, wanted = MPI_THREAD_MULTIPLE;
  for (int i = 1; i < argc; i++) {
    if (!strcmp(argv[i], "thread")) progress = IVY_BY_THREAD;
    if (!strcmp(argv[i], "single")) wanted = MPI_THREAD_SINGLE;
  }
  MPI_Init_thread(&argc, &argv, wanted, &level);
  MPI_Comm_rank(MPI_COMM_WORLD, &me);
  MPI_Comm_size(MPI_COMM_WORLD, &all);
  ivy_process *ivy = join(MPI_COMM_WORLD);
  beside_messages(ivy);
  if (progress == IVY_BY_THREAD && level == MPI_THREAD_MULTIPLE) {
    if (me == 1) add(ivy);
    MPI_Barrier(MPI_COMM_WORLD);
  }
  ivy_leave(ivy);
  several();
  parts();
  if (me == 0) printf("mpi: %d processes\n", all);
  MPI_Finalize();
  return 0;
}
