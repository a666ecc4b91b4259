/* A read miss and a page handed over between two processes over MPI, beside the same bytes by MPI alone. With
 * an argument progress is made by a thread. */
#define _POSIX_C_SOURCE 200809L
#include "bindings_pace.h"
#include <mpi.h>

enum { PAGE = 4096, TAG = 7 };

static MPI_Comm beside; /* what is sent without Ivy, apart */
static int other;
static char bytes[IVY_STRING_MOST];

static void put(size_t len) { MPI_Send(bytes, (int)len, MPI_BYTE, other, TAG, beside); }
static void get(size_t len) { MPI_Recv(bytes, (int)len, MPI_BYTE, other, TAG, beside, MPI_STATUS_IGNORE); }

/* Nobody goes on before both are here, and both serve until then. */
static void settle(ivy_process *ivy) {
  MPI_Request barrier;
  int is_over = 0;
  MPI_Ibarrier(beside, &barrier);
  while (!is_over) {
    ivy_progress_now(ivy);
    MPI_Test(&barrier, &is_over, MPI_STATUS_IGNORE);
  }
}

int main(int argc, char **argv) {
  static samples missed, exchanged, rows, handed, to_and_fro;
  int me, level;
  ivy_config config = { 2, PAGES, PAGE, MANAGER };
  ivy_progress progress = argc > 1 ? IVY_BY_THREAD : IVY_IN_CALLS;
  const char *by = argc > 1 ? "MPI, by thread" : "MPI";
  MPI_Init_thread(&argc, &argv, MPI_THREAD_MULTIPLE, &level);
  MPI_Comm_rank(MPI_COMM_WORLD, &me);
  MPI_Comm_dup(MPI_COMM_WORLD, &beside);
  other = !me;
  ivy_process *ivy = ivy_join(&config, (uint32_t)me, measured(ivy_mpi()), progress, 10000, 0);
  if (!ivy) return 2;
  for (int round = 0; round < ROUNDS; round++) {
    miss(ivy, me, PAGE, round, &missed);
    settle(ivy);
    size_t lengths[2] = { asked, answered };
    MPI_Bcast(lengths, sizeof lengths, MPI_BYTE, 1, beside);
    plain(me, lengths[0], lengths[1], 1, &exchanged, put, get);
    in_a_row(ivy, me, PAGE, round, &rows);
    settle(ivy);
    hand_over(ivy, me, PAGE, round, &handed);
    settle(ivy);
    plain(me, lengths[1], lengths[1], 0.5, &to_and_fro, put, get);
  }
  if (me) {
    printf("MPI: a request of %zu bytes, a reply of %zu\n", asked, answered);
    tell_all(by, PAGE, &missed, &rows, &exchanged);
    tell(by, PAGE, "a page handed to and fro by two that write by turns, one way", &handed, "a ping-pong one way", &to_and_fro);
  }
  ivy_leave(ivy);
  MPI_Finalize();
  return 0;
}
