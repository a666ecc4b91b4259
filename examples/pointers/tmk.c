/* A program as for TreadMarks: a counter under a lock, and an array that each process fills a part of. */
#include "ivy_tmk.h"

enum { PART = 500, TIMES = 30 };

typedef struct { int counter; int array[32 * PART]; } shared_data;
static shared_data *shared;

int main(int argc, char **argv) {
  Tmk_startup(argc, argv);
  if (Tmk_proc_id == 0) {
    shared = (shared_data *)(void *)Tmk_malloc(sizeof *shared);
    shared->counter = 0;
    Tmk_distribute(&shared, sizeof shared);
  }
  Tmk_barrier(0);
  for (int i = 0; i < TIMES; i++) {
    Tmk_lock_acquire(0);
    shared->counter++;
    Tmk_lock_release(0);
  }
  for (int i = 0; i < PART; i++) shared->array[Tmk_proc_id * PART + i] = (int)Tmk_proc_id * PART + i;
  Tmk_barrier(1);
  int is_right = shared->counter == TIMES * (int)Tmk_nprocs;
  for (int i = 0; i < (int)Tmk_nprocs * PART; i++) is_right = is_right && shared->array[i] == i;
  Tmk_barrier(2);
  Tmk_exit(is_right ? 0 : 1);
  return 0;
}
