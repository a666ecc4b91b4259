/* A page of which a process hears for the first time while it waits: ROUNDS, by three. Node 0 writes a page of its own and waits for a
 * lock, which node 1 has, while node 2 takes and releases another one that lies beside it, so that node 0 looks by calls. Node 1 reads
 * that page, and finds what node 0 wrote. */
#include "map_test.h"

enum { MOST_ROUNDS = 400, OWN = 2, BESIDE = 4 };

typedef struct { uint64_t words[512]; } page;
typedef struct { volatile uint64_t waits, over, none[510]; } signs;

int main(int argc, char **argv) {
  uint64_t rounds = argc > 1 ? strtoull(argv[1], NULL, 10) : 200;
  begin_test_of(1024, 0);
  if (rounds > MOST_ROUNDS || nodes < 3) return 2;
  page *pages = (page *)shared_pages(2 * MOST_ROUNDS * sizeof *pages);
  signs *told = (signs *)shared_pages(2 * sizeof *told);
  for (uint64_t round = 1; round <= rounds; round++) {
    page *own = &pages[2 * (round - 1)];
    if (me == 1) ivy_map_lock_acquire(ivy, OWN);
    for (int i = 0; me == 0 && i < 512; i++) own->words[i] = round;
    ivy_map_barrier(ivy);
    if (me == 0) {
      ivy_map_lock_acquire(ivy, OWN);
      ivy_map_lock_release(ivy, OWN);
      told->over = round;
    }
    if (me == 1) {
      for (int i = 511; i >= 0; i--) must("a word of a page that was asked for first", own->words[i], round);
      ivy_map_lock_release(ivy, OWN);
    }
    while (me == 2 && told->over < round) {
      ivy_map_lock_acquire(ivy, BESIDE);
      ivy_map_lock_release(ivy, BESIDE);
    }
    ivy_map_barrier(ivy);
  }
  tell_counts("told", rounds);
  return ivy_finalize(ivy);
}
