/* Two processes that write one page without a pause: MS. A page that comes is there: hardly any is gone before it could be used. */
#include "map_test.h"

int main(int argc, char **argv) {
  begin_test_of(64, 0);
  double until = seconds() + (argc > 1 ? atof(argv[1]) : 500) / 1000;
  uint64_t *shared = (uint64_t *)shared_pages(4096), laps = 0;
  while (seconds() < until) {
    for (int i = 0; i < 100; i++) __atomic_fetch_add(shared, 1, __ATOMIC_SEQ_CST);
    laps += 100;
  }
  ivy_map_counts c = ivy_map_counts_of(ivy);
  tell_counts("progress", laps);
  ivy_map_barrier(ivy);
  if (c.asked > 8 && c.gone * 8 > c.asked) {
    fprintf(stderr, "node %u: of %llu pages %llu were gone when they came\n", me, (unsigned long long)c.asked, (unsigned long long)c.gone);
    _exit(1);
  }
  return ivy_finalize(ivy);
}
