/* A node in C beside one in Rattle, which does the work AddsUp of the crate example_programs: each raises a sum by its number
 * under a lock, and all read it once all have met. Called as an example is. */
#include "../examples/example.h"
#include "ivy_sync.h"

enum { PAGES = 64, PAGE = 4096, LOCK = 20 * PAGE, SUM = 21 * PAGE, MET = 0 };

int main(int argc, char **argv) {
  const ivy_lock lock = { LOCK };
  example e;
  begin_example(&e, argc, argv, PAGES, PAGE);
  ivy_barrier all = { MET, e.nodes, 0 };
  ivy_lock_acquire(e.ivy, lock);
  ivy_store(e.ivy, 8, SUM, ivy_load(e.ivy, 8, SUM) + e.me);
  ivy_lock_release(e.ivy, lock);
  ivy_barrier_wait(e.ivy, &all);
  expect(&e, "the sum", ivy_load(e.ivy, 8, SUM), (uint64_t)e.nodes * (e.nodes - 1) / 2);
  end_example(&e);
  return 0;
}
