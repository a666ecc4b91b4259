/* A lock round a counter: all nodes add to one number, and none is lost. */
#include "example.h"

enum { PAGE = 256, EACH = 200, LOCK = PAGE, COUNTER = PAGE + 8 };

int main(int argc, char **argv) {
  example e;
  begin_example(&e, argc, argv, 4, PAGE);
  for (int i = 0; i < EACH; i++) {
    while (ivy_swap(e.ivy, 8, LOCK, 1)) { }
    ivy_store(e.ivy, 8, COUNTER, ivy_load(e.ivy, 8, COUNTER) + 1);
    ivy_store(e.ivy, 8, LOCK, 0);
  }
  barrier(&e);
  expect(&e, "the counter", ivy_load(e.ivy, 8, COUNTER), (uint64_t)EACH * e.nodes);
  if (e.me == 0) printf("counter: %llu\n", (unsigned long long)ivy_load(e.ivy, 8, COUNTER));
  end_example(&e);
  return 0;
}
