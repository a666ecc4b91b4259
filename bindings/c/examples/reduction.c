/* A barrier and a reduction: each node writes a part, and all read the sum. */
#include "example.h"

enum { PAGE = 256, PARTS = PAGE, ROUNDS = 20 };

int main(int argc, char **argv) {
  example e;
  begin_example(&e, argc, argv, 4, PAGE);
  for (uint64_t round = 1; round <= ROUNDS; round++) {
    ivy_store(e.ivy, 8, PARTS + 8 * e.me, round * (e.me + 1));
    barrier(&e);
    uint64_t sum = 0;
    for (uint32_t i = 0; i < e.nodes; i++) sum += ivy_load(e.ivy, 8, PARTS + 8 * i);
    expect(&e, "the sum", sum, round * e.nodes * (e.nodes + 1) / 2);
    barrier(&e);
  }
  if (e.me == 0) printf("reduction: %d sums\n", ROUNDS);
  end_example(&e);
  return 0;
}
