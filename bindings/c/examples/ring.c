/* A ring of awaits: a token goes round, and each node adds its number to it. */
#include "example.h"

enum { PAGE = 256, ROUNDS = 50, TOKEN = PAGE };

int main(int argc, char **argv) {
  example e;
  begin_example(&e, argc, argv, 2, PAGE);
  uint32_t next = (e.me + 1) % e.nodes;
  for (uint64_t round = 1; round <= ROUNDS; round++) {
    if (e.me != 0 || round > 1) ivy_await(e.ivy, 1 + e.me, e.me == 0 ? round - 1 : round);
    ivy_store(e.ivy, 8, TOKEN, ivy_load(e.ivy, 8, TOKEN) + e.me);
    ivy_advance(e.ivy, 1 + next);
  }
  barrier(&e);
  uint64_t sum = (uint64_t)ROUNDS * (e.nodes * (e.nodes - 1) / 2);
  expect(&e, "the token", ivy_load(e.ivy, 8, TOKEN), sum);
  if (e.me == 0) printf("ring: %llu\n", (unsigned long long)sum);
  end_example(&e);
  return 0;
}
