/* A histogram: all nodes draw numbers and raise their bins, under a lock that spins and under one by tickets. */
#include "example.h"
#include "ivy_sync.h"

enum { PAGE = 256, BINS = 16, EACH = 60, TURN = 1, SPIN = PAGE, NEXT = PAGE + 8, FIRST = 2 * PAGE };

/* All nodes draw from one line of numbers, each its own part. */
static uint32_t drawn(uint32_t i) { return (i * 2654435761u >> 16) % BINS; }

int main(int argc, char **argv) {
  const ivy_lock spin = { SPIN };
  const ivy_ticket_lock tickets = { NEXT, TURN };
  example e;
  begin_example(&e, argc, argv, 4, PAGE);
  for (uint32_t i = 0; i < EACH; i++) {
    uint64_t bin = FIRST + 8 * (uint64_t)drawn(e.me * EACH + i);
    ivy_lock_acquire(e.ivy, spin);
    ivy_store(e.ivy, 8, bin, ivy_load(e.ivy, 8, bin) + 1);
    ivy_lock_release(e.ivy, spin);
    ivy_ticket_lock_acquire(e.ivy, tickets);
    ivy_store(e.ivy, 8, bin + PAGE, ivy_load(e.ivy, 8, bin + PAGE) + 1);
    ivy_ticket_lock_release(e.ivy, tickets);
  }
  barrier(&e);
  uint64_t should[BINS] = { 0 };
  for (uint32_t i = 0; i < e.nodes * EACH; i++) should[drawn(i)]++;
  for (uint64_t k = 0; k < BINS; k++) {
    expect(&e, "a bin", ivy_load(e.ivy, 8, FIRST + 8 * k), should[k]);
    expect(&e, "a bin by tickets", ivy_load(e.ivy, 8, FIRST + PAGE + 8 * k), should[k]);
  }
  barrier(&e);
  if (e.me == 0) printf("histogram: %u numbers\n", e.nodes * EACH);
  end_example(&e);
  return 0;
}
