/* A histogram of drawn numbers: each process counts its part by atomic additions in one array. */
#include "pointers.h"

enum { BINS = 64, NUMBERS = 40000 };

static uint32_t bin_of(uint32_t i) { return (i * 2654435761u >> 16) % BINS; }

int main(int argc, char **argv) {
  begin(argc, argv);
  uint64_t *bins = (uint64_t *)shared(BINS * sizeof *bins), alone[BINS] = { 0 };
  for (uint32_t i = me; i < NUMBERS; i += nodes) __atomic_fetch_add(&bins[bin_of(i)], 1, __ATOMIC_RELAXED);
  ivy_map_barrier(ivy);
  for (uint32_t i = 0; i < NUMBERS; i++) alone[bin_of(i)]++;
  expect("the histogram", !memcmp(bins, alone, sizeof alone));
  return end();
}
