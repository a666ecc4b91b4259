/* Pages that one process alone uses: LAPS. Each process writes pages of its own, and one that the next reads, and all meet after each
 * lap. Once all have told each other what they ask for, its own pages are neither copied before calls nor closed. */
#include "map_test.h"

enum { PAGES = 600, FIRST_LAPS = 3, NAP_US = 100000, MOST_KEPT = 200, MOST_FAULTS = 8 };

typedef struct { uint64_t words[512]; } page;

static void write_pages(page *own, uint64_t lap) {
  for (uint32_t i = 0; i < PAGES; i++) own[i].words[i % 512] = lap;
}

int main(int argc, char **argv) {
  uint64_t laps = argc > 1 ? strtoull(argv[1], NULL, 10) : 50;
  begin_test_of(2048, 0);
  page *all = (page *)shared_pages(nodes * PAGES * sizeof *all), *own = all + me * PAGES, *next = all + (me + 1) % nodes * PAGES;
  ivy_map_counts before = ivy_map_counts_of(ivy);
  for (uint64_t lap = 1; lap <= laps; lap++) {
    write_pages(own, lap);
    ivy_map_barrier(ivy);
    must("what the next one wrote", next->words[0], lap);
    ivy_map_barrier(ivy);
    if (lap > FIRST_LAPS) continue;
    usleep(NAP_US);
    before = ivy_map_counts_of(ivy);
  }
  ivy_map_counts c = ivy_map_counts_of(ivy);
  tell_counts("own pages", laps);
  must("whether many pages were kept", c.kept - before.kept > MOST_KEPT * laps, 0);
  must("whether there were many faults", c.faults - before.faults > MOST_FAULTS * laps, 0);
  return ivy_finalize(ivy);
}
