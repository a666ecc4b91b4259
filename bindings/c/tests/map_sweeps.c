/* Stores over many pages, in order and scattered, with calls between: LAPS. Pages that others ask for are closed before a call, and
 * open again by faults. Each process has its pages, and after each lap all compare drawn pages of all with an array of their own. */
#include "map_test.h"

enum { PAGES = 200, DRAWN = 60, COMPARED = 40, MOST = 8, CALLED = 4096 + 64 };

typedef struct { uint64_t words[512]; } page;

static uint64_t should[MOST][PAGES];

/* What a node does in a lap, which all draw alike. */
static void write_pages(page *own, uint32_t node, uint64_t lap, uint64_t *seed) {
  int is_sweep = lap % 3 == 0;
  for (uint32_t i = 0; i < (is_sweep ? PAGES : DRAWN); i++) {
    uint32_t which = is_sweep ? i : (uint32_t)(draw_next(seed) % PAGES);
    should[node][which] += lap + 1;
    if (node != me) continue;
    own[which].words[which] += lap + 1;
    if (i % 16 == 15) ivy_fetch_add(ivy, 8, CALLED, 1);
  }
}

int main(int argc, char **argv) {
  uint64_t laps = argc > 1 ? strtoull(argv[1], NULL, 10) : 20, seed = 88172645463325252u;
  begin_test_of(2048, 0);
  if (nodes > MOST) return 2;
  page *all = (page *)shared_pages(nodes * PAGES * sizeof *all);
  uint64_t own = seed + 977 * (me + 1);
  for (uint64_t lap = 0; lap < laps; lap++) {
    for (uint32_t node = 0; node < nodes; node++) write_pages(all + me * PAGES, node, lap, &seed);
    ivy_map_barrier(ivy);
    for (int i = 0; i < COMPARED; i++) {
      uint32_t node = (uint32_t)(draw_next(&own) % nodes), which = (uint32_t)(draw_next(&own) % PAGES);
      must("a word of a page", all[node * PAGES + which].words[which], should[node][which]);
    }
    ivy_map_barrier(ivy);
  }
  tell_counts("sweeps", laps);
  return ivy_finalize(ivy);
}
