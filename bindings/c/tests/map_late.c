/* A process that maps the memory while others use it already: MS. All add to drawn counters on many pages, of which some have had
 * them to themselves before; the last process comes later, and none of its additions, nor of the others', is lost. */
#include "map_test.h"

enum { PAGES = 96, LATE_US = 150000, EACH = 50 };

typedef struct { uint64_t all, own[511]; } page;

int main(int argc, char **argv) {
  double ms = argc > 1 ? atof(argv[1]) : 500;
  ivy_config config;
  memset(&config, 0, sizeof config);
  config.pages = 256;
  config.page_size = 4096;
  config.manager = IVY_DYNAMIC;
  if (ivy_init_as(NULL, NULL, &config, &ivy) != IVY_DONE) return 2;
  ivy_exit_on_error(ivy, 1);
  me = ivy_me(ivy);
  nodes = ivy_nodes(ivy);
  if (me == nodes - 1) usleep(LATE_US);
  if (ivy_map(ivy) != IVY_DONE) return 5;
  void *volatile *root = (void *volatile *)ivy_map_root(ivy);
  if (me == 0) *root = ivy_map_malloc_pages(ivy, PAGES * sizeof(page));
  while (!*root) usleep(1000);
  page *pages = (page *)*root;
  uint64_t seed = 88172645463325252u + 977 * (me + 1), sum = 0, own = 0;
  for (double until = seconds() + ms / 1000; seconds() < until;) {
    uint64_t which = draw_next(&seed) % PAGES;
    if (draw_next(&seed) % 8) which = which % (PAGES / nodes) * nodes + me; /* mostly those that others leave alone */
    for (int i = 0; i < EACH; i++) {
      __atomic_fetch_add(&pages[which].all, 1, __ATOMIC_SEQ_CST);
      pages[which].own[me]++;
    }
    sum += EACH;
  }
  ivy_fetch_add(ivy, 8, 4096 + 64, sum);
  ivy_map_barrier(ivy);
  for (uint32_t i = 0; i < PAGES; i++) own += pages[i].own[me];
  must("what it added", own, sum);
  for (uint32_t i = sum = 0; i < PAGES; i++) sum += pages[i].all;
  must("what all added", sum, ivy_load(ivy, 8, 4096 + 64));
  tell_counts("late", sum);
  ivy_map_barrier(ivy);
  return ivy_finalize(ivy);
}
