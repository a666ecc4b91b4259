#include <ivy_map.h>

int main(int argc, char **argv) {
  ivy_process *ivy = ivy_init(&argc, &argv);
  if (!ivy || ivy_map(ivy) != IVY_DONE) return 2;
  if (ivy_me(ivy) == 0) *ivy_map_root(ivy) = ivy_map_malloc_pages(ivy, 4096);
  ivy_map_barrier(ivy);
  long *sum = (long *)*ivy_map_root(ivy);
  for (int i = 0; i < 100; i++) __atomic_fetch_add(sum, 1, __ATOMIC_SEQ_CST);
  ivy_map_barrier(ivy);
  if (ivy_me(ivy) == 0) printf("%u nodes: %ld\n", ivy_nodes(ivy), *sum);
  return ivy_finalize(ivy);
}
