/* The first program: each node adds to one number, and node 0 prints the sum once all have. */
#include <ivy_runtime.h>
#include <stdio.h>

enum { PAGE = 1024, ALL_DONE = 0 };

int main(int argc, char **argv) {
  ivy_process *ivy = ivy_init(&argc, &argv);
  if (!ivy) return 2;
  ivy_exit_on_error(ivy, 1);
  for (int i = 0; i < 100; i++) ivy_fetch_add(ivy, 8, PAGE, 1);
  ivy_advance(ivy, ALL_DONE);
  ivy_await(ivy, ALL_DONE, ivy_nodes(ivy));
  if (ivy_me(ivy) == 0) printf("%u nodes: %llu\n", ivy_nodes(ivy), (unsigned long long)ivy_load(ivy, 8, PAGE));
  return ivy_finalize(ivy);
}
