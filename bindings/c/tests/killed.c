/* A node over UDP that adds to a counter until it is killed, or told that a peer is dead: NODE NODES PORT DEATH_MS [thread]
 * [leave] [compute]. With `leave` all but the last node are done at once, and serve it; with `compute` it makes a call now and
 * then. It ends in the thread that began it. */
#define _POSIX_C_SOURCE 200809L
#include "ivy_runtime.h"
#include <pthread.h>
#include <stdlib.h>
#include <string.h>
#include <time.h>
#include <unistd.h>

enum { PAGES = 4, PAGE = 256, START_MS = 10000 };

static pthread_t first;
static void end_in_first(void) {
  if (!pthread_equal(pthread_self(), first)) _exit(9);
}

static int has_word(int argc, char **argv, const char *word) {
  for (int i = 5; i < argc; i++)
    if (!strcmp(argv[i], word)) return 1;
  return 0;
}

int main(int argc, char **argv) {
  if (argc < 5) return 2;
  uint32_t me = (uint32_t)atoi(argv[1]), nodes = (uint32_t)atoi(argv[2]);
  const ivy_config config = { nodes, PAGES, PAGE, IVY_DYNAMIC };
  const ivy_start start = { config, me, ivy_udp(me, nodes, (uint16_t)atoi(argv[3]), 10, 10, 20),
                            has_word(argc, argv, "thread") ? IVY_BY_THREAD : IVY_IN_CALLS, START_MS, atol(argv[4]), NULL, 0 };
  ivy_process *ivy;
  uint32_t status = ivy_join_as(&start, &ivy);
  first = pthread_self();
  atexit(end_in_first);
  if (status != IVY_DONE) return ivy_exit_status(status);
  ivy_exit_on_error(ivy, 1);
  printf("here\n");
  fflush(stdout);
  const struct timespec nap = { 0, has_word(argc, argv, "compute") ? 50000000 : 0 };
  while (me == nodes - 1 || !has_word(argc, argv, "leave")) {
    ivy_fetch_add(ivy, 8, PAGE, 1);
    if (nap.tv_nsec) nanosleep(&nap, NULL);
  }
  ivy_leave(ivy);
  return 0;
}
