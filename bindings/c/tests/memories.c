/* Several memories in one process over UDP, from a port on: two processes add to each by turns. */
#define _POSIX_C_SOURCE 200809L
#include "ivy_runtime.h"
#include <stdlib.h>
#include <sys/wait.h>
#include <unistd.h>

enum { PAGE = 256, MEMORIES = 3, EACH = 200, START_MS = 10000, DEATH_MS = 5000 };

static int run(uint32_t me, uint16_t port, ivy_progress progress) {
  const ivy_config config = { 2, 4, PAGE, IVY_DYNAMIC };
  ivy_process *memories[MEMORIES];
  int is_right = 1;
  for (int i = 0; i < MEMORIES; i++) {
    memories[i] = ivy_join(&config, me, ivy_udp(me, 2, (uint16_t)(port + 2 * i), 5, 5, 10), progress, START_MS, DEATH_MS);
    if (!memories[i]) return 0;
  }
  for (int round = 0; round < EACH; round++)
    for (int i = 0; i < MEMORIES; i++) ivy_fetch_add(memories[i], 8, PAGE, (uint64_t)i + 1);
  for (int i = 0; i < MEMORIES; i++) {
    ivy_advance(memories[i], 0);
    ivy_await(memories[i], 0, 2);
    is_right &= ivy_load(memories[i], 8, PAGE) == 2 * EACH * (uint64_t)(i + 1);
  }
  for (int i = 0; i < MEMORIES; i++) is_right &= ivy_leave(memories[i]) == IVY_DONE;
  return is_right;
}

int main(int argc, char **argv) {
  uint16_t port = (uint16_t)(argc > 1 ? atoi(argv[1]) : 9000);
  for (int progress = IVY_IN_CALLS; progress <= IVY_BY_THREAD; progress++) {
    int its = 0;
    pid_t other = fork();
    if (other == 0) _exit(!run(1, port, (ivy_progress)progress));
    if (!run(0, port, (ivy_progress)progress) || waitpid(other, &its, 0) != other || its) return 1;
  }
  puts("done");
  return 0;
}
