/* A log that takes no more once something else has failed: the run is over, and what the log lacks goes to nobody. */
#ifndef _GNU_SOURCE
#define _GNU_SOURCE
#endif
#include "channel.h"
#include <errno.h>

enum { PAGE = CHANNEL_PAGE, LATE_US = 300000 };

static int is_full;

static ssize_t put(void *cookie, const char *bytes, size_t len) {
  (void)cookie;
  (void)bytes;
  if (!__atomic_load_n(&is_full, __ATOMIC_RELAXED)) return (ssize_t)len;
  errno = ENOSPC;
  return 0;
}

static void wait_for_other(ivy_process *ivy, uint32_t me) {
  (void)me;
  ivy_store(ivy, 8, PAGE, 1);
  should_be("an await of who is gone", ivy_await(ivy, 0, 1), 0);
}

/* What it owes the other for its page goes out later, by the thread. */
static void fill(ivy_process *ivy, uint32_t me) {
  const struct timespec late = { 0, LATE_US * 1000 };
  (void)me;
  ivy_load(ivy, 8, PAGE);
  should_be("a load that is refused", ivy_load(ivy, 8, PAGE + 1), 0);
  __atomic_store_n(&is_full, 1, __ATOMIC_RELAXED);
  nanosleep(&late, NULL);
  should_be("what failed first", ivy_forget(ivy), IVY_MISALIGNED);
  should_be("the status, as the run is over", ivy_error(ivy), IVY_MISALIGNED);
}

int main(void) {
  const cookie_io_functions_t how = { NULL, put, NULL, NULL };
  channel_node nodes[2];
  memset(nodes, 0, sizeof nodes);
  channel_log = fopencookie(NULL, "w", how);
  for (uint32_t i = 0; i < 2; i++) {
    const channel_node it = { i, 2, IVY_BY_THREAD, 10000, i ? fill : wait_for_other, IVY_PEER_DEAD, nodes[i].thread, channel_open(i) };
    nodes[i] = it;
  }
  nodes[1].ends = IVY_MISALIGNED;
  for (int i = 0; i < 2; i++) pthread_create(&nodes[i].thread, NULL, channel_run, &nodes[i]);
  for (int i = 0; i < 2; i++) pthread_join(nodes[i].thread, NULL);
  puts("done");
  return 0;
}
