/* What a peer does not acknowledge, since it computes without a call, is sent again, but ever less often: over UDP, from a
 * port on. */
#define _POSIX_C_SOURCE 200809L
#include "ivy_runtime.h"
#include <stdlib.h>
#include <sys/wait.h>
#include <time.h>
#include <unistd.h>

enum { PAGE = 256, AWAY = 1, MOST = 48, START_MS = 10000 };

static ivy_transport inner;
static uint32_t sent; /* so many frames */

static uint8_t *place;
static uint8_t *room(void *state) { return place = inner.room(state); }

static void count(void *state, uint32_t to, size_t len) {
  sent += place[0] == 1;
  inner.send(state, to, len);
}

static void compute(ivy_process *ivy) {
  const struct timespec second = { 1, 0 };
  ivy_store(ivy, 8, PAGE, 7);
  ivy_advance(ivy, AWAY);
  for (int i = 0; i < 1000; i++) ivy_progress_now(ivy);
  nanosleep(&second, NULL);
}

static int ask(ivy_process *ivy) {
  ivy_await(ivy, AWAY, 1);
  const struct timespec later = { 0, 100000000 };
  nanosleep(&later, NULL);
  uint32_t before = sent;
  int is_right = ivy_load(ivy, 8, PAGE) == 7;
  printf("%u strings for one word\n", sent - before);
  return is_right && sent - before >= 2 && sent - before <= MOST ? 0 : 1;
}

int main(int argc, char **argv) {
  uint16_t port = (uint16_t)(argc > 1 ? atoi(argv[1]) : 9000);
  pid_t other = fork();
  uint32_t me = other == 0;
  const ivy_config config = { 2, 4, PAGE, IVY_DYNAMIC };
  inner = ivy_udp(me, 2, port, 0, 0, 0);
  const ivy_transport counted = { inner.state, room, count, inner.receive, inner.close };
  ivy_process *ivy = ivy_join(&config, me, counted, IVY_IN_CALLS, START_MS, 5000);
  int status = 0, its = 0;
  if (!ivy) return 2;
  if (me) compute(ivy);
  else status = ask(ivy);
  if (ivy_leave(ivy) != IVY_DONE) return 3;
  if (!me && (wait(&its) != other || its)) return 4;
  return status;
}
