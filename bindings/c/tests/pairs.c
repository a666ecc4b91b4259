/* Two pages go in one string over UDP, and over another transport never, also where that hands what it sends on to UDP: from a port
 * on, node 1 reads many pages of node 0, and no string is longer than the transport takes; with no page fetched ahead each goes
 * alone. Strings are counted where they come. */
#define _POSIX_C_SOURCE 200809L
#include "ivy_runtime.h"
#include <stdlib.h>
#include <sys/wait.h>
#include <unistd.h>

enum { PAGE = 4096, MANY = 64, FIRST = 1, WRITTEN = 1, DONE = 2, TWO_MOST = 2 * IVY_STRING_MOST };

static ivy_transport inner;
static uint32_t with_two, too_long; /* strings with more than one page; longer than any may be */

static uint8_t *room(void *state) { return inner.room(state); }

static void send(void *state, uint32_t to, size_t len) { inner.send(state, to, len); }

static const uint8_t *count(void *state, size_t *len, long wait_us) {
  const uint8_t *bytes = inner.receive(state, len, wait_us);
  with_two += bytes && *len > IVY_STRING_MOST;
  too_long += bytes && *len > TWO_MOST;
  return bytes;
}

/* How the transport is another one than UDP: it is not, by its room, or by what sends. */
enum { SAME, BY_ROOM, BY_SEND, FORMS };

/* One process of two, over UDP itself or over a transport that only hands on: whether all was as it is to be. */
static int run(uint32_t me, uint16_t port, int other, const char *ahead) {
  static uint8_t bytes[MANY * PAGE];
  const ivy_config config = { 2, FIRST + MANY, PAGE, IVY_DYNAMIC };
  int is_right = 1;
  inner = ivy_udp(me, 2, port, 0, 0, 0);
  const ivy_transport counted = { inner.state, other == BY_ROOM ? room : inner.room, other == BY_SEND ? send : inner.send, count, inner.close };
  setenv("IVY_AHEAD", ahead, 1);
  ivy_process *ivy = ivy_join(&config, me, counted, IVY_BY_THREAD, 10000, 5000);
  if (!ivy) return 0;
  for (size_t i = 0; i < sizeof bytes && me == 0; i++) bytes[i] = (uint8_t)(i * 7 + i / PAGE);
  if (me == 0) ivy_write(ivy, FIRST * PAGE, bytes, sizeof bytes);
  ivy_advance(ivy, WRITTEN);
  ivy_await(ivy, WRITTEN, 2);
  with_two = too_long = 0;
  if (me == 1) is_right &= ivy_read(ivy, FIRST * PAGE, bytes, sizeof bytes) == IVY_DONE;
  for (size_t i = 0; i < sizeof bytes; i++) is_right &= bytes[i] == (uint8_t)(i * 7 + i / PAGE);
  ivy_advance(ivy, DONE);
  ivy_await(ivy, DONE, 2);
  int should = me == 1 && other == SAME && ahead[0] != '0';
  if (too_long || (with_two >= MANY / 4) != should || (!should && with_two)) {
    fprintf(stderr, "pairs: to node %u came %u strings of two pages, and %u longer ones\n", me, with_two, too_long);
    is_right = 0;
  }
  return ivy_leave(ivy) == IVY_DONE && is_right;
}

int main(int argc, char **argv) {
  uint16_t port = (uint16_t)(argc > 1 ? atoi(argv[1]) : 9000);
  for (int i = 0; i < 2 * FORMS; i++) {
    int its = 0;
    pid_t other = fork();
    if (other == 0) _exit(!run(1, port, i / 2, i % 2 ? "0" : "7"));
    if (!run(0, port, i / 2, i % 2 ? "0" : "7") || waitpid(other, &its, 0) != other || its) return 1;
  }
  puts("done");
  return 0;
}
