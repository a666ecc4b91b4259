/* Failures without an exit: starts that fail, calls that are refused, and a peer that is dead. Called with a port. */
#define _POSIX_C_SOURCE 200809L
#include "channel.h"
#include <fcntl.h>
#include <sys/stat.h>

enum { PAGE = CHANNEL_PAGE, DEATH_MS = 300 };

static uint32_t join_udp(uint32_t me, uint32_t port, long start_ms, uint32_t nodes) {
  const ivy_transport none = { NULL, NULL, NULL, NULL, NULL };
  ivy_start start = { { nodes, 4, PAGE, IVY_DYNAMIC }, me, none, IVY_IN_CALLS, start_ms, 1000, NULL, 0 };
  ivy_process *ivy = (ivy_process *)&start;
  ivy_open_udp(&start.transport, me, 2, port, 0, 0, 0);
  uint32_t status = ivy_join_as(&start, &ivy);
  should_be("whether there is no process", ivy == NULL, 1);
  return status;
}

/* The sockets that programs which this one starts would have too. */
static uint64_t sockets_kept(void) {
  struct stat about;
  uint64_t found = 0;
  for (int file = 3; file < 64; file++)
    found += !fstat(file, &about) && S_ISSOCK(about.st_mode) && !(fcntl(file, F_GETFD) & FD_CLOEXEC);
  return found;
}

/* Nobody else comes. The second try finds the port free, which one transport at a time has, and not what it starts. */
static void fail_to_start(uint32_t port) {
  ivy_transport one, two;
  should_be("a start alone", join_udp(0, port, 50, 2), IVY_NOT_HERE);
  should_be("a start alone once more", join_udp(0, port, 50, 2), IVY_NOT_HERE);
  should_be("a start with 33 nodes", join_udp(0, port, 50, 33), IVY_BAD_CONFIG);
  should_be("a port", ivy_open_udp(&one, 0, 2, port, 0, 0, 0), IVY_DONE);
  should_be("a port that is taken", ivy_open_udp(&two, 0, 2, port, 0, 0, 0), IVY_NO_TRANSPORT);
  should_be("its start", join_udp(0, port, 50, 2), IVY_NO_TRANSPORT);
  should_be("sockets that are kept", sockets_kept(), 0);
  one.close(one.state);
  should_be("a port above all", ivy_open_udp(&one, 1, 2, 65535, 0, 0, 0), IVY_NO_TRANSPORT);
  should_be("a port far above all", ivy_open_udp(&one, 0, 2, 70000, 0, 0, 0), IVY_NO_TRANSPORT);
  should_be("what is opened then", ivy_udp(2, 3, 65534, 0, 0, 0).state == NULL, 1);
}

/* A refusal is a status where there is one, and is kept where there is none. */
static void be_refused(ivy_process *ivy, uint32_t me) {
  uint64_t value = 7;
  should_be("a call", ivy_call(ivy, IVY_LOAD, 8, PAGE + 1, 0, 0, &value), IVY_MISALIGNED);
  should_be("no such kind", ivy_call(ivy, 99, 8, PAGE, 0, 0, &value), IVY_BAD_ARGUMENT);
  should_be("no room", ivy_call(ivy, IVY_ALLOC, 0, 0, 1 << 20, 0, &value), IVY_NO_ROOM);
  should_be("the status", ivy_error(ivy), IVY_DONE);
  ivy_store(ivy, 8, PAGE + 8 * me, 5);
  should_be("a load that is refused", ivy_load(ivy, 8, PAGE + 1), 0);
  should_be("the status", ivy_error(ivy), IVY_MISALIGNED);
  should_be("a load after that", ivy_load(ivy, 8, PAGE + 8 * me), 0);
  should_be("a call after that", ivy_call(ivy, IVY_LOAD, 8, PAGE, 0, 0, &value), IVY_MISALIGNED);
  should_be("a read after that", ivy_read(ivy, PAGE, &value, 8), IVY_MISALIGNED);
  should_be("an await after that", ivy_await(ivy, 0, 1000), 0);
  for (int i = 0; i < 1000; i++) ivy_progress_now(ivy);
  const ivy_counts counts = ivy_counts_of(ivy);
  should_be("whether more calls hit than were made", counts.hits > counts.calls, 0);
  should_be("what is forgotten", ivy_forget(ivy), IVY_MISALIGNED);
  should_be("a load then", ivy_load(ivy, 8, PAGE + 8 * me), 5);
  should_be("what an alloc without room gives", ivy_alloc(ivy, 1 << 20), 0);
  should_be("what is forgotten", ivy_forget(ivy), IVY_NO_ROOM);
}

static uint32_t deaths, who_died;
static void count_death(void *context, uint32_t node) {
  ++*(uint32_t *)context;
  who_died = node;
}

static void die(ivy_process *ivy, uint32_t me) {
  ivy_fetch_add(ivy, 8, PAGE, 1);
  channel_cut(me);
  ivy_await(ivy, 5, 1); /* hears nobody, and thinks that the other is dead */
}

static void outlive(ivy_process *ivy, uint32_t me) {
  (void)me;
  ivy_on_death(ivy, count_death, &deaths);
  should_be("an await of who is dead", ivy_await(ivy, 3, 1), 0);
  should_be("the status", ivy_error(ivy), IVY_PEER_DEAD);
  should_be("what is forgotten", ivy_forget(ivy), IVY_PEER_DEAD);
  should_be("the status then", ivy_error(ivy), IVY_PEER_DEAD);
  should_be("a load then", ivy_load(ivy, 8, PAGE), 0);
  should_be("deaths", deaths, 1);
  should_be("who died", who_died, 1);
}

static void serve_for(ivy_process *ivy, int milliseconds) {
  const struct timespec one = { 0, 1000000 };
  for (int i = 0; i < milliseconds; i++) {
    nanosleep(&one, NULL);
    ivy_progress_now(ivy);
  }
}

/* It has the page, and hears nobody any more. */
static void die_later(ivy_process *ivy, uint32_t me) {
  ivy_fetch_add(ivy, 8, PAGE, 1);
  ivy_advance(ivy, 4);
  serve_for(ivy, DEATH_MS / 3);
  channel_cut(me);
  ivy_await(ivy, 5, 1);
}

static int writes;
static void wait_in_row(ivy_process *ivy, uint32_t me) {
  uint8_t bytes[64] = { 0 };
  (void)me;
  ivy_await(ivy, 4, 1);
  serve_for(ivy, 2 * DEATH_MS / 3);
  if (writes) should_be("a write where its page is with who is dead", ivy_write(ivy, PAGE, bytes, sizeof bytes), IVY_PEER_DEAD);
  else should_be("a read where its page is with who is dead", ivy_read(ivy, PAGE, bytes, sizeof bytes), IVY_PEER_DEAD);
}

/* One node of two dies. */
static void lose_one(ivy_progress progress, void (*lives)(ivy_process *, uint32_t), void (*dies)(ivy_process *, uint32_t)) {
  channel_node nodes[2];
  memset(nodes, 0, sizeof nodes);
  deaths = 0;
  for (uint32_t i = 0; i < 2; i++) {
    const channel_node it = { i, 2, progress, DEATH_MS, i ? dies : lives, IVY_PEER_DEAD, nodes[i].thread, channel_open(i) };
    nodes[i] = it;
  }
  for (int i = 0; i < 2; i++) pthread_create(&nodes[i].thread, NULL, channel_run, &nodes[i]);
  for (int i = 0; i < 2; i++) pthread_join(nodes[i].thread, NULL);
}

int main(int argc, char **argv) {
  fail_to_start(argc > 1 ? (uint32_t)atoi(argv[1]) : 9000);
  for (int progress = IVY_IN_CALLS; progress <= IVY_BY_THREAD; progress++) {
    channel_run_two((ivy_progress)progress, 2000, be_refused, be_refused);
    lose_one((ivy_progress)progress, outlive, die);
    for (writes = 0; writes < 2; writes++) lose_one((ivy_progress)progress, wait_in_row, die_later);
  }
  puts("done");
  return 0;
}
