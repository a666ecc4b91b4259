/* A read miss between two processes over UDP, beside the same bytes by a socket of its own with the same options, which
 * looks and then sleeps as bindings/c/ivy_udp.c does. Called with a port, of which it and three more are
 * taken, the size of pages, and `thread` where progress is made by one. */
#define _GNU_SOURCE
#include "bindings_pace.h"
#include <arpa/inet.h>
#include <netinet/in.h>
#include <poll.h>
#include <sched.h>
#include <string.h>
#include <sys/mman.h>
#include <sys/socket.h>
#include <sys/wait.h>
#include <unistd.h>

enum { LOOKS = 50, BUFFER = 1 << 21 };

static int own;
static struct sockaddr_in other;
static char bytes[IVY_STRING_MOST];

static struct sockaddr_in address_of(int port) {
  struct sockaddr_in address;
  memset(&address, 0, sizeof address);
  address.sin_family = AF_INET;
  address.sin_port = htons((uint16_t)port);
  address.sin_addr.s_addr = htonl(INADDR_LOOPBACK);
  return address;
}

static void open_own(int port, int me) {
  struct sockaddr_in here = address_of(port + me);
  int room = BUFFER;
  own = socket(AF_INET, SOCK_DGRAM, 0);
  if (own < 0 || bind(own, (struct sockaddr *)&here, sizeof here)) wrong("no socket");
  setsockopt(own, SOL_SOCKET, SO_RCVBUF, &room, sizeof room);
  other = address_of(port + !me);
}

static void put(size_t len) {
  if (sendto(own, bytes, len, MSG_DONTWAIT, (struct sockaddr *)&other, sizeof other) < 0) wrong("a string is not sent");
}

static void get(size_t len) {
  ssize_t came = -1;
  while (came < 0) {
    for (int i = 0; came < 0 && i < LOOKS; i++) came = recv(own, bytes, sizeof bytes, MSG_DONTWAIT);
    struct pollfd one = { own, POLLIN, 0 };
    if (came < 0) poll(&one, 1, 1);
  }
  if ((size_t)came != len) wrong("a string is cut");
}

/* What both processes see. */
typedef struct { int here; size_t asked, answered; } shared;
static volatile shared *both;

/* Nobody goes on before both are here, and both serve until then. */
static void settle(ivy_process *ivy) {
  static int all;
  all += 2;
  __sync_fetch_and_add(&both->here, 1);
  while (__sync_fetch_and_add(&both->here, 0) < all) ivy_progress_now(ivy);
}

/* Each has a processor of its own, as mpirun gives them. */
static void stay_at(int processor) {
  cpu_set_t one;
  CPU_ZERO(&one);
  CPU_SET(processor, &one);
  if (sched_setaffinity(0, sizeof one, &one)) fprintf(stderr, "bindings: processor %d is not to be had\n", processor);
}

static int run(int me, int port, uint32_t page, ivy_progress progress) {
  static samples missed, exchanged, rows, handed, to_and_fro;
  const char *by = progress == IVY_BY_THREAD ? "UDP, by thread" : "UDP";
  ivy_config config = { 2, PAGES, page, MANAGER };
  stay_at(me);
  open_own(port + 2, me);
  ivy_process *ivy = ivy_join(&config, (uint32_t)me, measured(ivy_udp((uint32_t)me, 2, (uint16_t)port, 0, 0, 0)), progress,
                              10000, 0);
  if (!ivy) return 2;
  for (int round = 0; round < ROUNDS; round++) {
    miss(ivy, me, page, round, &missed);
    if (me) both->asked = asked, both->answered = answered;
    settle(ivy);
    plain(me, both->asked, both->answered, 1, &exchanged, put, get);
    in_a_row(ivy, me, page, round, &rows);
    settle(ivy);
    hand_over(ivy, me, page, round, &handed);
    settle(ivy);
    plain(me, both->answered, both->answered, 0.5, &to_and_fro, put, get);
  }
  if (me) {
    printf("UDP: a request of %zu bytes, a reply of %zu\n", both->asked, both->answered);
    tell_all(by, page, &missed, &rows, &exchanged);
    tell(by, page, "a page handed to and fro by two that write by turns, one way", &handed, "a ping-pong one way", &to_and_fro);
  }
  ivy_leave(ivy);
  return 0;
}

int main(int argc, char **argv) {
  int port = argc > 1 ? atoi(argv[1]) : 9000, status = 0;
  uint32_t page = argc > 2 ? (uint32_t)atoi(argv[2]) : 1024;
  both = (volatile shared *)mmap(NULL, sizeof *both, PROT_READ | PROT_WRITE, MAP_SHARED | MAP_ANONYMOUS, -1, 0);
  if (both == MAP_FAILED) wrong("no memory");
  ivy_progress progress = argc > 3 && !strcmp(argv[3], "thread") ? IVY_BY_THREAD : IVY_IN_CALLS;
  int me = fork() == 0, mine = run(me, port, page, progress);
  if (!me) wait(&status);
  return mine || status;
}
