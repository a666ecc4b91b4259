/* A bounded queue of many senders and many receivers, by sequencers: who sends, or takes, draws its turn by a word that is raised
 * in one step, and counts say which turns are over. Each number is taken once. */
#include "example.h"

enum { PAGE = 256, PAGES = 4, ROOM = 5, EACH = 40 };
enum { SENT = 1, TAKEN = 2, SENDERS = PAGE, RECEIVERS = PAGE + 8, SUM = PAGE + 16, SLOTS = 2 * PAGE };

/* A turn is over once those before it are. */
static void end_turn(example *e, uint64_t count, uint64_t turn) {
  ivy_await(e->ivy, count, turn);
  ivy_advance(e->ivy, count);
}

static void send(example *e, uint64_t number) {
  uint64_t turn = ivy_fetch_add(e->ivy, 8, SENDERS, 1);
  if (turn >= ROOM) ivy_await(e->ivy, TAKEN, turn - ROOM + 1);
  ivy_store(e->ivy, 8, SLOTS + 8 * (turn % ROOM), number);
  end_turn(e, SENT, turn);
}

static uint64_t take(example *e) {
  uint64_t turn = ivy_fetch_add(e->ivy, 8, RECEIVERS, 1);
  ivy_await(e->ivy, SENT, turn + 1);
  uint64_t number = ivy_load(e->ivy, 8, SLOTS + 8 * (turn % ROOM));
  end_turn(e, TAKEN, turn);
  return number;
}

int main(int argc, char **argv) {
  example e;
  begin_example(&e, argc, argv, PAGES, PAGE);
  for (uint64_t i = 1; i <= EACH; i++) {
    send(&e, i + e.me * EACH);
    ivy_fetch_add(e.ivy, 8, SUM, take(&e));
  }
  barrier(&e);
  uint64_t all = (uint64_t)e.nodes * EACH;
  expect(&e, "the sum of what was taken", ivy_load(e.ivy, 8, SUM), all * (all + 1) / 2);
  barrier(&e);
  if (e.me == 0) printf("queue: %llu numbers through %d places\n", (unsigned long long)all, ROOM);
  end_example(&e);
  return 0;
}
