/* What ivy_sync.h has, together: nodes add up under two kinds of locks, one of them sets up for all, all agree on sums, and
 * node 0 takes from a queue what all others send. */
#include "example.h"
#include "ivy_sync.h"

/* Counts and words as the nodes agree on them. */
enum { PAGE = 256, MEET = 0, TURN = 1, DONE = 2, SENT = 3, TAKEN = 4, ROUNDS = 20, PLACES = 4 };

static const ivy_lock spin = { PAGE };
static const ivy_ticket_lock tickets = { PAGE + 8, TURN };
static const ivy_once set_up = { PAGE + 16, DONE };
static const ivy_queue queue = { 2 * PAGE, PLACES, SENT, TAKEN };
static const ivy_lock senders = { PAGE + 40 };
static const uint64_t by_spin = PAGE + 24, by_tickets = PAGE + 32;
static const uint64_t given = 3 * PAGE, agreed = 3 * PAGE + 8;

static void add_one(ivy_process *ivy, uint64_t address) { ivy_store(ivy, 8, address, ivy_load(ivy, 8, address) + 1); }

static void add_up(example *e) {
  for (int round = 0; round < ROUNDS; round++) {
    if (!ivy_lock_try(e->ivy, spin)) ivy_lock_acquire(e->ivy, spin);
    add_one(e->ivy, by_spin);
    ivy_lock_release(e->ivy, spin);
    ivy_ticket_lock_acquire(e->ivy, tickets);
    add_one(e->ivy, by_tickets);
    ivy_ticket_lock_release(e->ivy, tickets);
  }
}

static void send_and_take(example *e) {
  if (e->me != 0) {
    for (uint64_t i = 1; i <= ROUNDS; i++) ivy_queue_send_shared(e->ivy, queue, senders, i);
    return;
  }
  ivy_queue_end receiver = { queue, 0 };
  uint64_t sum = 0;
  for (uint64_t i = 0; i < ROUNDS * (uint64_t)(e->nodes - 1); i++) sum += ivy_queue_take(e->ivy, &receiver);
  expect(e, "what was sent", sum, (uint64_t)(e->nodes - 1) * ROUNDS * (ROUNDS + 1) / 2);
}

int main(int argc, char **argv) {
  example e;
  begin_example(&e, argc, argv, 4, PAGE);
  if (ivy_once_begin(e.ivy, set_up)) {
    ivy_store(e.ivy, 8, by_spin, 1000);
    ivy_once_finish(e.ivy, set_up);
  }
  add_up(&e);
  ivy_barrier meet = { MEET, e.nodes, 0 };
  ivy_barrier_wait(e.ivy, &meet);
  expect(&e, "the sum under a lock", ivy_load(e.ivy, 8, by_spin), 1000 + ROUNDS * e.nodes);
  expect(&e, "the sum by tickets", ivy_load(e.ivy, 8, by_tickets), ROUNDS * e.nodes);
  send_and_take(&e);
  const ivy_broadcast number = { given, &meet };
  if (e.me == 0) ivy_broadcast_give(e.ivy, &number, 42);
  else expect(&e, "what was given", ivy_broadcast_get(e.ivy, &number), 42);
  const ivy_reduction all = { agreed, &meet };
  uint64_t greatest = ivy_reduction_fold(e.ivy, &all, e.me, e.me + 1, 0, ivy_greatest);
  expect(&e, "the greatest", greatest, e.nodes);
  expect(&e, "the phases that passed", meet.passed, 3 * (uint64_t)e.nodes); /* of the one barrier, by whatever it was passed */
  e.rounds = meet.passed / e.nodes;
  barrier(&e);
  if (e.me == 0) printf("together: %u nodes\n", e.nodes);
  end_example(&e);
  return 0;
}
