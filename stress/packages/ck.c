/* Concurrency Kit in mapped memory: spin locks, a readers-writer lock, a sequence, a barrier, a ring between two processes, a stack,
 * and atomic additions. */
#include "../../examples/pointers/pointers.h"
#include <ck_barrier.h>
#include <ck_pr.h>
#include <ck_ring.h>
#include <ck_rwlock.h>
#include <ck_sequence.h>
#include <ck_spinlock.h>
#include <ck_stack.h>
#include <sched.h>

enum { TIMES = 40, ITEMS = 300, ROOM = 64, PAGE = 4096 };

/* What is used by different processes lies on different pages. */
typedef struct {
  ck_spinlock_fas_t fas;
  char apart1[PAGE - sizeof(ck_spinlock_fas_t)];
  ck_spinlock_ticket_t ticket;
  char apart2[PAGE - sizeof(ck_spinlock_ticket_t)];
  ck_rwlock_t rwlock;
  char apart3[PAGE - sizeof(ck_rwlock_t)];
  ck_sequence_t sequence;
  char apart4[PAGE - sizeof(ck_sequence_t)];
  ck_barrier_centralized_t barrier;
  char apart5[PAGE - sizeof(ck_barrier_centralized_t)];
  ck_ring_t ring;
  ck_ring_buffer_t slots[ROOM];
  ck_stack_t stack;
  uint64_t atomic, fas_sum, ticket_sum, pair[2], popped;
} area;

typedef struct { ck_stack_entry_t entry; uint32_t by; } link;
CK_STACK_CONTAINER(link, entry, link_of)

static void under_locks(area *a) {
  for (int i = 0; i < TIMES; i++) {
    ck_spinlock_fas_lock(&a->fas);
    a->fas_sum++;
    ck_spinlock_fas_unlock(&a->fas);
    ck_spinlock_ticket_lock(&a->ticket);
    a->ticket_sum++;
    ck_spinlock_ticket_unlock(&a->ticket);
    ck_pr_faa_64(&a->atomic, 1);
    if (i % 4 == (int)me % 4) {
      ck_rwlock_write_lock(&a->rwlock);
      a->pair[0]++;
      a->pair[1]++;
      ck_rwlock_write_unlock(&a->rwlock);
    } else {
      ck_rwlock_read_lock(&a->rwlock);
      expect("a pair under a readers' lock", a->pair[0] == a->pair[1]);
      ck_rwlock_read_unlock(&a->rwlock);
    }
  }
}

/* Node 0 puts numbers into the ring, and the last node takes them. */
static void ring(area *a) {
  for (uintptr_t i = 1; i <= ITEMS && me == 0; i++)
    while (!ck_ring_enqueue_spsc(&a->ring, a->slots, (void *)i)) sched_yield();
  for (uintptr_t i = 1; i <= ITEMS && me == nodes - 1; i++) {
    void *got;
    while (!ck_ring_dequeue_spsc(&a->ring, a->slots, &got)) sched_yield();
    expect("the order of a ring", (uintptr_t)got == i);
  }
}

static void stack(area *a) {
  for (int i = 0; i < TIMES; i++) {
    link *own = (link *)ivy_map_malloc(ivy, sizeof *own);
    own->by = me;
    ck_stack_push_upmc(&a->stack, &own->entry);
  }
  ivy_map_barrier(ivy);
  ivy_map_lock_acquire(ivy, 1);
  for (int i = 0; i < TIMES; i++) {
    ck_stack_entry_t *entry = ck_stack_pop_npsc(&a->stack);
    expect("an entry of a stack", entry && link_of(entry)->by < nodes);
    a->popped++;
  }
  ivy_map_lock_release(ivy, 1);
}

int main(int argc, char **argv) {
  begin(argc, argv);
  area *a = (area *)shared(sizeof *a);
  if (me == 0) {
    ck_spinlock_fas_init(&a->fas);
    ck_spinlock_ticket_init(&a->ticket);
    ck_rwlock_init(&a->rwlock);
    ck_sequence_init(&a->sequence);
    ck_ring_init(&a->ring, ROOM);
    ck_stack_init(&a->stack);
  }
  ivy_map_barrier(ivy);
  under_locks(a);
  ck_barrier_centralized_state_t state = CK_BARRIER_CENTRALIZED_STATE_INITIALIZER;
  ck_barrier_centralized(&a->barrier, &state, nodes);
  expect("sums under locks", a->fas_sum == TIMES * nodes && a->ticket_sum == TIMES * nodes && a->atomic == TIMES * nodes);
  if (nodes > 1) ring(a);
  ivy_map_barrier(ivy);
  stack(a);
  ivy_map_barrier(ivy);
  expect("what was popped", a->popped == TIMES * nodes && CK_STACK_ISEMPTY(&a->stack));
  return end();
}
