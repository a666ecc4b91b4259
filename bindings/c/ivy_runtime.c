/* A node in a process of its own: see ivy_runtime.h. Not proved. */
#define _POSIX_C_SOURCE 200809L
#include "ivy_inside.h"
#include <stdlib.h>
#include <unistd.h>

enum { LEAVE_US = 5000000, LISTEN_US = 500 };

/* Who looks until something is so, and writes a log, looks no sooner again: each look has three lines there. */
enum { LOG_LOOK_US = 1000 };

void (*ivy_in_for_one_thread)(void *state);

const char *ivy_text(uint32_t status) {
  switch (status) {
    case IVY_PEER_DEAD: return "a peer is dead";
    case IVY_NOT_HERE: return "others are not here";
    case IVY_DIFFERS: return "a peer has another configuration";
    case IVY_OTHER_RUN: return "the others are in a run with another process as this node";
    case IVY_LOG_FULL: return "the log takes no more";
    case IVY_NO_TRANSPORT: return "there is no transport";
    case IVY_TIMEOUT: return "the time is over";
    case IVY_NO_KEY: return "the key cannot be used";
    case IVY_LOG_TAKEN: return "another node writes the log";
    default: return ivy_status_text(status);
  }
}

int ivy_exit_status(uint32_t status) {
  if (status == IVY_DONE) return 0;
  if (status == IVY_PEER_DEAD || status == IVY_OTHER_RUN) return 3;
  if (status == IVY_LOG_FULL) return 5;
  return status < 256 || status == IVY_BAD_ARGUMENT || status == IVY_NUMBERS_SPENT ? 4 : 2;
}

/* ---- Failures ---------------------------------------------------------------------------------------------------------- */

/* The program ends in one of its own threads, and no thread of the runtime runs meanwhile. */
static void end_program(ivy_process *p) {
  static int ends;
  if (__atomic_exchange_n(&ends, 1, __ATOMIC_RELAXED)) {
    for (;;) pause(); /* another thread of the program ends it */
  }
  ivy_in_end_progress(p);
  if (!ivy_in_is_over(p) && ivy_in_try_lock(p)) ivy_in_say(p, DEAD, 1u << p->me);
  exit(ivy_exit_status(p->error));
}

/* Tells the program who is dead. */
static void tell_dead(ivy_process *p, uint32_t dead) {
  for (uint32_t i = 0; p->on_death && i < p->config.nodes; i++)
    if (dead >> i & 1u) p->on_death(p->context, i);
}

void ivy_in_leave_failed(ivy_process *p) {
  uint32_t dead = p->dead & ~p->told;
  p->told = p->dead;
  ivy_in_unlock(p);
  tell_dead(p, dead);
  if (p->exits) end_program(p);
}

uint32_t ivy_error(ivy_process *p) {
  ivy_in_lock(p);
  uint32_t error = p->error;
  ivy_in_unlock(p);
  return error;
}

uint32_t ivy_forget(ivy_process *p) {
  ivy_in_lock(p);
  uint32_t error = p->error;
  if (!ivy_in_is_over(p)) p->error = IVY_DONE;
  ivy_in_unlock(p);
  return error;
}

void ivy_exit_on_error(ivy_process *p, int exits) {
  ivy_in_lock(p);
  p->exits = exits;
  ivy_in_unlock(p);
}

void ivy_on_death(ivy_process *p, void (*on_death)(void *context, uint32_t node), void *context) {
  ivy_in_lock(p);
  p->on_death = on_death;
  p->context = context;
  ivy_in_unlock(p);
}

void ivy_use_threads(ivy_process *p) {
  ivy_in_lock(p);
  p->shared = p->has_more = 1;
  ivy_in_unlock(p);
}

uint32_t ivy_me(const ivy_process *p) { return p->me; }
uint32_t ivy_nodes(const ivy_process *p) { return p->all == 1u << p->me ? 1 : p->config.nodes; } /* one is alone */

ivy_counts ivy_counts_of(ivy_process *p) {
  ivy_in_lock(p);
  ivy_counts counts = p->counts;
  ivy_in_unlock(p);
  counts.hits = counts.calls - counts.misses - counts.waits;
  return counts;
}

/* ---- Joining and leaving ----------------------------------------------------------------------------------------------- */

/* Waits until all others are in one run with this process, and know it. */
static uint32_t meet(ivy_process *p, long start_ms) {
  int64_t last = ivy_in_after(ivy_in_now(), ivy_in_us_of(start_ms));
  while ((p->known_here != p->all || p->here != p->all) && !p->differs && !p->is_refused && !p->error && p->now <= last)
    ivy_in_serve(p, LISTEN_US, MANY);
  for (int i = 0; i < REPEATS && !p->is_refused; i++) ivy_in_speak(p);
  if (p->differs) return IVY_DIFFERS;
  if (p->is_refused) return IVY_OTHER_RUN;
  if (p->error || (p->known_here == p->all && p->here == p->all)) return p->error;
  fprintf(stderr, "ivy: node %u: others are not here: those of the set %x are\n", p->me, p->is_fixed ? p->here : p->drawn);
  return IVY_NOT_HERE;
}

/* Says which limit a configuration is out of. */
static void tell_limit(const ivy_start *start) {
  const ivy_config *c = &start->config;
  if (c->nodes < 2 || c->nodes > MOST_NODES) fprintf(stderr, "ivy: %u nodes, and not 2 to 32\n", c->nodes);
  else if (c->page_size < 64 || c->page_size > 4096 || (c->page_size & (c->page_size - 1)))
    fprintf(stderr, "ivy: pages of %u bytes, and not of a power of two from 64 to 4096\n", c->page_size);
  else if (c->manager > IVY_STEADY) fprintf(stderr, "ivy: manager %u, and not 0, fixed, 1, dynamic, or 2, steady\n", c->manager);
  else if (start->me >= c->nodes) fprintf(stderr, "ivy: node %u, and not 0 to %u\n", start->me, c->nodes - 1);
  else fprintf(stderr, "ivy: %u pages are more or fewer than the library takes\n", c->pages);
}

/* Opens the node: the transport is there, and the library of this version. */
static uint32_t open_node(ivy_process *p, const ivy_start *start) {
  const ivy_config *c = &start->config;
  if (!start->transport.receive) return IVY_NO_TRANSPORT;
  if (!ivy_in_find_key(p)) return IVY_NO_KEY;
  if (!ivy_in_find_ahead(p)) return IVY_BAD_ARGUMENT;
  if (ivy_version() != IVY_VERSION) return IVY_BAD_VERSION;
  uint32_t status = ivy_open_by(&p->node, c->nodes, c->pages, c->page_size, c->manager, start->me);
  if (status == IVY_BAD_CONFIG || status == IVY_BAD_ARGUMENT) tell_limit(start);
  else if (status != IVY_DONE) fprintf(stderr, "ivy: node %u: %s\n", start->me, ivy_text(status));
  return status;
}

static uint32_t set_up(ivy_process *p, const ivy_start *start) {
  uint32_t status = open_node(p, start), nodes = start->config.nodes;
  if (status == IVY_DONE) status = ivy_in_take_log(p);
  if (status != IVY_DONE) return status;
  p->config = start->config;
  p->transport = start->transport;
  p->together = ivy_in_takes_two(&p->transport) ? (size_t)LONG_MOST : (size_t)SHORT_MOST;
  p->me = start->me;
  p->progress = start->progress;
  if (p->progress == IVY_BY_THREAD && p->transport.close == ivy_in_for_one_thread) {
    fprintf(stderr, "ivy: node %u: the transport is for one thread alone, so progress is made in calls\n", p->me);
    p->progress = IVY_IN_CALLS;
  }
  p->all = start->alone ? 1u << p->me : nodes == 32 ? 0xffffffffu : (1u << nodes) - 1u;
  p->here = p->known_here = p->done = p->known_done = 1u << p->me;
  p->death_us = ivy_in_us_of(start->death_ms);
  ivy_in_log_begin(p);
  return ivy_in_draw(p) ? IVY_DONE : IVY_MEMORY;
}

static void end(ivy_process *p) {
  ivy_in_give_log(p);
  if (p->owns_log) fclose(p->log);
  for (int i = 0; i < MOST_NODES; i++)
    for (int j = 0; j < MOST_AHEAD; j++) free(p->early[i][j].bytes);
  ivy_close(&p->node);
  free(p);
}

uint32_t ivy_in_join(const ivy_start *start, int owns_log, int has_roots, ivy_process **process) {
  ivy_process *p = (ivy_process *)calloc(1, sizeof *p);
  if (p) p->log = start->log, p->has_more = p->log != NULL, p->owns_log = owns_log && p->log;
  uint32_t status = p ? set_up(p, start) : (uint32_t)IVY_MEMORY;
  *process = NULL;
  if (status == IVY_DONE) {
    ivy_in_lock(p);
    if (has_roots) ivy_in_make_roots(p);
    status = meet(p, start->start_ms);
    ivy_in_unlock(p);
  }
  if (status == IVY_DONE) {
    ivy_in_begin_progress(p);
    *process = p;
    return status;
  }
  if (start->transport.close) start->transport.close(start->transport.state);
  if (p) end(p);
  else if (owns_log && start->log) fclose(start->log);
  return status;
}

uint32_t ivy_join_as(const ivy_start *start, ivy_process **process) { return ivy_in_join(start, 0, 0, process); }

ivy_process *ivy_join_logging(const ivy_config *config, uint32_t me, ivy_transport transport, ivy_progress progress,
                              long start_ms, long death_ms, FILE *log) {
  const ivy_start start = { *config, me, transport, progress, start_ms, death_ms, log, 0 };
  ivy_process *process;
  ivy_join_as(&start, &process);
  return process;
}

ivy_process *ivy_join(const ivy_config *config, uint32_t me, ivy_transport transport, ivy_progress progress, long start_ms,
                      long death_ms) {
  return ivy_join_logging(config, me, transport, progress, start_ms, death_ms, NULL);
}

/* Serves the others until all are done, and know it: who is done may be gone, and what it said last lost. */
static void part(ivy_process *p) {
  p->is_done = 1;
  p->done |= 1u << p->me;
  ivy_in_speak(p);
  while (p->done != p->all && !ivy_in_is_over(p)) ivy_in_wait(p);
  int64_t last = ivy_in_now() + LEAVE_US;
  while ((p->known_done | 1u << p->me) != p->all && p->now < last && !ivy_in_is_over(p)) ivy_in_wait(p);
  for (int i = 0; i < REPEATS; i++) {
    if (p->dead) ivy_in_say(p, DEAD, p->dead);
    else ivy_in_speak(p);
  }
}

uint32_t ivy_leave(ivy_process *p) {
  ivy_in_lock(p);
  part(p);
  ivy_in_unlock(p);
  ivy_in_end_progress(p);
  ivy_in_flush_log(p);
  if (p->map) ivy_in_map_end(p);
  p->transport.close(p->transport.state);
  tell_dead(p, p->dead & ~p->told);
  uint32_t error = p->error;
  int exits = p->exits;
  end(p);
  if (error && exits) exit(ivy_exit_status(error));
  return error;
}

/* ---- Calls ------------------------------------------------------------------------------------------------------------- */

void ivy_in_end_call(ivy_process *p) {
  p->in_call = 0;
  p->pending = p->pending && ivy_in_is_over(p); /* it cannot be withdrawn */
  if (p->map) ivy_in_map_heed(p);
  p->changes++;
  ivy_in_wake(p);
}

static uint32_t begin(ivy_process *p, const call *c, uint64_t *value) {
  if (p->map) return ivy_in_map_begin(p, c, value);
  return ivy_begin(&p->node, c->kind, c->width, c->place, c->operand, c->expected, value);
}

/* Goes on with a call that began with a status: it waits, or the log or other threads are to know of it. */
static uint32_t go_on(ivy_process *p, const call *c, uint32_t status, uint64_t *value) {
  while (status == IVY_MEMORY) {
    p->in_call = 1;
    ivy_in_wait(p);
    status = begin(p, c, value);
  }
  if (p->log && (status < 256 || status == IVY_PENDING)) {
    ivy_in_log_call(p, c);
    ivy_in_log_reply(p, c, status, value);
  }
  if (status != IVY_PENDING) {
    if (p->in_call || (p->shared && c->kind != IVY_LOAD && c->kind != IVY_COUNT)) ivy_in_end_call(p);
    return status;
  }
  p->in_call = p->pending = 1;
  *(c->kind == IVY_AWAIT ? &p->counts.waits : &p->counts.misses) += 1;
  ivy_in_send_frames(p);
  while ((status == IVY_PENDING || status == IVY_MEMORY) && !ivy_in_is_over(p)) {
    ivy_in_wait(p);
    status = ivy_reply(&p->node, value);
    ivy_in_log_reply(p, c, status, value);
    if (status >= 256 || c->kind > IVY_FETCH_AND_ADD) ivy_in_send_frames(p); /* an await asks for its page again */
  }
  ivy_in_end_call(p);
  return status < 256 || !p->error ? status : p->error;
}

uint32_t ivy_in_call(ivy_process *p, const call *c, uint64_t *value) {
  uint32_t status = begin(p, c, value);
  return status < 256 && !p->has_more ? status : go_on(p, c, status, value);
}

/* A call by the lock. */
__attribute__((always_inline)) static inline uint32_t make_locked(ivy_process *p, const call *c, uint64_t *value) {
  uint32_t status = ivy_in_enter(p);
  if (status == IVY_DONE) {
    status = begin(p, c, value);
    if (status >= 256 || p->has_more) status = go_on(p, c, status, value);
  }
  ivy_in_leave(p);
  return status;
}

/* A call that began without the lock with a status, and is refused, or not over. */
__attribute__((noinline, cold)) static uint32_t go_on_locked(ivy_process *p, const call *c, uint32_t status, uint64_t *value) {
  ivy_in_lock(p);
  if (status >= 256) status = go_on(p, c, status, value);
  ivy_in_leave(p);
  return status;
}

/* It is put in place where the kind is known, since most calls are over at once. */
__attribute__((always_inline)) static inline uint32_t make_call(ivy_process *p, uint32_t kind, uint32_t width, uint64_t place,
                                                                uint64_t operand, uint64_t expected, uint64_t *value) {
  if (__builtin_expect(!__libc_single_threaded || !p->quick, 0)) {
    const call c = { kind, width, place, operand, expected };
    return make_locked(p, &c, value);
  }
  p->quick--;
  uint32_t status = ivy_begin(&p->node, kind, width, place, operand, expected, value);
  if (status == IVY_DONE) return status;
  const call c = { kind, width, place, operand, expected };
  return go_on_locked(p, &c, status, value);
}

uint32_t ivy_call(ivy_process *p, uint32_t kind, uint32_t width, uint64_t place, uint64_t operand, uint64_t expected,
                  uint64_t *value) {
  if (kind == IVY_AWAIT && p->map) return ivy_await_for(p, place, operand, -1, value); /* for long no call is in progress */
  uint64_t own = 0; /* the program's may be mapped memory, which is not touched while the lock is held */
  uint32_t status = make_call(p, kind, width, place, operand, expected, &own);
  if (status == IVY_DONE) *value = own;
  return status;
}

uint32_t ivy_progress_now(ivy_process *p) {
  uint32_t status = ivy_in_enter(p);
  p->counts.calls -= status == IVY_DONE;
  if (status == IVY_DONE && !p->receiving) ivy_in_serve(p, 0, MANY);
  status = p->error;
  ivy_in_leave(p);
  return status;
}

static uint32_t changes_of(ivy_process *p) {
  ivy_in_lock(p);
  uint32_t changes = p->changes;
  ivy_in_unlock(p);
  return changes;
}

/* Whether a number compares so. */
static int is_so(uint64_t value, ivy_comparison comparison, uint64_t number) {
  switch (comparison) {
    case IVY_EQ: return value == number;
    case IVY_NE: return value != number;
    case IVY_LT: return value < number;
    case IVY_LE: return value <= number;
    case IVY_GT: return value > number;
    default: return value >= number;
  }
}

/* Rests between two looks, before a time that is not 0. */
static void rest(ivy_process *p, uint32_t changes, int64_t until) {
  int64_t least = p->log ? ivy_in_now() + LOG_LOOK_US : 0;
  if (until && least > until) least = until;
  ivy_in_rest(p, changes, until);
  while (ivy_in_now() < least && !ivy_error(p)) ivy_in_rest(p, changes_of(p), least);
}

/* Looks by a call, with rests, until its value compares so, or a time is over. */
static uint32_t look_until(ivy_process *p, const call *c, ivy_comparison comparison, uint64_t number, long wait_us,
                           uint64_t *value) {
  int64_t until = ivy_in_after(ivy_in_now(), wait_us);
  for (;;) {
    uint32_t changes = changes_of(p);
    uint32_t status = ivy_call(p, c->kind, c->width, c->place, 0, 0, value);
    if (status != IVY_DONE || is_so(*value, comparison, number)) return status;
    if (wait_us >= 0 && ivy_in_now() >= until) return IVY_TIMEOUT;
    rest(p, changes, wait_us >= 0 ? until : 0);
  }
}

uint32_t ivy_await_for(ivy_process *p, uint64_t count, uint64_t least, long wait_us, uint64_t *value) {
  const call look = { IVY_COUNT, 0, count, 0, 0 };
  return look_until(p, &look, IVY_GE, least, wait_us, value);
}

uint32_t ivy_wait_until(ivy_process *p, uint32_t width, uint64_t address, ivy_comparison comparison, uint64_t number,
                        long wait_us, uint64_t *value) {
  const call look = { IVY_LOAD, width, address, 0, 0 };
  return look_until(p, &look, comparison, number, wait_us, value);
}

void ivy_in_refuse(ivy_process *p, uint32_t kind, uint64_t place, uint32_t status) {
  ivy_in_lock(p);
  if (!p->error) {
    fprintf(stderr, "ivy: node %u: %s at %llu: %s\n", p->me, ivy_in_kind(kind), (unsigned long long)place, ivy_text(status));
    ivy_in_fail(p, status);
  }
  ivy_in_leave(p);
}

__attribute__((always_inline)) static inline uint64_t sure(ivy_process *p, uint32_t kind, uint32_t width, uint64_t place,
                                                           uint64_t operand, uint64_t expected) {
  uint64_t value = 0;
  uint32_t status = make_call(p, kind, width, place, operand, expected, &value);
  if (status == IVY_DONE) return value;
  ivy_in_refuse(p, kind, place, status);
  return 0;
}

uint64_t ivy_load(ivy_process *p, uint32_t width, uint64_t address) { return sure(p, IVY_LOAD, width, address, 0, 0); }
void ivy_store(ivy_process *p, uint32_t width, uint64_t address, uint64_t value) {
  sure(p, IVY_STORE, width, address, value, 0);
}
uint64_t ivy_swap(ivy_process *p, uint32_t width, uint64_t address, uint64_t value) {
  return sure(p, IVY_SWAP, width, address, value, 0);
}
uint64_t ivy_compare_and_swap(ivy_process *p, uint32_t width, uint64_t address, uint64_t expected, uint64_t value) {
  return sure(p, IVY_COMPARE_AND_SWAP, width, address, value, expected);
}
uint64_t ivy_fetch_add(ivy_process *p, uint32_t width, uint64_t address, uint64_t addend) {
  return sure(p, IVY_FETCH_AND_ADD, width, address, addend, 0);
}
uint64_t ivy_count(ivy_process *p, uint64_t count) { return sure(p, IVY_COUNT, 0, count, 0, 0); }
void ivy_advance(ivy_process *p, uint64_t count) { sure(p, IVY_ADVANCE, 0, count, 0, 0); }

/* An await in the memory keeps the other threads of the program from calls until it is over, and what is written from others. */
uint64_t ivy_await(ivy_process *p, uint64_t count, uint64_t least) {
  uint64_t value = 0;
  if (!p->shared && !p->map) return sure(p, IVY_AWAIT, 0, count, least, 0);
  uint32_t status = ivy_await_for(p, count, least, -1, &value);
  if (status == IVY_DONE) return value;
  ivy_in_refuse(p, IVY_AWAIT, count, status);
  return 0;
}
uint64_t ivy_alloc(ivy_process *p, uint64_t bytes) { return sure(p, IVY_ALLOC, 0, 0, bytes, 0); }
void ivy_free(ivy_process *p, uint64_t address) { sure(p, IVY_FREE, 0, address, 0, 0); }
