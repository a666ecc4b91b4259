/* Time, and who receives: a call that waits, or else, while the program computes, the thread. Not proved. */
#ifndef _GNU_SOURCE
#define _GNU_SOURCE
#endif
#include "ivy_inside.h"
#include <sched.h>
#include <sys/syscall.h>
#include <time.h>
#include <unistd.h>

/* When the runtime looks after its peers, and speaks. What a peer did not acknowledge is sent again after so long, or after
 * twice the way there and back; then after twice as long each time, until something comes from it. */
enum { TICK_US = 1000, PULSE_US = 2000, MOST_GAP_US = 64000, SPEAK_US = 20000 };

/* Who waits looks so long after the last frame without a rest, since a sleep takes longer than an answer, so often before a
 * look at the clock; the thread looks for less, since the program computes, and who waits for pages that are mapped, since many
 * threads do then. Nothing has come for so long: rests are longer. */
enum { LOOK_US = 200, MAP_LOOK_US = 60, THREAD_LOOK_US = 20, LOOKS = 16, IDLE_US = 100000 };
enum { LISTEN_US = 500, IDLE_LISTEN_US = 10000, NAP_US = 200, IDLE_NAP_US = 2000 };

/* Calls that do not wait serve at each 64th, but no sooner after the last look at the clock. */
enum { BETWEEN_US = 4 };

/* Who finds the thread at the door lets it in, and looks at most so often whether it is. */
enum { LETS = 1000 };

/* The shortest turn of a processor that the system gives. */
enum { TURN_NS = 100000 };

int64_t ivy_in_now(void) {
  struct timespec t;
  clock_gettime(CLOCK_MONOTONIC, &t);
  return (int64_t)t.tv_sec * 1000000 + t.tv_nsec / 1000;
}

/* Where nothing more is there to be heard, a peer that was not heard for so long is dead. */
static void look_for_dead(ivy_process *p) {
  for (uint32_t i = 0; p->death_us && i < p->config.nodes; i++)
    if (ivy_in_is_needed(p, i) && p->peers[i].heard && p->now - p->peers[i].heard > p->death_us) ivy_in_told_dead(p, i);
}

/* A pulse where it is due to a peer that did not acknowledge what it was sent, or is owed that. */
static void look_after(ivy_process *p, uint32_t i, int is_kept) {
  peer *it = &p->peers[i];
  int64_t least = 2 * it->way;
  if (least < PULSE_US) least = PULSE_US;
  if (least > MOST_GAP_US) least = MOST_GAP_US;
  if (!it->gap) {
    it->gap = least;
    if (!it->due || it->due > p->now + least) it->due = p->now + least;
  }
  if (p->now < it->due) return;
  ivy_in_pulse(p, i);
  it->due = p->now + it->gap;
  if (is_kept && it->gap < MOST_GAP_US) it->gap *= 2;
}

/* What is due by the clock: pulses to whom they help, and signs of life. */
static void keep_time(ivy_process *p) {
  int64_t now = p->now;
  if (now - p->ticked >= TICK_US) {
    uint32_t kept = 0, owed = 0;
    ivy_kept_set(&p->node, &kept);
    ivy_owed_set(&p->node, &owed);
    for (uint32_t i = 0; i < p->config.nodes; i++) {
      if (p->peers[i].asked == JUST_NOW) p->peers[i].asked = now;
      if ((kept | owed) >> i & 1u) look_after(p, i, kept >> i & 1u);
      else p->peers[i].due = p->peers[i].gap = 0;
    }
    p->ticked = now;
  }
  if (now - p->spoke >= SPEAK_US) {
    ivy_in_speak(p);
    p->spoke = now;
  }
}

static int is_idle(const ivy_process *p) { return p->now - p->active > IDLE_US; }

/* Waits for the next string, where others may need it without the lock: looks for a time after the last one, and then sleeps. A
 * program that makes calls in a row lets the thread in. */
static const uint8_t *wait_for_string(ivy_process *p, size_t *len, long wait_us, int is_thread) {
  const ivy_transport *t = &p->transport;
  const uint8_t *bytes = NULL;
  int64_t now, until = p->active;
  int is_fresh = p->is_fresh, look_us = is_thread ? THREAD_LOOK_US : p->map ? MAP_LOOK_US : LOOK_US;
  int is_shared = p->has_thread || p->shared; /* else who takes the lock would wait for this call to end anyway */
  if (p->map) wait_us = ivy_in_map_patience(p, wait_us);
  if (is_shared) ivy_in_unlock(p);
  do {
    for (int i = 0; i < LOOKS && !bytes; i++) bytes = t->receive(t->state, len, 0);
    if (bytes) break;
    now = ivy_in_now();
    if (is_fresh) until = now;
    is_fresh = 0;
  } while (now < until + look_us);
  if (!bytes) bytes = t->receive(t->state, len, wait_us);
  if (!is_shared) return bytes;
  if (is_thread) __atomic_store_n(&p->knocks, 1, __ATOMIC_RELAXED);
  ivy_in_lock(p);
  if (is_thread) __atomic_store_n(&p->knocks, 0, __ATOMIC_RELAXED);
  return bytes;
}

static void read_clock(ivy_process *p) {
  p->now = ivy_in_now();
  if (p->is_fresh) p->active = p->now;
  p->is_fresh = 0;
}

static int serve(ivy_process *p, long wait_us, int most, int is_thread) {
  const ivy_transport *t = &p->transport;
  const uint8_t *bytes;
  size_t len;
  int heard = 0;
  p->receiving = 1;
  do {
    bytes = heard || !wait_us ? t->receive(t->state, &len, 0) : wait_for_string(p, &len, wait_us, is_thread);
    if (!heard) read_clock(p);
    if (bytes) ivy_in_hear(p, bytes, len);
    else look_for_dead(p);
    heard += bytes != NULL;
  } while (bytes && heard < most);
  if (p->map) ivy_in_map_pump(p);
  keep_time(p);
  p->receiving = 0;
  p->changes += heard > 0;
  ivy_in_wake(p);
  return heard;
}

int ivy_in_serve(ivy_process *p, long wait_us, int most) {
  p->served++;
  return serve(p, wait_us, most, 0);
}

/* Sleeps until something changes, or so long, where that is not 0. */
static void sleep_on(ivy_process *p, long most_us) {
  p->sleepers++;
  ivy_in_sleep_at(p, &p->changed, most_us);
  p->sleepers--;
}

/* The processes of this program, if there are several memories. */
static ivy_process *joined;
static int joined_many;
static pthread_mutex_t joining = PTHREAD_MUTEX_INITIALIZER;

/* Serves the other memories of the program, whose peers may be what this call waits for. Nothing is waited for here: whoever
 * has a lock serves. */
static void serve_others(const ivy_process *p) {
  if (pthread_mutex_trylock(&joining)) return;
  for (ivy_process *it = joined; it; it = it->next) {
    if (it == p || it->has_thread || !ivy_in_try_lock(it)) continue;
    if (!it->receiving) serve(it, 0, MANY, 0);
    ivy_in_unlock(it);
  }
  pthread_mutex_unlock(&joining);
}

static int is_alone(void) { return __atomic_load_n(&joined_many, __ATOMIC_RELAXED) < 2; }

static long patience(const ivy_process *p) { return is_idle(p) && !p->shared && is_alone() ? IDLE_LISTEN_US : LISTEN_US; }

void ivy_in_wait(ivy_process *p) {
  p->waits++;
  if (p->receiving) sleep_on(p, 0);
  else if (!ivy_in_serve(p, patience(p), 1) && !is_alone()) serve_others(p);
  p->waits--;
}

void ivy_in_rest(ivy_process *p, uint32_t changes, int64_t until) {
  ivy_in_lock(p);
  int64_t now = ivy_in_now(), last = now + patience(p);
  if (until && until < last) last = until;
  if (p->changes == changes && !p->error && last > now) {
    p->waits++;
    if (p->receiving) sleep_on(p, (long)(last - now));
    else ivy_in_serve(p, (long)(last - now), 1);
    p->waits--;
  }
  ivy_in_unlock(p);
}

/* Asks the system for short turns of a processor. These begin sooner: who computes is interrupted for them, as of Linux 6.12. */
void ivy_in_take_short_turns(void) {
  struct turns { uint32_t size, policy; uint64_t flags; int32_t nice; uint32_t priority; uint64_t turn_ns, deadline, period; };
  struct turns own = { sizeof own, 0, 0, 0, 0, 0, 0, 0 };
  if (syscall(SYS_sched_getattr, 0, &own, sizeof own, 0)) return;
  own.turn_ns = TURN_NS;
  syscall(SYS_sched_setattr, 0, &own, 0);
}

/* While calls wait, or look after peers by themselves, the thread sleeps. */
static void *serve_on(void *argument) {
  ivy_process *p = (ivy_process *)argument;
  uint32_t seen = 0;
  ivy_in_take_short_turns();
  ivy_in_lock(p);
  while (!p->ending) {
    if (p->map) ivy_in_map_tick(p);
    if (p->receiving || p->waits || p->served != seen) {
      seen = p->served;
      ivy_in_sleep_at(p, &p->ended, is_idle(p) ? IDLE_NAP_US : NAP_US);
    } else {
      serve(p, is_idle(p) ? IDLE_NAP_US : LISTEN_US, MANY, 1);
    }
  }
  ivy_in_unlock(p);
  return NULL;
}

void ivy_in_begin_progress(ivy_process *p) {
  ivy_in_lock(p);
  p->has_thread = p->progress == IVY_BY_THREAD && !pthread_create(&p->thread, NULL, serve_on, p);
  ivy_in_unlock(p);
  pthread_mutex_lock(&joining);
  p->next = joined;
  joined = p;
  __atomic_add_fetch(&joined_many, 1, __ATOMIC_RELAXED);
  pthread_mutex_unlock(&joining);
}

void ivy_in_end_progress(ivy_process *p) {
  pthread_mutex_lock(&joining);
  for (ivy_process **it = &joined; *it; it = &(*it)->next) {
    if (*it != p) continue;
    *it = p->next;
    __atomic_sub_fetch(&joined_many, 1, __ATOMIC_RELAXED);
    break;
  }
  pthread_mutex_unlock(&joining);
  ivy_in_lock(p);
  p->ending = 1;
  ivy_in_wake_at(&p->ended);
  ivy_in_unlock(p);
  if (p->has_thread) pthread_join(p->thread, NULL);
  p->has_thread = 0;
}

void ivy_in_let_in(ivy_process *p) {
  for (int i = 0; i < LETS && __atomic_load_n(&p->knocks, __ATOMIC_RELAXED); i++) sched_yield();
}

uint32_t ivy_in_wait_for_calls(ivy_process *p) {
  while (p->in_call && !p->error) sleep_on(p, 0);
  if (p->error) return p->error;
  p->served++;
  if (!p->receiving && ivy_in_now() - p->now >= BETWEEN_US) serve(p, 0, MANY, 0);
  return p->error;
}

uint32_t ivy_in_enter_slowly(ivy_process *p) {
  uint32_t status = ivy_in_wait_for_calls(p);
  p->counts.calls -= status != IVY_DONE;
  return status;
}
