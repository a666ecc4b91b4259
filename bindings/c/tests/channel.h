/* Strings between nodes in threads of one process, for tests: each that is sent may be kept, and others may be put in. */
#ifndef IVY_CHANNEL_H
#define IVY_CHANNEL_H
#ifndef _POSIX_C_SOURCE
#define _POSIX_C_SOURCE 200809L
#endif
#include "ivy_runtime.h"
#include <pthread.h>
#include <stdio.h>
#include <stdlib.h>
#include <string.h>
#include <time.h>

enum { CHANNELS = 4, WAITING = 1024, KEPT = 4096 };

typedef struct { uint8_t bytes[IVY_STRING_MOST]; size_t len; uint32_t to; } channel_string;

typedef struct {
  uint32_t me;
  pthread_mutex_t lock;
  pthread_cond_t came;
  channel_string waiting[WAITING], last;
  uint32_t first, many;
  uint8_t room[IVY_STRING_MOST];
  uint32_t sent;          /* so many frames of the node */
  int is_cut, is_closed;  /* whether all is lost that comes or goes; whether it was closed */
} channel;

static channel channels[CHANNELS];

/* All strings, where they are kept. */
static channel_string kept[KEPT];
static uint32_t kept_many;
static int keeps;
static pthread_mutex_t keeping = PTHREAD_MUTEX_INITIALIZER;

/* From now on all is lost that comes to a node, or goes from it. */
static inline void channel_cut(uint32_t me) { __atomic_store_n(&channels[me].is_cut, 1, __ATOMIC_RELAXED); }
static inline int channel_is_cut(const channel *c) { return __atomic_load_n(&c->is_cut, __ATOMIC_RELAXED); }

static inline void channel_put(uint32_t to, const uint8_t *bytes, size_t len) {
  channel *c = &channels[to];
  pthread_mutex_lock(&c->lock);
  if (!channel_is_cut(c) && c->many < WAITING) {
    channel_string *place = &c->waiting[(c->first + c->many++) % WAITING];
    memcpy(place->bytes, bytes, len);
    place->len = len;
    pthread_cond_signal(&c->came);
  }
  pthread_mutex_unlock(&c->lock);
}

static inline uint8_t *channel_room(void *state) { return ((channel *)state)->room; }

static inline void channel_send(void *state, uint32_t to, size_t len) {
  channel *c = (channel *)state;
  c->sent += c->room[0] == 1;
  pthread_mutex_lock(&keeping);
  if (keeps && kept_many < KEPT) {
    memcpy(kept[kept_many].bytes, c->room, len);
    kept[kept_many].len = len;
    kept[kept_many++].to = to;
  }
  pthread_mutex_unlock(&keeping);
  if (!channel_is_cut(c)) channel_put(to, c->room, len);
}

static inline const uint8_t *channel_receive(void *state, size_t *len, long wait_us) {
  channel *c = (channel *)state;
  struct timespec until;
  clock_gettime(CLOCK_REALTIME, &until);
  until.tv_nsec += wait_us % 1000000 * 1000;
  until.tv_sec += wait_us / 1000000 + until.tv_nsec / 1000000000;
  until.tv_nsec %= 1000000000;
  pthread_mutex_lock(&c->lock);
  if (!c->many && wait_us) pthread_cond_timedwait(&c->came, &c->lock, &until);
  int is_there = c->many > 0;
  if (is_there) {
    memcpy(&c->last, &c->waiting[c->first], sizeof c->last);
    c->first = (c->first + 1) % WAITING;
    c->many--;
  }
  pthread_mutex_unlock(&c->lock);
  *len = c->last.len;
  return is_there ? c->last.bytes : NULL;
}

static inline void channel_close(void *state) { ((channel *)state)->is_closed = 1; }

/* The channel of a node, from nothing. */
static inline ivy_transport channel_open(uint32_t me) {
  channel *c = &channels[me];
  ivy_transport t = { c, channel_room, channel_send, channel_receive, channel_close };
  memset(c, 0, sizeof *c);
  c->me = me;
  pthread_mutex_init(&c->lock, NULL);
  pthread_cond_init(&c->came, NULL);
  return t;
}

/* Ends with status 1 where something is another than it should be. */
static inline void should_be(const char *what, uint64_t is, uint64_t should) {
  if (is == should) return;
  fprintf(stderr, "%s is %llu and not %llu\n", what, (unsigned long long)is, (unsigned long long)should);
  exit(1);
}

/* A node that does something in a thread. */
typedef struct {
  uint32_t me, nodes;
  ivy_progress progress;
  long death_ms;
  void (*work)(ivy_process *ivy, uint32_t me);
  uint32_t ends; /* the status with which it leaves */
  pthread_t thread;
  ivy_transport transport;
} channel_node;

enum { CHANNEL_PAGE = 256 };
#ifndef CHANNEL_PAGES
#define CHANNEL_PAGES 4
#endif

/* The log of node 1, if it is to have one. */
static FILE *channel_log;

static inline void *channel_run(void *argument) {
  channel_node *n = (channel_node *)argument;
  const ivy_start start = { { n->nodes, CHANNEL_PAGES, CHANNEL_PAGE, IVY_DYNAMIC }, n->me, n->transport, n->progress, 5000, n->death_ms,
                            n->me ? channel_log : NULL, 0 };
  ivy_process *ivy;
  should_be("the status of a start", ivy_join_as(&start, &ivy), IVY_DONE);
  n->work(ivy, n->me);
  should_be("the last status", ivy_leave(ivy), n->ends);
  return NULL;
}

/* What is done once the channels are open, and before the nodes are there. */
static void (*channel_opened)(void);

/* Runs two nodes until both are done. */
static inline void channel_run_two(ivy_progress progress, long death_ms, void (*first)(ivy_process *, uint32_t),
                                   void (*second)(ivy_process *, uint32_t)) {
  channel_node nodes[2];
  memset(nodes, 0, sizeof nodes);
  for (uint32_t i = 0; i < 2; i++) {
    nodes[i].me = i;
    nodes[i].nodes = 2;
    nodes[i].progress = progress;
    nodes[i].death_ms = death_ms;
    nodes[i].work = i ? second : first;
    nodes[i].transport = channel_open(i);
  }
  if (channel_opened) channel_opened();
  for (uint32_t i = 0; i < 2; i++) pthread_create(&nodes[i].thread, NULL, channel_run, &nodes[i]);
  for (uint32_t i = 0; i < 2; i++) pthread_join(nodes[i].thread, NULL);
}

#endif
