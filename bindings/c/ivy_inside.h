/* ivy_inside.h: what the files of the runtime share. No program includes it. */
#ifndef IVY_INSIDE_H
#define IVY_INSIDE_H
#include "ivy_runtime.h"
#include <pthread.h>
#include <sys/single_threaded.h>
#ifdef __cplusplus
extern "C" {
#endif

enum { MOST_NODES = 32, MANY = 64 };

/* A draw, by which a process is told from another one that has its number: 128 bits. A run is named by all of its draws. */
enum { DRAW = 16 };

/* The head of each string: its kind, who sent it to whom, the name of the run, and the sender's draw. */
enum { KIND_AT = 0, FROM_AT = 1, TO_AT = 2, RUN_AT = 3, DRAW_AT = RUN_AT + DRAW, HEAD = DRAW_AT + DRAW };

/* A frame of a node, or a word of the runtime: a process that is in no run yet; the run, with the draws of all; who is in it;
 * all is done; somebody is dead; a sign of life; no, another process has that number. Then, of mapped memory: a sign of life of
 * who has mapped it, with the others of whom it knows that; it may ask for these pages; it has heard so. And short frames, each
 * behind its length. */
enum { FRAME = 1, HELLO, RUN, HERE, DONE, DEAD, ALIVE, REFUSED, MAPPED, MAY_ASK, HEARD, FRAMES };

/* What is not said again later is said so often at once, since a transport may lose it. */
enum { REPEATS = 5 };

/* A frame: where its source, its destination and the number of its message stand, and so far above what was delivered a string
 * is kept, as a node does it. */
enum { FRAME_HEAD = 24, SOURCE = 4, DESTINATION = 5, NUMBER = 8, MOST_AHEAD = 32, LENGTH = 4 };

/* Strings of a node go together in one, short ones alone; over a transport that says so, also two pages. */
enum { SHORT_MOST = 512, LONG_MOST = 2 * IVY_STRING_MOST };

/* A node fetches no more pages at once. */
enum { MOST_FETCHED = 7 };

/* The bytes at the end of a string by which who has the key knows that it was sent so. */
enum { TAG = 16, MOST_KEY = 64 };

typedef struct { uint8_t *bytes; size_t len; } string;
typedef struct { uint32_t kind, width; uint64_t place, operand, expected; } call;

enum { JUST_NOW = -1 };

/* What is known of the way to a peer and back. */
typedef struct {
  int64_t heard;  /* when it was heard last, or 0 */
  int64_t asked;  /* since when something was sent to it and nothing heard; or 0; or JUST_NOW, since the clock was read last */
  int64_t way;    /* the least time that passed so, or 0: it rises slowly where others are longer */
  int64_t due, gap; /* when what it did not acknowledge is sent again, and how long after that once more */
  uint64_t word;  /* the number of its last word */
} peer;

struct ivy_process {
  ivy_node node;
  uint32_t quick, granted; /* so many calls may still be made without the lock, of so many; they are not counted yet */
  ivy_config config;
  ivy_transport transport;
  uint8_t *room; /* of the transport, where it was given and nothing was sent from it yet */
  size_t together; /* so many bytes at most of strings of the node go in one */
  int holds;       /* strings of the node wait until several can go in one */
  ivy_progress progress;
  uint32_t me, all;
  uint32_t ahead;    /* so many pages at most are fetched ahead of need */
  ivy_counts counts; /* but for the hits, which are the other calls */
  uint64_t roots;    /* where they are, or 0 */

  uint8_t draws[MOST_NODES][DRAW]; /* of whom a draw is known */
  uint8_t names[MOST_NODES][2 * DRAW]; /* once the run is fixed: its name and the draw, as strings of that node have them */
  uint32_t drawn;                  /* whose draws are known */
  int is_fixed, differs, is_refused;
  uint32_t has_told;               /* of whom it was told that another process came in its place */
  uint64_t words;                  /* so many words were said */

  uint32_t here, known_here; /* who said a word in this run; who said that it heard all */
  uint32_t done, known_done; /* who is done; who said that all are */
  int is_done, ending;
  peer peers[MOST_NODES];
  int64_t death_us;
  int64_t now, ticked, spoke; /* the clock, as it was read last; when the runtime looked after its peers, and spoke */
  int64_t active;             /* when a frame was sent or heard last */
  int is_fresh;               /* one was sent since the clock was read last */

  FILE *log;
  int owns_log;
  int is_full;               /* it takes no more */
  int has_file;              /* it is a regular file, which no other node writes */
  ivy_process *next_logging; /* another one in this program of which that is so */
  uint64_t turns;                       /* so many the log has */
  uint64_t delivered[MOST_NODES];       /* where there is a log, so many messages of each node */
  string early[MOST_NODES][MOST_AHEAD]; /* its strings that are not due, each in the place of its number, modulo so many */

  uint32_t error, dead, told; /* the first status of a failure; who is dead, and of whom the program was told so */
  int exits;                  /* whether the program ends then */
  void (*on_death)(void *context, uint32_t node);
  void *context;

  uint8_t key[MOST_KEY];
  size_t key_length;

  int lock;
  uint32_t changed, ended; /* so often something changed for who sleeps, as a call that is over; so often the thread was to end */
  pthread_t thread;
  int has_thread;
  int receiving;           /* a thread receives, without the lock */
  int waits, sleepers;     /* so many calls wait; so many threads sleep until something changes */
  int in_call;             /* a call of another thread of the program is in progress */
  int pending;             /* the node waits for a reply */
  int shared;              /* several threads of the program make calls */
  int has_more;            /* a call that is over at once has more to do: there is a log, or it is shared */
  uint32_t served, changes; /* calls looked after their peers so often; so often something changed here */
  int knocks;              /* the thread has a string, and waits for the lock */
  ivy_process *next;       /* another one in this program */
  struct ivy_mapping *map; /* where its memory is mapped */
};

static inline void ivy_in_put32(uint8_t *to, uint32_t value) {
  for (int i = 0; i < 4; i++) to[i] = (uint8_t)(value >> (24 - 8 * i));
}

static inline uint32_t ivy_in_get32(const uint8_t *from) {
  return (uint32_t)from[0] << 24 | (uint32_t)from[1] << 16 | (uint32_t)from[2] << 8 | from[3];
}

static inline void ivy_in_put64(uint8_t *to, uint64_t value) {
  ivy_in_put32(to, (uint32_t)(value >> 32));
  ivy_in_put32(to + 4, (uint32_t)value);
}

static inline uint64_t ivy_in_get64(const uint8_t *from) {
  return (uint64_t)ivy_in_get32(from) << 32 | ivy_in_get32(from + 4);
}

#pragma GCC visibility push(hidden)

/* ---- ivy_lock.c: a lock, which takes one step more where nobody else wants it, or none where there is one thread ---------- */

enum { FREE = 0, TAKEN = 1, WAITED_FOR = 2 };

void ivy_in_lock_slowly(ivy_process *p);
void ivy_in_unlock_slowly(ivy_process *p);
/* Who has the lock counts the calls that were made without it, and no more are. */
static inline void ivy_in_end_quick(ivy_process *p) {
  if (!p->granted) return;
  p->counts.calls += p->granted - p->quick;
  p->granted = p->quick = 0;
}
static inline int ivy_in_take_free(ivy_process *p) {
  int is_free = FREE;
  return __atomic_compare_exchange_n(&p->lock, &is_free, TAKEN, 0, __ATOMIC_ACQUIRE, __ATOMIC_RELAXED);
}
static inline int ivy_in_try_lock(ivy_process *p) {
  if (!ivy_in_take_free(p)) return 0;
  ivy_in_end_quick(p);
  return 1;
}
static inline void ivy_in_lock(ivy_process *p) {
  if (__libc_single_threaded) p->lock = TAKEN;
  else if (!ivy_in_take_free(p)) ivy_in_lock_slowly(p);
  ivy_in_end_quick(p);
}
static inline void ivy_in_unlock(ivy_process *p) {
  if (__libc_single_threaded) p->lock = FREE;
  else if (__atomic_exchange_n(&p->lock, FREE, __ATOMIC_RELEASE) == WAITED_FOR) ivy_in_unlock_slowly(p);
}
/* Sleeps, without the lock, until others are woken, or so many microseconds, where these are not 0. */
void ivy_in_sleep_at(ivy_process *p, uint32_t *times, long most_us);
void ivy_in_wake_at(uint32_t *times);

/* ---- ivy_words.c: who is in a run, and what is said there ------------------------------------------------------------ */

/* Draws for this process. */
int ivy_in_draw(ivy_process *p);
/* Says a word to all peers. */
void ivy_in_say(ivy_process *p, uint8_t kind, uint32_t set);
/* Says a word on pages to a peer. */
void ivy_in_say_pages(ivy_process *p, uint32_t to, uint8_t kind, uint32_t first, uint32_t many);
/* What a process without a run, or with one, says now and then. */
void ivy_in_speak(ivy_process *p);
/* A string comes. */
void ivy_in_hear(ivy_process *p, const uint8_t *bytes, size_t len);
/* The first failure is kept, and told to peers where they cannot go on. */
void ivy_in_fail(ivy_process *p, uint32_t status);
void ivy_in_told_dead(ivy_process *p, uint32_t who);
/* Whether it is a peer that still has to serve: none goes before it knows that all are done. */
int ivy_in_is_needed(const ivy_process *p, uint32_t peer);

/* ---- ivy_frames.c: strings of the node, which the log has ------------------------------------------------------------ */

int ivy_in_has_frame(ivy_process *p);
/* Sends the strings that wait, once the log has what they follow from. */
void ivy_in_send_frames(ivy_process *p);
/* The same, those to one peer several in one, as many as it takes: where pages were fetched, or held are asked for. */
void ivy_in_send_together(ivy_process *p);
void ivy_in_hear_frame(ivy_process *p, const uint8_t *bytes, size_t len);
/* Gives a string to the node: IVY_DONE, IVY_WANTED, or another status where it is none. */
uint32_t ivy_in_deliver(ivy_process *p, const uint8_t *bytes, size_t len);
/* A pulse to a peer, which is in the log where it says something. */
void ivy_in_pulse(ivy_process *p, uint32_t to);
/* The transport's room for the next string. */
static inline uint8_t *ivy_in_room(ivy_process *p) {
  if (!p->room) p->room = p->transport.room(p->transport.state);
  return p->room;
}
/* Sends so many bytes of the room, whose head is written here, to a peer. */
void ivy_in_send(ivy_process *p, uint8_t *bytes, uint8_t kind, uint32_t to, size_t len);
void ivy_in_flush_log(ivy_process *p);
void ivy_in_log_begin(ivy_process *p);
void ivy_in_log_call(ivy_process *p, const call *c);
/* The turns that the log lacks, and the reply, if it is one. */
void ivy_in_log_reply(ivy_process *p, const call *c, uint32_t status, const uint64_t *value);
/* Asks for a page ahead, as ivy_fetch does; where there is a log, it has a line for it. */
uint32_t ivy_in_fetch(ivy_process *p, uint32_t page, uint32_t to, uint32_t *begun);
const char *ivy_in_kind(uint32_t kind);

/* ---- ivy_log.c: who writes a log ---------------------------------------------------------------------------------------- */

/* Locks the log, where there is one, before it is written: IVY_DONE, or IVY_LOG_TAKEN. */
uint32_t ivy_in_take_log(ivy_process *p);
/* Writes out what the log is to have, and frees it. */
void ivy_in_give_log(ivy_process *p);

/* ---- ivy_progress.c: time, and who receives --------------------------------------------------------------------------- */

int64_t ivy_in_now(void);
/* So long after a time, or the last time that there is. */
static inline int64_t ivy_in_after(int64_t time, int64_t us) { return us > INT64_MAX - time ? INT64_MAX : time + us; }
/* Microseconds of so many milliseconds, or the most that there are. */
static inline int64_t ivy_in_us_of(long ms) { return ms > INT64_MAX / 1000 ? INT64_MAX : (int64_t)ms * 1000; }
/* Hears what came, so many strings at most, waiting so long for the first one; the lock is held, but not while it waits. */
int ivy_in_serve(ivy_process *p, long wait_us, int most);
/* Waits until something was heard: one string, since it may be what is waited for. */
void ivy_in_wait(ivy_process *p);
/* The same between two looks of a thread, until a time, with the lock free, unless something changed since a look. */
void ivy_in_rest(ivy_process *p, uint32_t changes, int64_t until);
/* A process has joined, and is served also while calls of others of the program wait; or by a thread. */
void ivy_in_begin_progress(ivy_process *p);
/* The lock is not held. */
void ivy_in_end_progress(ivy_process *p);
/* A thread of the runtime, for which others wait, is to run as soon as it is woken. */
void ivy_in_take_short_turns(void);
/* Something changed. */
static inline void ivy_in_wake(ivy_process *p) {
  if (p->sleepers) ivy_in_wake_at(&p->changed);
}
/* A call serves so often. */
enum { EACH = 64 };
/* The thread waits for the lock with a string, which a program that makes calls in a row would keep from it. */
void ivy_in_let_in(ivy_process *p);
/* Waits for the calls of other threads, and serves where it is time. The first failure, or IVY_DONE. */
uint32_t ivy_in_wait_for_calls(ivy_process *p);
/* The same before a call, which counts if it is made. */
uint32_t ivy_in_enter_slowly(ivy_process *p);
/* Frees the lock, and tells the program of a failure: it may end here. */
void ivy_in_leave_failed(ivy_process *p);
/* Takes the lock for a call, and serves now and then. The first failure, or IVY_DONE. */
static inline uint32_t ivy_in_enter(ivy_process *p) {
  if (__atomic_load_n(&p->knocks, __ATOMIC_RELAXED)) ivy_in_let_in(p);
  ivy_in_lock(p);
  if (++p->counts.calls % EACH == 0 || p->in_call || p->error) return ivy_in_enter_slowly(p);
  return IVY_DONE;
}
/* The only thread of a program may make calls without the lock, until it is time to serve, where nothing else is to be done. */
static inline void ivy_in_begin_quick(ivy_process *p) {
  if (!__libc_single_threaded || p->in_call || p->map || p->has_more) return;
  p->granted = p->quick = (uint32_t)(EACH - 1 - p->counts.calls % EACH);
}
/* Frees it. */
static inline void ivy_in_leave(ivy_process *p) {
  if (p->error) {
    ivy_in_leave_failed(p);
    return;
  }
  ivy_in_begin_quick(p);
  ivy_in_unlock(p);
}

/* ---- ivy_runtime.c ------------------------------------------------------------------------------------------------------ */

/* A process joins, as by ivy_join_as; where it owns its log that is closed as it leaves; and it may have roots. */
uint32_t ivy_in_join(const ivy_start *start, int owns_log, int has_roots, ivy_process **process);
/* A call that was refused, and gives a value and no status: the failure is kept. */
void ivy_in_refuse(ivy_process *p, uint32_t kind, uint64_t place, uint32_t status);
/* A call, the lock held. */
uint32_t ivy_in_call(ivy_process *p, const call *c, uint64_t *value);
/* A call that waited is over. */
void ivy_in_end_call(ivy_process *p);
/* Whether the run is over, and calls in progress get no reply. */
static inline int ivy_in_is_over(const ivy_process *p) { return p->dead || p->is_full; }

/* ---- ivy_start.c -------------------------------------------------------------------------------------------------------- */

/* How many pages are fetched ahead, by the environment. Whether that says nothing, or a number that can be used. */
int ivy_in_find_ahead(ivy_process *p);

/* ---- ivy_places.c ----------------------------------------------------------------------------------------------------- */

/* Node 0 allocates the roots, before others are here. */
void ivy_in_make_roots(ivy_process *p);

/* ---- ivy_map.c and ivy_map_calls.c: where memory is mapped, the lock held ------------------------------------------------- */

/* A string comes, which may have to wait for a page that the program has. */
void ivy_in_map_came(ivy_process *p, const uint8_t *bytes, size_t len);
/* Strings that wait are tried again; and so long may be slept until then, of so many microseconds. */
void ivy_in_map_pump(ivy_process *p);
long ivy_in_map_patience(const ivy_process *p, long wait_us);
/* What the runtime's thread does now and then. */
void ivy_in_map_tick(ivy_process *p);
/* Who has mapped the memory, as this process knows; a word of one of these comes; what was said is heeded, since no call is in
 * progress. */
uint32_t ivy_in_map_members(const ivy_process *p);
void ivy_in_map_hear(ivy_process *p, uint32_t from, uint8_t kind, uint32_t set, uint32_t first, uint32_t many);
void ivy_in_map_heed(ivy_process *p);
/* A call begins: on a page that may be lent by its image, else at the node. */
uint32_t ivy_in_map_begin(ivy_process *p, const call *c, uint64_t *value);
/* Words in a row, the lock not held. */
uint32_t ivy_in_map_row(ivy_process *p, uint32_t kind, uint64_t address, uint8_t *into, const uint8_t *from, size_t len);
/* A hint on a page: whether it was asked for. */
uint32_t ivy_in_map_hint(ivy_process *p, uint32_t page);
/* Nobody needs it any more; the lock is not held. */
void ivy_in_map_end(ivy_process *p);

/* ---- ivy_udp.c -------------------------------------------------------------------------------------------------------- */

/* Whether its strings may have LONG_MOST bytes: not those of a transport that hands them on to this one. */
int ivy_in_takes_two(const ivy_transport *transport);

/* ---- ivy_key.c -------------------------------------------------------------------------------------------------------- */

/* The key of the environment. Whether there is none, or it can be used. */
int ivy_in_find_key(ivy_process *p);
/* What stands at the end of a string. */
void ivy_in_tag(const ivy_process *p, const uint8_t *bytes, size_t len, uint8_t *tag);
int ivy_in_has_tag(const ivy_process *p, const uint8_t *bytes, size_t len);

#pragma GCC visibility pop

/* The `close` of a transport that is for one thread alone, which it says itself. */
extern void (*ivy_in_for_one_thread)(void *state);

#ifdef __cplusplus
}
#endif
#endif
