/* ivy_sync.h: locks, barriers, queues and reductions over the calls of ivy_runtime.h.
 *
 * Each lies in memory as that of the same name in the Rattle crate ivy_sync, or the readers' lock in example_programs, so nodes
 * in C and nodes in Rattle meet at one barrier and wait for one lock. The functions here are tested; what is proved is proved
 * of the crates.
 *
 * A word is one of 8 bytes at an address that is a multiple of 8; a count is an eventcount, by its number. Both are 0 at
 * first, where nothing else is said. A value of these types is a node's own: it says where the thing lies, and how far the
 * node has come. After a failure, as ivy_runtime.h says, nothing here waits or changes anything. What gives a status gives the first one
 * of a failure, or IVY_DONE; of what gives a number ask ivy_error.
 *
 * A time is in microseconds: with 0 a function tries once, with less it waits without an end. */
#ifndef IVY_SYNC_H
#define IVY_SYNC_H
#include "ivy_native.h"
#ifdef __cplusplus
extern "C" {
#endif

/* A new word that is 0: a block that was used before is not. */
uint64_t ivy_cleared_word(ivy_process *process);

/* ---- A lock in a word: 0 where it is free. It spins ---------------------------------------------------------------- */

typedef struct { uint64_t address; } ivy_lock;

uint32_t ivy_lock_acquire(ivy_process *process, ivy_lock lock);

/* 1 where it was free, and is held now. */
int ivy_lock_try(ivy_process *process, ivy_lock lock);

/* 1 where it was free within a time, and is held now. It looks with rests. */
int ivy_lock_acquire_for(ivy_process *process, ivy_lock lock, long wait_us);

/* Only who holds the lock may leave it. */
uint32_t ivy_lock_release(ivy_process *process, ivy_lock lock);

/* ---- A lock by tickets: the word has the next ticket, the count the one whose turn it is. It waits with one call ------ */

typedef struct { uint64_t next, turn; } ivy_ticket_lock;

/* The ticket that was drawn. */
uint64_t ivy_ticket_lock_acquire(ivy_process *process, ivy_ticket_lock lock);

/* 1 where nobody had a ticket that is not used up, at once or within a time, and the lock is held now. Only then a ticket is
 * drawn, so others may come first. */
int ivy_ticket_lock_try(ivy_process *process, ivy_ticket_lock lock);
int ivy_ticket_lock_acquire_for(ivy_process *process, ivy_ticket_lock lock, long wait_us);

/* Only who is inside may leave. */
uint32_t ivy_ticket_lock_release(ivy_process *process, ivy_ticket_lock lock);

/* ---- A lock with places: each waits at a word of its own, so who leaves disturbs only the next ------------------------- */

/* The word of the next ticket, and so many places, words that lie so many bytes apart: best as many as nodes, and a page. */
typedef struct { uint64_t next, places, apart, size; } ivy_array_lock;

/* The ticket that was drawn, by which to leave. */
uint64_t ivy_array_lock_acquire(ivy_process *process, ivy_array_lock lock);
uint32_t ivy_array_lock_release(ivy_process *process, ivy_array_lock lock, uint64_t ticket);

/* ---- A lock for many readers or one writer, in a word: how many readers are inside, or that it is taken. It spins ------ */

typedef struct { uint64_t address; } ivy_readers_lock;

uint32_t ivy_readers_lock_read(ivy_process *process, ivy_readers_lock lock);
uint32_t ivy_readers_lock_leave_read(ivy_process *process, ivy_readers_lock lock);
uint32_t ivy_readers_lock_write(ivy_process *process, ivy_readers_lock lock);
uint32_t ivy_readers_lock_leave_write(ivy_process *process, ivy_readers_lock lock);

/* 1 where no writer is inside, or nobody, within a time, and it is held now. */
int ivy_readers_lock_read_for(ivy_process *process, ivy_readers_lock lock, long wait_us);
int ivy_readers_lock_write_for(ivy_process *process, ivy_readers_lock lock, long wait_us);

/* ---- A barrier of so many nodes, all or those of a list, over and over ------------------------------------------------ */

typedef struct {
  uint64_t count;
  uint32_t nodes;
  uint64_t passed; /* what the count is when the next phase begins: at first 0 */
} ivy_barrier;

uint32_t ivy_barrier_wait(ivy_process *process, ivy_barrier *barrier);

/* The same by two words, best on pages of their own, so that nobody waits at the word that is raised. */
typedef struct {
  uint64_t arrived, opened;
  uint32_t nodes;
  uint64_t passed; /* what the words are when the next phase begins: at first 0 */
} ivy_word_barrier;

uint32_t ivy_word_barrier_wait(ivy_process *process, ivy_word_barrier *barrier);

/* The same by a tree in which each node has up to four below it: two words a node, from node 0 on so many bytes apart, best a
 * page. */
typedef struct {
  uint64_t raised, opened, apart;
  uint32_t nodes;
  uint64_t passed; /* so many phases: at first 0 */
} ivy_tree_barrier;

uint32_t ivy_tree_barrier_wait(ivy_process *process, ivy_tree_barrier *barrier, uint32_t me);

/* ---- A number that one node gives to all -------------------------------------------------------------------------------- */

typedef struct {
  uint64_t address;
  ivy_barrier *barrier; /* the node's own of these nodes, not a copy: who has one that is behind goes through too early */
} ivy_broadcast;

uint32_t ivy_broadcast_give(ivy_process *process, const ivy_broadcast *broadcast, uint64_t value);

/* Until all have met again nobody gives another one. */
uint64_t ivy_broadcast_get(ivy_process *process, const ivy_broadcast *broadcast);

/* ---- A number of each node, from which each works out the same: a word for each node ---------------------------------
 *
 * Where the nodes are those of a list, `me` is the place of this node in it. */

typedef struct {
  uint64_t address;
  ivy_barrier *barrier; /* as in ivy_broadcast */
} ivy_reduction;

/* Gives the number of node `me`, waits for the others, and folds all numbers, from node 0 on. Before the words are written
 * again all have to meet once more. */
uint64_t ivy_reduction_fold(ivy_process *process, const ivy_reduction *reduction, uint32_t me, uint64_t value, uint64_t first,
                            uint64_t (*fold)(uint64_t so_far, uint64_t one));

uint64_t ivy_sum(uint64_t so_far, uint64_t one);
uint64_t ivy_least(uint64_t so_far, uint64_t one);
uint64_t ivy_greatest(uint64_t so_far, uint64_t one);

/* ---- The same by a tree: each node looks at words of five others at most, and all have met -----------------------------
 *
 * Beside the words of a barrier by a tree each node has one for its part and one for what all get, as far apart, best on the
 * pages of those two. Here the words may be used again at once. */

typedef struct {
  ivy_tree_barrier tree;
  uint64_t part, given;
} ivy_tree_reduction;

/* What the numbers of all nodes come to by an operation to which neither order nor grouping matters. */
uint64_t ivy_tree_reduction_fold(ivy_process *process, ivy_tree_reduction *reduction, uint32_t me, uint64_t value,
                                 uint64_t (*fold)(uint64_t so_far, uint64_t one));

/* The number of node 0, which reaches all so: each node calls it. */
uint64_t ivy_tree_reduction_share(ivy_process *process, ivy_tree_reduction *reduction, uint32_t me, uint64_t value);

/* ---- Bytes of each node, which all get: so many for each at the address, in the form of ivy_native.h -------------------- */

/* Gives the bytes of node `me`, waits for the others, and gets those of all, from node 0 on. Before they are given again all
 * have to meet once more. The first status of a failure, or IVY_DONE. */
uint32_t ivy_gather(ivy_process *process, const ivy_reduction *reduction, uint32_t me, const void *piece, size_t len,
                    void *all);

/* Folds numbers of all nodes in place, each with those at its place, from node 0 on. */
uint32_t ivy_reduction_doubles(ivy_process *process, const ivy_reduction *reduction, uint32_t me, double *values, size_t many,
                               double (*fold)(double so_far, double one));

double ivy_sum_of_doubles(double so_far, double one);
double ivy_least_of_doubles(double so_far, double one);
double ivy_greatest_of_doubles(double so_far, double one);

/* ---- Pages that are to be here: so many words, so many bytes apart, are raised by 0, so a store to each is at once then -- */

uint32_t ivy_touch(ivy_process *process, uint64_t address, uint64_t pages, uint64_t apart);

/* ---- A queue of one sender and one receiver: so many words, and two counts of what was sent and taken ----------------- */

typedef struct { uint64_t at, size, sent, taken; } ivy_queue;

typedef struct {
  ivy_queue queue;
  uint64_t next; /* so many were sent, or taken: at first 0 */
} ivy_queue_end;

uint32_t ivy_queue_send(ivy_process *process, ivy_queue_end *sender, uint64_t value);

uint64_t ivy_queue_take(ivy_process *process, ivy_queue_end *receiver);

/* Several nodes send to one queue, one after another under a lock: no other sender of it may be used beside. */
uint32_t ivy_queue_send_shared(ivy_process *process, ivy_queue queue, ivy_lock lock, uint64_t value);

/* ---- Something that one node does for all: a word and a count ---------------------------------------------------------- */

typedef struct { uint64_t word, done; } ivy_once;

/* 1 where it is this node that has to do it, and then ivy_once_finish. Where another node has begun it waits until that
 * has finished. */
int ivy_once_begin(ivy_process *process, ivy_once once);

uint32_t ivy_once_finish(ivy_process *process, ivy_once once);

#ifdef __cplusplus
}
#endif
#endif
