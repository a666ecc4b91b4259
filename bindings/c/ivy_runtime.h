/* ivy_runtime.h: a node of Ivy in a process of its own, over any transport: calls that block, pulses by a timer, who is in
 * the run, the exchange of configurations at the start, the end, and the death of a peer. It is plain C, tested and not
 * proved; what it calls in ivy.h is proved.
 *
 * Each word is read and written by a call; ivy_map.h has plain pointers to the same memory.
 *
 * THREADS. Any thread of the program may call any function here: calls of one process wait for each other. A program of which
 * several threads make calls says so by ivy_use_threads. */
#ifndef IVY_RUNTIME_H
#define IVY_RUNTIME_H
#include "ivy.h"
#include <stdio.h>
#ifdef __cplusplus
extern "C" {
#endif

/* No string has more bytes: a frame of a page of 4,096 bytes, and what says who sent it, in which run. */
enum { IVY_STRING_MOST = 4096 + 128 };

/* What carries strings between processes. It may lose, repeat and reorder them. Its functions are called by one thread at a
 * time, but for `receive`, which another one may be in meanwhile. */
typedef struct ivy_transport {
  void *state;
  /* Where a string of at most IVY_STRING_MOST bytes is written before it is sent; never null. */
  uint8_t *(*room)(void *state);
  /* Sends so many bytes of the room that was given last to a peer, or loses them. */
  void (*send)(void *state, uint32_t to, size_t len);
  /* A string that came, which stays until the next call, and its length, which is not 0. Null where none came within so many
   * microseconds: with 0 it looks once, else it may sleep. */
  const uint8_t *(*receive)(void *state, size_t *len, long wait_us);
  void (*close)(void *state);
} ivy_transport;

typedef struct ivy_config {
  uint32_t nodes, pages, page_size, manager;
} ivy_config;

/* How the node answers others. Who waits in a call receives by itself in both forms. */
typedef enum ivy_progress {
  IVY_IN_CALLS = 0, /* while a call waits, between calls in a row now and then, and in ivy_progress_now */
  IVY_BY_THREAD = 1 /* also by a thread, while the program computes */
} ivy_progress;

typedef struct ivy_process ivy_process;

/* ---- Statuses of the runtime, beside those of ivy.h ---------------------------------------------------------------- */

enum {
  IVY_PEER_DEAD = 400,    /* a peer is dead: the run is over */
  IVY_NOT_HERE = 401,     /* others did not come in time */
  IVY_DIFFERS = 402,      /* a peer has another configuration or version */
  IVY_OTHER_RUN = 403,    /* the others are in a run with another process as this node */
  IVY_LOG_FULL = 404,     /* the log takes no more */
  IVY_NO_TRANSPORT = 405, /* the transport could not be opened */
  IVY_TIMEOUT = 406,      /* the time is over: nothing was done */
  IVY_NO_KEY = 407,       /* there is a key that cannot be used */
  IVY_LOG_TAKEN = 408     /* another node writes the log */
};

/* The name of a status of the runtime or of ivy.h; never null. */
const char *ivy_text(uint32_t status);

/* What a program ends with by custom after a status: 0 after none, 3 where a peer is dead or the run is another one, 4 where a
 * call was refused, 5 where the log takes no more, 2 else. */
int ivy_exit_status(uint32_t status);

/* ---- A process that is started by ivyrun ---------------------------------------------------------------------------------
 *
 * `ivyrun -n 4 PROGRAM` starts as many processes of a program, which say who they are by the environment: IVY_NODE of
 * IVY_NODES, over UDP from the port IVY_PORT on. A process that is started without them is alone, as in a debugger. Further
 * variables have defaults: IVY_PAGES (256) and IVY_PAGE_SIZE (1024), unless the program says so; IVY_MANAGER (steady,
 * dynamic or fixed), IVY_PROGRESS (thread, or calls), IVY_START_MS (10000), IVY_DEATH_MS (5000), IVY_LOG (none, or the folder of logs),
 * IVY_LOST, IVY_TWICE and IVY_LATE (0, as for ivy_udp), IVY_HOSTS and IVY_BIND (none; else over UDP between machines, as for
 * ivy_open_hosts: IVY_NODES is how many hosts there are, and each process is told its IVY_NODE), IVY_KEY or IVY_KEY_FILE (none), IVY_REPORT (1: ivy_finalize prints the
 * counts of the process on stderr), IVY_AHEAD (7: so many pages at most are fetched ahead of need; 0: none). */

/* Joins; null, with a line on stderr, where that fails. No word of the command line is read yet. */
ivy_process *ivy_init(int *argc, char ***argv);

/* The same with a status, and with the program's own pages, page size and manager, if it has any. */
uint32_t ivy_init_as(int *argc, char ***argv, const ivy_config *config, ivy_process **process);

/* Leaves, and gives what the program is to end with: 0 where nothing failed. */
int ivy_finalize(ivy_process *process);

/* Joins over any transport, by the other variables, as node `me` of 1 to 32: the log of IVY_LOG is closed by ivy_leave. */
uint32_t ivy_start_over(ivy_transport transport, uint32_t me, uint32_t nodes, const ivy_config *config, ivy_process **process);

/* ---- A process ------------------------------------------------------------------------------------------------------- */

/* Node `me` joins the others, within `start_ms`. Null, with a line on stderr, where that fails, and the transport is closed: a
 * peer is not there, or has another configuration or version, of which both are told; or the others are in a run already, with
 * another process as this node. A peer of which nothing is heard for `death_ms` is taken for dead; 0: never. Where progress is
 * made in calls, whoever computes for longer without one is not heard. */
ivy_process *ivy_join(const ivy_config *config, uint32_t me, ivy_transport transport, ivy_progress progress, long start_ms,
                      long death_ms);

/* The same, and the node's log of own code is written to `log`: what the node did, and each call with its reply, as
 * docs/man/ivynode.1 says. Logs of all nodes are joined, by which it is checked that one flat memory could have replied so.
 * What a string follows from is in the log, and flushed, before the string is sent; where a log takes no more the run is over.
 * The file is the caller's, who may close it after ivy_leave.
 *
 * Where it is a regular file it is locked until then, by flock, before anything is written: a log that another node writes, of
 * this process or of another one, stays as it is, and the status is IVY_LOG_TAKEN, with a line on stderr that names the log. A
 * file system without such locks has none between processes. Programs that this one starts do not get the file, and in a child
 * of fork what is written to it is dropped, so that no child keeps the lock; but where it is stdin, stdout or stderr they share
 * it, and keep the lock where this process is killed. fopen(path, "w") empties a log that is locked: ivy_open_log does not. */
ivy_process *ivy_join_logging(const ivy_config *config, uint32_t me, ivy_transport transport, ivy_progress progress,
                              long start_ms, long death_ms, FILE *log);

/* Opens the log at a path, and locks it before it is emptied: IVY_LOG_TAKEN where another node writes it, IVY_BAD_ARGUMENT where
 * it cannot be written, each with a line on stderr. */
uint32_t ivy_open_log(const char *path, FILE **log);

/* All that a process joins with. One that is `alone` has 2 as its number of nodes, and the other is never asked. */
typedef struct ivy_start {
  ivy_config config;
  uint32_t me;
  ivy_transport transport;
  ivy_progress progress;
  long start_ms, death_ms;
  FILE *log;
  int alone;
} ivy_start;

/* The same with a status: IVY_DONE, and *process is the process; after any other it is null, and the transport is closed. */
uint32_t ivy_join_as(const ivy_start *start, ivy_process **process);

/* Serves the others until all processes are here, however long that takes, and ends: the first status of a failure, or
 * IVY_DONE. Where a peer is dead nobody is waited for. No other thread is in a call then, or makes one later. */
uint32_t ivy_leave(ivy_process *process);

/* The number of this node, from 0 on, and how many there are. */
uint32_t ivy_me(const ivy_process *process);
uint32_t ivy_nodes(const ivy_process *process);

/* What a process has done: calls, which are hits, done at once, misses, which waited for a page or for the heap, and waits, which
 * are awaits of a count; strings of its node that it sent, and sent again since they were not acknowledged; and those that it
 * heard. A row counts as one call for each page at least. Where memory is mapped, or several threads make calls, an await is made
 * of looks, which are hits or misses. */
typedef struct ivy_counts { uint64_t calls, hits, misses, waits, sent, again, heard; } ivy_counts;
ivy_counts ivy_counts_of(ivy_process *process);

/* Several threads of the program make calls: none waits in the memory for what another one of them has to do. */
void ivy_use_threads(ivy_process *process);

/* ---- Failures --------------------------------------------------------------------------------------------------------
 *
 * No function ends the program, unless it asks for that. The first status of a failure is kept, and every later call answers
 * it: where a peer is dead, where the log takes no more, and where a call below was refused that gives a value and no status.
 * Such calls give 0 then. */

/* The first status of a failure, or IVY_DONE. */
uint32_t ivy_error(ivy_process *process);

/* The same, and where it is a refusal calls go on. */
uint32_t ivy_forget(ivy_process *process);

/* With 1 a failure ends the program, with ivy_exit_status, in the call of the program that finds it. */
void ivy_exit_on_error(ivy_process *process, int exits);

/* Called once for each peer that is dead, with its number, in the next call of the program, which makes none meanwhile. */
void ivy_on_death(ivy_process *process, void (*on_death)(void *context, uint32_t node), void *context);

/* ---- Calls ------------------------------------------------------------------------------------------------------------- */

/* A call, and its reply: a status below 256; or IVY_BAD_ARGUMENT where there is no such kind or width, IVY_NUMBERS_SPENT, or
 * the status of a failure. A refusal here is no failure. */
uint32_t ivy_call(ivy_process *process, uint32_t kind, uint32_t width, uint64_t place, uint64_t operand, uint64_t expected,
                  uint64_t *value);

/* Serves what has come in: the first status of a failure, or IVY_DONE. */
uint32_t ivy_progress_now(ivy_process *process);

/* Calls by kind, as ivy_call makes them, where a refusal is a mistake of the program, told on stderr. After a failure they give
 * 0 and change nothing. */
uint64_t ivy_load(ivy_process *process, uint32_t width, uint64_t address);
void ivy_store(ivy_process *process, uint32_t width, uint64_t address, uint64_t value);
uint64_t ivy_swap(ivy_process *process, uint32_t width, uint64_t address, uint64_t value);
uint64_t ivy_compare_and_swap(ivy_process *process, uint32_t width, uint64_t address, uint64_t expected, uint64_t value);
uint64_t ivy_fetch_add(ivy_process *process, uint32_t width, uint64_t address, uint64_t addend);
uint64_t ivy_count(ivy_process *process, uint64_t count);
void ivy_advance(ivy_process *process, uint64_t count);
uint64_t ivy_await(ivy_process *process, uint64_t count, uint64_t least);
uint64_t ivy_alloc(ivy_process *process, uint64_t bytes);
void ivy_free(ivy_process *process, uint64_t address);

/* Waits so many microseconds at most until the count is at least `least`; with 0 it looks once, with less it waits without an
 * end. IVY_DONE or IVY_TIMEOUT, with the count as it was seen last; else as ivy_call. Others of the program make calls
 * meanwhile. */
uint32_t ivy_await_for(ivy_process *process, uint64_t count, uint64_t least, long wait_us, uint64_t *value);

/* The same of a word: until it compares so with a number, both without a sign. */
typedef enum ivy_comparison { IVY_EQ, IVY_NE, IVY_LT, IVY_LE, IVY_GT, IVY_GE } ivy_comparison;
uint32_t ivy_wait_until(ivy_process *process, uint32_t width, uint64_t address, ivy_comparison comparison, uint64_t number,
                        long wait_us, uint64_t *value);

/* Reads or writes `len` bytes from an address on, which are whole words of 8: one after another as ivy_call would, those
 * of a page that is here, or that comes, at once. Others may write meanwhile wherever the page changes or has to be waited
 * for. In the buffer each word has its highest byte first. IVY_DONE; IVY_BAD_ARGUMENT where `len` is no multiple of 8, and
 * nothing was done; or the refusal of the first word that was refused, and those before it were carried out; or the status of
 * a failure. Where a log is written they go word by word, so that it has lines for each call.
 *
 * Where bytes lie on several pages, and one is not here, those behind it are fetched while it is waited for, IVY_AHEAD at most:
 * to be read by ivy_read, and by ivy_write to be written. A log has a line for each; where there is one they are fetched once the
 * word that waited has its reply. */
uint32_t ivy_read(ivy_process *process, uint64_t address, void *into, size_t len);
uint32_t ivy_write(ivy_process *process, uint64_t address, const void *from, size_t len);

/* A hint: so many bytes from an address on, of any alignment, will be read soon. The pages that they lie on come while the program
 * goes on, as many as are free: a node fetches seven at once, and IVY_AHEAD says how many are asked for here at most. It waits for
 * no page, nor for the call of another thread where ivy_use_threads was said. What becomes of it is seen only in how long later
 * calls take. A log has a line for each page. Nothing is asked for, where memory is mapped, for pages that this process never
 * asked for before. IVY_DONE; IVY_RESERVED or IVY_OUT_OF_RANGE where not all of the bytes are of the heap, and nothing was done; or the
 * status of a failure. */
uint32_t ivy_prefetch(ivy_process *process, uint64_t address, uint64_t bytes);

/* ---- Addresses ---------------------------------------------------------------------------------------------------------
 *
 * Layout: words on one page move together, and a page is at one node to be written, or at several to be read. So what different
 * nodes write lies on different pages, also where they never ask for the same word; what is read together lies on one. In
 * ivy_native.h is a block that begins with a page. */

/* Numbers that one node gives and all find, as the addresses of blocks. A process of ivy_init has so many, from 0 on, where the
 * heap has the bytes for them: they are its last ones, a block that no ivy_alloc gives. */
enum { IVY_ROOTS = 16 };

/* Gives a root a number, which is not 0. IVY_BAD_ARGUMENT where there is no such root, else the first status of a failure, or
 * IVY_DONE. */
uint32_t ivy_give_root(ivy_process *process, uint32_t root, uint64_t number);

/* Waits until a root was given: its number. */
uint64_t ivy_root(ivy_process *process, uint32_t root);

/* The same for so many microseconds at most: with 0 it looks once. IVY_DONE, IVY_TIMEOUT, IVY_BAD_ARGUMENT, or a failure. */
uint32_t ivy_root_for(ivy_process *process, uint32_t root, long wait_us, uint64_t *number);

/* The page that an address is on, and whether the word of 8 bytes about it can be read at once, since its page is here. */
uint64_t ivy_page_of(const ivy_process *process, uint64_t address);
int ivy_is_here(ivy_process *process, uint64_t address);

/* ---- Transports -------------------------------------------------------------------------------------------------------- */

/* UDP: process i listens at port + i of 127.0.0.1, and looks only at what comes from these ports; of each hundred strings that
 * it sends it loses, sends twice and holds back so many, for tests. Pages that are asked for together come two in one string, which
 * is longer than other transports have to take. Where it cannot be opened, with a line on stderr, all in it
 * is null, and ivy_join fails. */
ivy_transport ivy_udp(uint32_t me, uint32_t nodes, uint16_t port, unsigned lost, unsigned twice, unsigned late);
/* The same with a status: IVY_DONE or IVY_NO_TRANSPORT. */
uint32_t ivy_open_udp(ivy_transport *transport, uint32_t me, uint32_t nodes, uint32_t port, unsigned lost, unsigned twice,
                      unsigned late);
/* UDP between machines. `hosts` has a place for each node, parted by commas: an address of IPv4, or all of IPv6, or a name, and
 * after a colon its port, which else is port + i; an address of IPv6 with a port stands in brackets. A node listens at its own
 * place, or at the address `own` where that is not null, and looks only at what comes from the places of the list. A string may
 * be longer than what the way takes at once: it goes in pieces. Where a place is not on this machine's loopback a key is
 * wanted, and without one the status is IVY_NO_KEY. */
uint32_t ivy_open_hosts(ivy_transport *transport, uint32_t me, const char *hosts, const char *own, uint32_t port, unsigned lost,
                        unsigned twice, unsigned late);
/* So many places the list has. */
uint32_t ivy_hosts_in(const char *hosts);
/* MPI_COMM_WORLD, as ivy_mpi.h says, in the library libivy_mpi. */
ivy_transport ivy_mpi(void);

#ifdef __cplusplus
}
#endif
#endif
