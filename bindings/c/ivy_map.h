/* ivy_map.h: the memory of a run by plain pointers, at one address, the same in all processes.
 *
 * After ivy_init each process that wants pointers calls ivy_map, before anything is allocated. From then on loads, stores and
 * atomic operations of the machine are those of one memory, as calls are, in one order that keeps each process's own. An access
 * to what is here takes no time; else it waits for the page of 4,096 bytes that it lies in. Words that different processes write
 * lie on different pages, if they can, as of ivy_map_malloc_pages.
 *
 * Pointers may stand in the memory, since its address is the same everywhere; function pointers and what has virtual functions
 * may not, unless the program is the same at the same address. Calls of ivy_runtime.h and ivy_native.h go on beside pointers, and
 * see the same bytes: a word of a call has its highest byte first.
 *
 * WHAT CANNOT WORK, since a page may go while somebody who knows no fault has its address: io_uring with fixed buffers, O_DIRECT,
 * vmsplice, buffers of MPI calls. A handler of a signal does not touch the memory. Futexes, pthread mutexes and condition variables
 * wake nobody in another process: take the locks below. read(2) and write(2) with such a pointer answer EFAULT under protection
 * where the page is not here; they work under userfaultfd. A child of fork has none of the memory. Where several threads use
 * pointers, ivy_use_threads says so, before.
 *
 * IVY_IMAGE=userfaultfd or protection says how pages are shown: the first one where it is allowed. An address where nothing is
 * ends the program, with a line that names it; where a peer is dead an access ends it by _exit(3), since it has no status. */
#ifndef IVY_MAP_H
#define IVY_MAP_H
#include "ivy_runtime.h"
#ifdef __cplusplus
extern "C" {
#endif

/* Maps the memory. IVY_DONE. IVY_BAD_CONFIG: pages have not 4,096 bytes, or they are fewer than 16. IVY_BAD_ARGUMENT: the process
 * writes a log, makes progress in calls alone, or another memory of this program is mapped. IVY_NO_ROOM: something was allocated
 * before. IVY_MEMORY: the address is not free. A line on stderr says which. Or the status of a failure. */
uint32_t ivy_map(ivy_process *process);

/* Where address 0 of the memory is: the pointer to what calls know as an address. Null where it is not mapped. */
void *ivy_map_base(const ivy_process *process);

/* How it is shown: "protection" or "userfaultfd". */
const char *ivy_map_image(const ivy_process *process);

/* A block at a multiple of 16, or of whole pages that nobody shares, which any process may free; null where there is no room, or
 * after a failure. Its bytes are 0 where no block was before. */
void *ivy_map_malloc(ivy_process *process, size_t bytes);
void *ivy_map_malloc_pages(ivy_process *process, size_t bytes);
void ivy_map_free(ivy_process *process, void *block);

/* A pointer that all processes find, null at first. */
void **ivy_map_root(ivy_process *process);

/* Nobody goes on before all processes are here: each calls it once. */
void ivy_map_barrier(ivy_process *process);

/* One of IVY_MAP_LOCKS locks, of which one process at a time has each, in the order in which they asked. */
enum { IVY_MAP_LOCKS = 2048 };
void ivy_map_lock_acquire(ivy_process *process, uint32_t lock);
void ivy_map_lock_release(ivy_process *process, uint32_t lock);

/* What was done so far: faults; pages that were asked for, of which so many were gone when they came; pages that were taken; so
 * often the token was had; pages that were kept before a call. */
typedef struct ivy_map_counts { uint64_t faults, asked, gone, taken, tokens, kept, ahead; } ivy_map_counts;
ivy_map_counts ivy_map_counts_of(ivy_process *process);

#ifdef __cplusplus
}
#endif
#endif
