/* ivy_tmk.h: mapped memory by the names that programs for TreadMarks use. One file of a program includes it, and `ivyrun` starts it.
 *
 * The memory is sequentially consistent, which is stronger than such programs ask for. IVY_PAGES says how many pages of 4,096
 * bytes there are, else 4,096. Numbers of barriers are not looked at: all processes wait at one. Tmk_distribute may be called
 * by one process, as usual, or by all: the bytes of a global variable are at the others after the next barrier, also where the
 * program is at another address there. */
#ifndef IVY_TMK_H
#define IVY_TMK_H
#include "ivy_map.h"
#include <stdlib.h>
#include <string.h>
#ifdef __cplusplus
extern "C" {
#endif

extern const char __executable_start; /* of the linker */

static ivy_process *tmk_process;
static unsigned Tmk_proc_id, Tmk_nprocs;
static size_t tmk_read; /* of what was distributed */

/* What is distributed follows the root's pointer: how many bytes it has, and of each variable its place, size and bytes. */
enum { TMK_MOST = 4096 - 2 * 8 };
typedef struct { void *root; uint64_t used; uint8_t bytes[TMK_MOST]; } tmk_distributed;
typedef struct { uint64_t place, size; } tmk_variable;

static inline void Tmk_startup(int argc, char **argv) {
  ivy_config config;
  memset(&config, 0, sizeof config);
  config.pages = config.page_size = 4096;
  config.manager = IVY_STEADY;
  if (ivy_init_as(&argc, &argv, &config, &tmk_process) != IVY_DONE || ivy_map(tmk_process) != IVY_DONE) exit(2);
  ivy_exit_on_error(tmk_process, 1);
  Tmk_proc_id = ivy_me(tmk_process);
  Tmk_nprocs = ivy_nodes(tmk_process);
}

static inline char *Tmk_malloc(unsigned bytes) { return (char *)ivy_map_malloc(tmk_process, bytes); }
static inline void Tmk_free(char *block) { ivy_map_free(tmk_process, block); }
static inline void Tmk_lock_acquire(unsigned lock) { ivy_map_lock_acquire(tmk_process, lock); }
static inline void Tmk_lock_release(unsigned lock) { ivy_map_lock_release(tmk_process, lock); }

static inline void Tmk_distribute(void *variable, unsigned size) {
  tmk_distributed *all = (tmk_distributed *)(void *)ivy_map_root(tmk_process);
  const tmk_variable it = { (uint64_t)((const char *)variable - &__executable_start), size };
  if (Tmk_proc_id) return;
  if (size > TMK_MOST || all->used + sizeof it + size > TMK_MOST) {
    fprintf(stderr, "ivy: no more than %d bytes can be distributed\n", (int)TMK_MOST);
    exit(4);
  }
  memcpy(all->bytes + all->used, &it, sizeof it);
  memcpy(all->bytes + all->used + sizeof it, variable, size);
  all->used += sizeof it + size;
}

static inline void Tmk_barrier(unsigned barrier) {
  (void)barrier;
  ivy_map_barrier(tmk_process);
  tmk_distributed *all = (tmk_distributed *)(void *)ivy_map_root(tmk_process);
  for (tmk_variable it; tmk_read < all->used; tmk_read += sizeof it + it.size) {
    memcpy(&it, all->bytes + tmk_read, sizeof it);
    if (Tmk_proc_id) memcpy((char *)(uintptr_t)&__executable_start + it.place, all->bytes + tmk_read + sizeof it, (size_t)it.size);
  }
}

static inline void Tmk_exit(int status) {
  int own = ivy_finalize(tmk_process);
  exit(status ? status : own);
}

#ifdef __cplusplus
}
#endif
#endif
