/* The lock of a process, where it is waited for, and sleeps until something changes: by futexes. Not proved. */
#define _DEFAULT_SOURCE
#include "ivy_inside.h"
#include <linux/futex.h>
#include <limits.h>
#include <sys/syscall.h>
#include <time.h>
#include <unistd.h>

static void wait_at(void *at, uint32_t value, const struct timespec *time) {
  syscall(SYS_futex, at, FUTEX_WAIT_PRIVATE, value, time, NULL, 0);
}

static void wake_at(void *at, int most) { syscall(SYS_futex, at, FUTEX_WAKE_PRIVATE, most, NULL, NULL, 0); }

void ivy_in_lock_slowly(ivy_process *p) {
  while (__atomic_exchange_n(&p->lock, WAITED_FOR, __ATOMIC_ACQUIRE) != FREE) wait_at(&p->lock, WAITED_FOR, NULL);
}

void ivy_in_unlock_slowly(ivy_process *p) { wake_at(&p->lock, 1); }

void ivy_in_wake_at(uint32_t *times) {
  __atomic_add_fetch(times, 1, __ATOMIC_RELAXED);
  wake_at(times, INT_MAX);
}

/* Who wakes has the lock, so none is missed between the look and the sleep. */
void ivy_in_sleep_at(ivy_process *p, uint32_t *times, long most_us) {
  const struct timespec time = { most_us / 1000000, most_us % 1000000 * 1000 };
  uint32_t before = __atomic_load_n(times, __ATOMIC_RELAXED);
  ivy_in_unlock(p);
  wait_at(times, before, most_us ? &time : NULL);
  ivy_in_lock(p);
}
