/* Images of mapped memory: by protection, with a signal for a fault, and by userfaultfd. Not proved. */
#include "ivy_map_inside.h"
#include <errno.h>
#include <fcntl.h>
#include <linux/userfaultfd.h>
#include <signal.h>
#include <stdlib.h>
#include <string.h>
#include <sys/ioctl.h>
#include <sys/mman.h>
#include <sys/syscall.h>
#include <ucontext.h>
#include <unistd.h>

/* The address in all processes, and how much of it nobody else has, whatever the number of pages. */
#define MAP_BASE ((uintptr_t)0x200000000000u)
enum { MOST_PAGES = 65536 + 1 };

static size_t size_of(const ivy_mapping *map) { return (size_t)map->count * MAP_PAGE; }
static uint32_t page_at(uintptr_t at) { return (uint32_t)((at - MAP_BASE) / MAP_PAGE); }

static int reserve(void) {
  return mmap((void *)MAP_BASE, (size_t)MOST_PAGES * MAP_PAGE, PROT_NONE,
              MAP_PRIVATE | MAP_ANONYMOUS | MAP_NORESERVE | MAP_FIXED_NOREPLACE, -1, 0) == (void *)MAP_BASE;
}

/* ---- By protection: a file in memory, seen twice; the program's side is protected ------------------------------------------ */

static const int allowed[] = { PROT_NONE, PROT_READ, PROT_READ | PROT_WRITE };

static int protect(ivy_mapping *map, uint32_t page, uint32_t many, uint32_t to) {
  return !mprotect(ivy_in_map_at(map->base, page), (size_t)many * MAP_PAGE, allowed[to]);
}

/* Stretches of one protection are limited (vm.max_map_count). Where they are too many all pages are hidden, which makes one
 * stretch, and come back by faults. */
static void hide(ivy_mapping *map) {
  if (mprotect(map->base, size_of(map), PROT_NONE)) abort();
  for (uint32_t i = 0; i < map->count; i++) map->pages[i].shown = IVY_UNLENT;
}

static void allow(ivy_mapping *map, uint32_t page, uint32_t many, uint32_t to) {
  if (protect(map, page, many, to)) return;
  hide(map);
  if (!protect(map, page, many, to)) abort();
}

static void protection_show(ivy_mapping *map, uint32_t page, uint32_t to) { allow(map, page, 1, to); }
static void protection_raise(ivy_mapping *map, uint32_t page, uint32_t many) { allow(map, page, many, IVY_TO_WRITE); }

static const uint8_t *protection_lower(ivy_mapping *map, uint32_t page, uint32_t many, uint32_t on) {
  if (!protect(map, page, many, on)) hide(map);
  return ivy_in_map_at(map->bytes, page);
}

static int protection_open(ivy_mapping *map) {
  void *bytes = MAP_FAILED, *base = MAP_FAILED;
  int file = memfd_create("ivy", MFD_CLOEXEC);
  if (file >= 0 && !ftruncate(file, (off_t)size_of(map))) {
    bytes = mmap(NULL, size_of(map), PROT_READ | PROT_WRITE, MAP_SHARED | MAP_NORESERVE, file, 0);
    base = mmap((void *)MAP_BASE, size_of(map), PROT_NONE, MAP_SHARED | MAP_NORESERVE | MAP_FIXED, file, 0);
  }
  if (file >= 0) close(file);
  if (bytes == MAP_FAILED || base == MAP_FAILED) return 0;
  map->base = (uint8_t *)base;
  map->bytes = (uint8_t *)bytes;
  madvise(bytes, size_of(map), MADV_DONTFORK);
  return 1;
}

static const ivy_image by_protection = { "protection", protection_open, protection_show, protection_raise, protection_lower, NULL };

/* ---- By userfaultfd: pages are put there, and taken away -------------------------------------------------------------------- */

/* A page of the program's own is being moved: again. */
static void order(ivy_mapping *map, unsigned long what, void *argument) {
  while (ioctl(map->faults, what, argument))
    if (errno != EAGAIN && errno != EINTR) abort();
}

/* Who waits for a page is woken by `userfaultfd_wait` alone, once all that the fault brings is there. */
static void write_protect(ivy_mapping *map, uint32_t page, uint32_t many, int is_on) {
  struct uffdio_writeprotect it = { { (uintptr_t)ivy_in_map_at(map->base, page), (uint64_t)many * MAP_PAGE },
                                    is_on ? UFFDIO_WRITEPROTECT_MODE_WP : UFFDIO_WRITEPROTECT_MODE_DONTWAKE };
  order(map, UFFDIO_WRITEPROTECT, &it);
}

static void userfaultfd_show(ivy_mapping *map, uint32_t page, uint32_t to) {
  uint64_t mode = UFFDIO_COPY_MODE_DONTWAKE | (to == IVY_TO_READ ? UFFDIO_COPY_MODE_WP : 0);
  struct uffdio_copy it = { (uintptr_t)ivy_in_map_at(map->base, page), (uintptr_t)map->room, MAP_PAGE, mode, 0 };
  order(map, UFFDIO_COPY, &it);
}

static void userfaultfd_raise(ivy_mapping *map, uint32_t page, uint32_t many) { write_protect(map, page, many, 0); }

static const uint8_t *userfaultfd_lower(ivy_mapping *map, uint32_t page, uint32_t many, uint32_t on) {
  uint8_t *at = ivy_in_map_at(map->base, page);
  int is_kept = page == map->late; /* its bytes are not needed any more */
  if (map->pages[page].shown == IVY_TO_WRITE && (on || !is_kept)) write_protect(map, page, many, 1);
  if (on == IVY_TO_READ) return at;
  if (!is_kept) memcpy(map->room, at, MAP_PAGE);
  if (madvise(at, MAP_PAGE, MADV_DONTNEED)) abort();
  return map->room;
}

/* Faults of all threads of the program, and of the kernel where it has a pointer of theirs, until the thread is cancelled. */
static void *userfaultfd_wait(void *process) {
  ivy_process *p = (ivy_process *)process;
  ivy_mapping *map = p->map;
  struct uffd_msg said;
  ivy_in_take_short_turns();
  for (;;) {
    pthread_setcancelstate(PTHREAD_CANCEL_ENABLE, NULL);
    ssize_t got = read(map->faults, &said, sizeof said);
    pthread_setcancelstate(PTHREAD_CANCEL_DISABLE, NULL);
    if (got != sizeof said || said.event != UFFD_EVENT_PAGEFAULT) continue;
    uint64_t how = said.arg.pagefault.flags, at = said.arg.pagefault.address & ~(uint64_t)(MAP_PAGE - 1);
    struct uffdio_range range = { at, MAP_PAGE };
    ivy_in_map_fault(p, page_at(at),
                     how & (UFFD_PAGEFAULT_FLAG_WRITE | UFFD_PAGEFAULT_FLAG_WP) ? IVY_TO_WRITE : IVY_TO_READ,
                     said.arg.pagefault.feat.ptid);
    ioctl(map->faults, UFFDIO_WAKE, &range);
  }
  return NULL;
}

static int userfaultfd_open(ivy_mapping *map) {
  uint8_t *from = ivy_in_map_at((uint8_t *)MAP_BASE, ROOT_PAGE);
  size_t len = size_of(map) - (size_t)ROOT_PAGE * MAP_PAGE;
  struct uffdio_api api = { UFFD_API, UFFD_FEATURE_PAGEFAULT_FLAG_WP | UFFD_FEATURE_THREAD_ID, 0 };
  struct uffdio_register all = { { (uintptr_t)from, len }, UFFDIO_REGISTER_MODE_MISSING | UFFDIO_REGISTER_MODE_WP, 0 };
  map->room = (uint8_t *)malloc(MAP_PAGE);
  map->base = map->bytes = (uint8_t *)MAP_BASE;
  map->faults = (int)syscall(SYS_userfaultfd, O_CLOEXEC);
  if (map->room && map->faults >= 0 && !mprotect(from, len, PROT_READ | PROT_WRITE) && !madvise(from, len, MADV_NOHUGEPAGE) &&
      !ioctl(map->faults, UFFDIO_API, &api) && !ioctl(map->faults, UFFDIO_REGISTER, &all)) return 1;
  mprotect(from, len, PROT_NONE);
  close(map->faults);
  map->faults = -1;
  free(map->room);
  map->room = NULL;
  return 0;
}

static const ivy_image by_userfaultfd = { "userfaultfd", userfaultfd_open, userfaultfd_show, userfaultfd_raise, userfaultfd_lower, userfaultfd_wait };

/* ---- Signals ------------------------------------------------------------------------------------------------------------- */

static ivy_process *mapped;
static struct sigaction before;

/* A fault that is none of a page: whoever had them before, or the system, which ends the program at the instruction. */
static void hand_on(int number, siginfo_t *info, void *context) {
  if (before.sa_handler != SIG_DFL && before.sa_handler != SIG_IGN) {
    if (before.sa_flags & SA_SIGINFO) before.sa_sigaction(number, info, context);
    else before.sa_handler(number);
    return;
  }
  signal(SIGSEGV, SIG_DFL);
  if (info->si_code <= 0) raise(SIGSEGV); /* somebody sent it */
}

/* A register of the instruction that faulted. The library is for x86-64. */
static uintptr_t register_of(const void *context, int which) { return (uintptr_t)((const ucontext_t *)context)->uc_mcontext.gregs[which]; }

/* Nothing is at an address of the memory: it says so, and the others learn that this process ends. */
static void tell_nothing(ivy_process *p, uintptr_t at, uintptr_t instruction) {
  int is_child = getpid() != p->map->child_of;
  const char *why = is_child                      ? "a child of fork has no mapped memory"
                    : page_at(at) >= p->map->count ? "the address is past the memory"
                                                   : "the address is in pages of the runtime";
  dprintf(2, "ivy: node %u: an access to 0x%llx, %llu of the memory, at instruction 0x%llx: %s\n", p->me, (unsigned long long)at,
          (unsigned long long)(at - MAP_BASE), (unsigned long long)instruction, why);
  if (!is_child && ivy_in_try_lock(p)) {
    for (int i = 0; i < REPEATS; i++) ivy_in_say(p, DEAD, 1u << p->me);
    ivy_in_unlock(p);
  }
  signal(SIGSEGV, SIG_DFL);
}

static void on_fault(int number, siginfo_t *info, void *context) {
  int kept = errno;
  ivy_process *p = mapped;
  uintptr_t at = (uintptr_t)info->si_addr;
  uint32_t to = register_of(context, REG_ERR) & 2 ? IVY_TO_WRITE : IVY_TO_READ;
  if (!p || info->si_code <= 0 || at < MAP_BASE || at >= MAP_BASE + (uintptr_t)MOST_PAGES * MAP_PAGE) hand_on(number, info, context);
  else if (getpid() != p->map->child_of || p->map->image->wait || !ivy_in_map_has(p->map, page_at(at)))
    tell_nothing(p, at, register_of(context, REG_RIP));
  else ivy_in_map_fault(p, page_at(at), to, (uint32_t)gettid());
  errno = kept;
}

/* No handler of the program runs while a fault is served. What ends the program ends it then too. */
static void block_handlers(sigset_t *signals) {
  struct sigaction its;
  sigfillset(signals);
  for (int i = 1; i < SIGRTMIN; i++)
    if (!sigaction(i, NULL, &its) && !(its.sa_flags & SA_SIGINFO) && its.sa_handler == SIG_DFL) sigdelset(signals, i);
}

int ivy_in_map_catch(ivy_process *p) {
  static const ivy_image *const images[] = { &by_userfaultfd, &by_protection };
  struct sigaction own;
  memset(&own, 0, sizeof own);
  own.sa_sigaction = on_fault;
  own.sa_flags = SA_SIGINFO | SA_RESTART;
  block_handlers(&own.sa_mask);
  ivy_mapping *map = p->map;
  map->faults = -1;
  map->child_of = (int)getpid();
  if (mapped || !reserve()) return 0;
  const char *said = getenv("IVY_IMAGE");
  int is_there = 0;
  for (uint32_t i = 0; i < 2 && !is_there; i++) {
    map->image = images[i];
    is_there = (!said || !*said || !strcmp(said, images[i]->name)) && images[i]->open(map);
  }
  madvise((void *)MAP_BASE, (size_t)MOST_PAGES * MAP_PAGE, MADV_DONTFORK);
  mapped = p;
  if (is_there && !sigaction(SIGSEGV, &own, &before)) return 1;
  ivy_in_map_close(map);
  return 0;
}

void ivy_in_map_close(ivy_mapping *map) {
  if (mapped && mapped->map == map) {
    sigaction(SIGSEGV, &before, NULL);
    mapped = NULL;
    munmap((void *)MAP_BASE, (size_t)MOST_PAGES * MAP_PAGE);
    if (map->bytes && map->bytes != map->base) munmap(map->bytes, size_of(map));
  }
  if (map->faults >= 0) close(map->faults);
  free(map->room);
}
