/* Faults that are none of a page, and what the system does with pointers. One word says which:
 *   past       an access past the memory: ends by SIGSEGV, with a line that names address and instruction
 *   own        one in the runtime's pages: the same
 *   foreign    a SIGSEGV of the program's own, with a handler of its own: it gets it
 *   wild       one without a handler: ends by SIGSEGV
 *   fork       a child has none of the memory, and its parent goes on
 *   kernel     read(2) and write(2) with pointers into it: EFAULT under protection, right under userfaultfd
 *   lone       PAGES of alternating protection, more than the system has stretches
 *   log, calls a process that writes a log, or makes progress in calls: refused
 *   killed     counts until a peer is dead: ends by status 3, and its callback was called
 *   small, few pages of another size, or too few; before: something was allocated before; twice: it is mapped already. All refused
 *   image      prints how the memory is shown; any other word: nothing more than a mapping */
#include "map_test.h"
#include <errno.h>
#include <fcntl.h>
#include <setjmp.h>
#include <signal.h>
#include <sys/wait.h>

static volatile uint8_t *nowhere(void) {
  static uint8_t *volatile nothing;
  return nothing + 64;
}

static sigjmp_buf back;
static void on_own(int number) {
  (void)number;
  siglongjmp(back, 1);
}

static int foreign(void) {
  signal(SIGSEGV, on_own);
  begin_test_of(64, 0);
  volatile uint8_t *nothing = nowhere();
  volatile uint32_t *shared = (volatile uint32_t *)shared_pages(4096);
  if (!sigsetjmp(back, 1)) {
    *nothing = 1;
    return 1;
  }
  __atomic_fetch_add(shared, 1, __ATOMIC_SEQ_CST);
  ivy_map_barrier(ivy);
  must("a counter after it", *shared, nodes);
  return ivy_finalize(ivy);
}

static int forks(void) {
  begin_test_of(64, 0);
  volatile uint32_t *shared = (volatile uint32_t *)shared_pages(4096);
  int status = 0;
  if (me == 0) *shared = 5;
  ivy_map_barrier(ivy);
  pid_t child = fork();
  if (child == 0) _exit(*shared == 5 ? 0 : 1);
  waitpid(child, &status, 0);
  must("the signal of a child", (uint64_t)(WIFSIGNALED(status) ? WTERMSIG(status) : 0), SIGSEGV);
  must("its parent's word", *shared, 5);
  ivy_map_barrier(ivy);
  return ivy_finalize(ivy);
}

static int kernel(void) {
  begin_test_of(64, 0);
  int ends[2], is_protection = !strcmp(ivy_map_image(ivy), "protection");
  uint8_t *shared = (uint8_t *)shared_pages(3 * 4096), text[64];
  if (pipe(ends)) return 9;
  for (int i = 0; i < 64 && me == 0; i++) shared[i] = shared[4096 + i] = (uint8_t)(i + 1);
  ivy_map_barrier(ivy);
  if (me == 1) {
    ssize_t put = write(ends[1], shared, 64);
    if (is_protection) must("write(2) of a page that is away", put < 0 && errno == EFAULT, 1);
    else must("write(2) of a page that is away", put == 64 && read(ends[0], text, 64) == 64 && text[63] == 64, 1);
    put = write(ends[1], text, 64);
    ssize_t got = put == 64 ? read(ends[0], shared + 4096 + 64, 64) : -1;
    if (is_protection) must("read(2) into one", got < 0 && errno == EFAULT, 1);
    else must("read(2) into one", got == 64 && shared[4096 + 63] == 64, 1);
    must("a byte of it by a load", shared[4096 + 1], 2);
  }
  ivy_map_barrier(ivy);
  return ivy_finalize(ivy);
}

/* So many mappings the system allows. */
static unsigned long most_mappings(void) {
  unsigned long most = 0;
  FILE *file = fopen("/proc/sys/vm/max_map_count", "r");
  if (file && fscanf(file, "%lu", &most) != 1) most = 0;
  if (file) fclose(file);
  return most;
}

/* Each second page may be written, and the others not even be read: under protection two mappings, and where there are too many all
 * pages are hidden, and come back by faults. */
static int lone(void) {
  uint32_t pages = 65536, used = pages - 16;
  uint64_t sum = 0;
  begin_test_of(pages, 0);
  volatile uint8_t *base = (volatile uint8_t *)ivy_map_malloc_pages(ivy, (size_t)used * 4096);
  must("a block of nearly all", base != NULL, 1);
  for (uint32_t i = 0; i < used; i += 2) base[(size_t)i * 4096] = (uint8_t)(i / 2);
  uint64_t faults = ivy_map_counts_of(ivy).faults;
  for (uint32_t i = 0; i < used; i += 2) sum += base[(size_t)i * 4096] == (uint8_t)(i / 2);
  must("pages that are right", sum, used / 2);
  tell_counts("lone", sum);
  faults = ivy_map_counts_of(ivy).faults - faults;
  if (!strcmp(ivy_map_image(ivy), "protection") && most_mappings() <= used) must("pages that came back", faults > used / 4, 1);
  return ivy_finalize(ivy);
}

static void on_death(void *context, uint32_t node) {
  (void)context;
  printf("told of %u\n", node);
  fflush(stdout);
}

static int killed(void) {
  begin_test_of(64, 0);
  ivy_exit_on_error(ivy, 0);
  ivy_on_death(ivy, on_death, NULL);
  volatile uint64_t *shared = (volatile uint64_t *)shared_pages(2 * 4096);
  printf("here\n");
  fflush(stdout);
  while (__atomic_fetch_add((uint64_t *)(uintptr_t)shared, 1, __ATOMIC_SEQ_CST) < UINT64_MAX) continue;
  return 9;
}

/* A mapping that is not had, by any process; calls go on. */
static int refused(uint32_t pages, uint32_t page_size, int allocates, uint32_t should) {
  ivy_config config;
  memset(&config, 0, sizeof config);
  config.pages = pages;
  config.page_size = page_size;
  config.manager = IVY_DYNAMIC;
  if (ivy_init_as(NULL, NULL, &config, &ivy) != IVY_DONE) return 2;
  me = ivy_me(ivy);
  if (allocates && me == 0) ivy_alloc(ivy, 8);
  if (allocates) ivy_advance(ivy, 1);
  if (allocates) ivy_await(ivy, 1, ivy_nodes(ivy));
  must("a mapping", ivy_map(ivy), should);
  must("no base", ivy_map_base(ivy) == NULL, 1);
  ivy_fetch_add(ivy, 8, page_size, 1);
  return ivy_finalize(ivy);
}

/* It is mapped once. */
static int twice(void) {
  begin_test_of(64, 0);
  must("a second mapping", ivy_map(ivy), IVY_BAD_ARGUMENT);
  volatile uint64_t *shared = (volatile uint64_t *)shared_pages(4096);
  __atomic_fetch_add((uint64_t *)(uintptr_t)shared, 1, __ATOMIC_SEQ_CST);
  ivy_map_barrier(ivy);
  must("a counter", *shared, nodes);
  return ivy_finalize(ivy);
}

int main(int argc, char **argv) {
  const char *what = argc > 1 ? argv[1] : "";
  if (!strcmp(what, "foreign")) return foreign();
  if (!strcmp(what, "fork")) return forks();
  if (!strcmp(what, "kernel")) return kernel();
  if (!strcmp(what, "lone")) return lone();
  if (!strcmp(what, "killed")) return killed();
  if (!strcmp(what, "log") || !strcmp(what, "calls")) return refused(64, 4096, 0, IVY_BAD_ARGUMENT);
  if (!strcmp(what, "small")) return refused(64, 1024, 0, IVY_BAD_CONFIG);
  if (!strcmp(what, "few")) return refused(15, 4096, 0, IVY_BAD_CONFIG);
  if (!strcmp(what, "before")) return refused(64, 4096, 1, IVY_NO_ROOM);
  if (!strcmp(what, "twice")) return twice();
  begin_test_of(64, 0);
  if (!strcmp(what, "image")) puts(ivy_map_image(ivy));
  volatile uint8_t *base = (volatile uint8_t *)ivy_map_base(ivy);
  ivy_map_barrier(ivy);
  if (me == 0 && !strcmp(what, "past")) base[64 * 4096 + 5] = 1;
  if (me == 0 && !strcmp(what, "own")) base[4096] = 1;
  if (me == 0 && !strcmp(what, "wild")) *nowhere() = 1;
  ivy_map_barrier(ivy);
  return ivy_finalize(ivy);
}
