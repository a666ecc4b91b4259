/* Two processes over UDP, from a port on, with keys of their own: both have the same, or they do not meet. With NO_LIBRARY, and
 * dlopen wrapped, there is no libsodium: who has a key does not join. */
#define _POSIX_C_SOURCE 200809L
#include "ivy_runtime.h"
#include <stdlib.h>
#include <string.h>
#include <sys/wait.h>
#include <unistd.h>

enum { PAGE = 256, EACH = 300, SHORT_MS = 300, START_MS = 5000 };

/* The status with which a process leaves, or does not join. */
static uint32_t run(uint32_t me, uint16_t port, const char *key, long start_ms) {
  const ivy_config config = { 2, 4, PAGE, IVY_DYNAMIC };
  if (key) setenv("IVY_KEY", key, 1);
  else unsetenv("IVY_KEY");
  const ivy_start start = { config, me, ivy_udp(me, 2, port, 10, 10, 20), IVY_BY_THREAD, start_ms, 3000, NULL, 0 };
  ivy_process *ivy;
  uint32_t status = ivy_join_as(&start, &ivy);
  if (status != IVY_DONE) return status;
  for (int i = 0; i < EACH; i++) ivy_fetch_add(ivy, 8, PAGE, 1);
  ivy_advance(ivy, 0);
  ivy_await(ivy, 0, 2);
  if (ivy_load(ivy, 8, PAGE) != 2 * EACH) return IVY_TIMEOUT;
  return ivy_leave(ivy);
}

static int ends_with(uint32_t should, uint16_t port, const char *one, const char *two, long start_ms) {
  int its = 0;
  pid_t other = fork();
  if (other == 0) _exit(run(1, port, two, start_ms) == should ? 0 : 1);
  uint32_t status = run(0, port, one, start_ms);
  waitpid(other, &its, 0);
  if (status != should || its) printf("%s, %s: %u, %d\n", one ? one : "no key", two ? two : "no key", status, its);
  return status == should && !its;
}

#ifdef NO_LIBRARY
void *__wrap_dlopen(const char *name, int flags);
void *__wrap_dlopen(const char *name, int flags) {
  (void)name, (void)flags;
  return NULL;
}
#endif

int main(int argc, char **argv) {
  static const char a[] = "a key of sixteen bytes and more", b[] = "a key of sixteen bytes and less";
  uint16_t port = (uint16_t)(argc > 1 ? atoi(argv[1]) : 9000);
#ifdef NO_LIBRARY
  int is_right = ends_with(IVY_NO_KEY, port, a, b, SHORT_MS);
#else
  int is_right = ends_with(IVY_DONE, port, a, a, START_MS) && ends_with(IVY_NOT_HERE, port, a, b, SHORT_MS)
                 && ends_with(IVY_NOT_HERE, port, a, NULL, SHORT_MS) && ends_with(IVY_NO_KEY, port, "short", "short", SHORT_MS);
#endif
  if (is_right) puts("done");
  return !is_right;
}
