/* Who writes a log: it is locked by flock, until its node leaves or its process ends. Not proved. */
#define _DEFAULT_SOURCE
#include "ivy_inside.h"
#include <errno.h>
#include <fcntl.h>
#include <sys/file.h>
#include <sys/stat.h>
#include <unistd.h>

enum { PATH = 4096, STANDARD = 3 };

static pthread_mutex_t taking = PTHREAD_MUTEX_INITIALIZER;
static ivy_process *logging; /* those of this program whose log is a regular file */

/* ---- Children ------------------------------------------------------------------------------------------------------------ */

static void before_fork(void) { pthread_mutex_lock(&taking); }
static void after_fork(void) { pthread_mutex_unlock(&taking); }

/* The program's own streams are its children's too; no other log is. */
static int is_for_children(int file) { return file < STANDARD; }

/* A child of fork is no node: what it has in a buffer, as a copy, or writes is dropped, and it does not share the lock. */
static void begin_child(void) {
  int nowhere = open("/dev/null", O_WRONLY | O_CLOEXEC);
  for (; logging; logging = logging->next_logging) {
    int file = fileno(logging->log);
    if (nowhere >= 0 && !is_for_children(file) && dup2(nowhere, file) == file) fcntl(file, F_SETFD, FD_CLOEXEC);
  }
  if (nowhere >= 0) close(nowhere);
  after_fork();
}

static void heed_forks(void) { pthread_atfork(before_fork, after_fork, begin_child); }

/* ---- The lock ------------------------------------------------------------------------------------------------------------- */

/* Whether the program has a node that writes this file, which flock does not refuse by the same descriptor. */
static int is_ours(const struct stat *its) {
  struct stat other;
  for (const ivy_process *p = logging; p; p = p->next_logging)
    if (!fstat(fileno(p->log), &other) && other.st_dev == its->st_dev && other.st_ino == its->st_ino) return 1;
  return 0;
}

/* Whether a regular file has been locked, or lies where nothing can be. */
static int is_free(int file, const struct stat *its) {
  return !is_ours(its) && (!flock(file, LOCK_EX | LOCK_NB) || errno != EWOULDBLOCK);
}

static uint32_t tell_taken(const char *path) {
  fprintf(stderr, "ivy: %s: another node writes this log\n", path);
  return IVY_LOG_TAKEN;
}

uint32_t ivy_open_log(const char *path, FILE **log) {
  struct stat its;
  int file = open(path, O_WRONLY | O_CREAT | O_CLOEXEC, 0666);
  int is_file = file >= 0 && !fstat(file, &its) && S_ISREG(its.st_mode);
  *log = NULL;
  pthread_mutex_lock(&taking);
  int is_taken = is_file && !is_free(file, &its);
  pthread_mutex_unlock(&taking);
  if (is_taken) {
    close(file);
    return tell_taken(path);
  }
  if (file >= 0 && (!is_file || !ftruncate(file, 0))) *log = fdopen(file, "w");
  if (*log) return IVY_DONE;
  perror(path);
  if (file >= 0) close(file);
  return IVY_BAD_ARGUMENT;
}

/* The log's name, as the system has it. */
static uint32_t refuse(int file) {
  char link[64], path[PATH];
  snprintf(link, sizeof link, "/proc/self/fd/%d", file);
  ssize_t length = readlink(link, path, sizeof path - 1);
  path[length > 0 ? length : 0] = 0;
  return tell_taken(length > 0 ? path : "its log");
}

uint32_t ivy_in_take_log(ivy_process *p) {
  static pthread_once_t once = PTHREAD_ONCE_INIT;
  struct stat its;
  int file = p->log ? fileno(p->log) : -1;
  if (file < 0 || fstat(file, &its) || !S_ISREG(its.st_mode)) return IVY_DONE;
  pthread_once(&once, heed_forks);
  pthread_mutex_lock(&taking);
  p->has_file = is_free(file, &its);
  if (p->has_file) {
    p->next_logging = logging;
    logging = p;
  }
  pthread_mutex_unlock(&taking);
  if (!p->has_file) return refuse(file);
  if (!is_for_children(file)) fcntl(file, F_SETFD, fcntl(file, F_GETFD) | FD_CLOEXEC);
  return IVY_DONE;
}

void ivy_in_give_log(ivy_process *p) {
  if (!p->has_file) return;
  fflush(p->log);
  pthread_mutex_lock(&taking);
  ivy_process **at = &logging;
  while (*at && *at != p) at = &(*at)->next_logging;
  if (*at) flock(fileno(p->log), LOCK_UN);
  if (*at) *at = p->next_logging;
  pthread_mutex_unlock(&taking);
}
