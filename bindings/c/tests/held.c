/* Logs that a node writes are not another one's: of this process, of another one, by IVY_LOG and by a file of the program. A
 * child of fork keeps none, nor adds to it. Called with a folder; `FOLDER again` is another process, which has the status of a
 * start there. With NO_LOCKS, and flock wrapped, the file system has none: only nodes of one process are refused. */
#define _POSIX_C_SOURCE 200809L
#include "channel.h"
#include <errno.h>
#include <fcntl.h>
#include <signal.h>
#include <sys/stat.h>
#include <sys/wait.h>
#include <unistd.h>

enum { PAGE = 1024, MOST = 1 << 16 };

static char path[4096], *program, *folder;

#ifdef NO_LOCKS
int __wrap_flock(int file, int how);
int __wrap_flock(int file, int how) {
  (void)file, (void)how;
  errno = ENOLCK;
  return -1;
}
#endif

/* A process alone, whose log is in the folder. */
static uint32_t begin(ivy_process **ivy) { return ivy_init_as(NULL, NULL, NULL, ivy); }

/* One whose log is a file of the program. */
static uint32_t begin_with(FILE *log, ivy_process **ivy) {
  const ivy_start start = { { 2, 4, PAGE, IVY_DYNAMIC }, 0, channel_open(0), IVY_IN_CALLS, 0, 0, log, 1 };
  return ivy_join_as(&start, ivy);
}

static size_t read_log(char *bytes) {
  FILE *file = fopen(path, "r");
  size_t length = file ? fread(bytes, 1, MOST, file) : 0;
  if (file) fclose(file);
  return length;
}

/* What another process ends with that begins there. */
static uint32_t begin_in_another(void) {
  int its = 0;
  pid_t other = fork();
  if (other == 0) {
    execl(program, program, folder, "again", (char *)NULL);
    _exit(1);
  }
  waitpid(other, &its, 0);
  return WIFEXITED(its) ? (uint32_t)WEXITSTATUS(its) : 1;
}

/* The log of a node is as it was, however another one begins with it. */
static void refuse_others(void) {
  static char before[MOST], after[MOST];
  ivy_process *first, *second;
  should_be("a start", begin(&first), IVY_DONE);
  for (int i = 0; i < 1000; i++) ivy_store(first, 8, PAGE, 1);
  size_t length = read_log(before);
  FILE *behind = fopen(path, "a"), *opened;
  should_be("whether something is in the log", length > 0, 1);
  should_be("a second one of this process", begin(&second), IVY_LOG_TAKEN);
  should_be("whether there is no process", second == NULL, 1);
  should_be("a file of the program", begin_with(behind, &second), IVY_LOG_TAKEN);
  should_be("a log that is opened", ivy_open_log(path, &opened), IVY_LOG_TAKEN);
  should_be("whether there is no file", opened == NULL, 1);
#ifndef NO_LOCKS
  should_be("one of another process", begin_in_another(), 2);
#endif
  should_be("the log's length then", read_log(after), length);
  should_be("whether it is another log", (uint64_t)(memcmp(before, after, length) != 0), 0);
  fclose(behind);
  should_be("the last status", ivy_leave(first), IVY_DONE);
  should_be("one of another process then", begin_in_another(), 0);
}

/* The same file of the program, twice at a time, and one node after the other. */
static void share_a_file(void) {
  ivy_process *first, *second;
  FILE *log;
  should_be("a log", ivy_open_log(path, &log), IVY_DONE);
  should_be("a start with it", begin_with(log, &first), IVY_DONE);
  should_be("a second one", begin_with(log, &second), IVY_LOG_TAKEN);
  should_be("the last status", ivy_leave(first), IVY_DONE);
  should_be("a start after that", begin_with(log, &second), IVY_DONE);
  should_be("the last status", ivy_leave(second), IVY_DONE);
  should_be("one of another process, while the file is open", begin_in_another(), 0);
  fclose(log);
  should_be("a log in no folder", ivy_open_log("/nowhere/0.log", &log), IVY_BAD_ARGUMENT);
}

/* A process that does nothing until it is killed, or the test has failed. */
static void rest(void) {
  alarm(30);
  for (;;) pause();
}

/* A child that ends writes nothing to the log, though it has what was in the buffer; one that goes on has no lock. */
static void have_children(void) {
  static char bytes[MOST];
  ivy_process *ivy;
  should_be("a start", begin(&ivy), IVY_DONE);
  ivy_store(ivy, 8, PAGE, 1);
  size_t length = read_log(bytes);
  pid_t ends = fork();
  if (ends == 0) exit(0);
  waitpid(ends, NULL, 0);
  should_be("the log's length after a child", read_log(bytes), length);
  pid_t stays = fork();
  if (stays == 0) rest();
  should_be("the last status", ivy_leave(ivy), IVY_DONE);
  should_be("a start beside a child", begin_in_another(), 0);
  kill(stays, SIGKILL);
  waitpid(stays, NULL, 0);
}

/* A process is killed whose child goes on: its log is free. */
static void outlive_a_parent(void) {
  int ends[2];
  pid_t child = 0;
  should_be("a pipe", (uint64_t)pipe(ends), 0);
  pid_t parent = fork();
  if (parent == 0) {
    ivy_process *ivy;
    if (begin(&ivy) != IVY_DONE) _exit(1);
    pid_t own = fork() ? 0 : getpid();
    if (!own || write(ends[1], &own, sizeof own) == sizeof own) rest();
    _exit(1);
  }
  close(ends[1]);
  should_be("what the child says", (uint64_t)read(ends[0], &child, sizeof child), sizeof child);
  kill(parent, SIGKILL);
  waitpid(parent, NULL, 0);
  should_be("a start once the parent is killed", begin_in_another(), 0);
  kill(child, SIGKILL);
}

int main(int argc, char **argv) {
  ivy_process *ivy;
  uint32_t status;
  program = argv[0];
  folder = argc > 1 ? argv[1] : (char *)".";
  snprintf(path, sizeof path, "%s/0.log", folder);
  setenv("IVY_LOG", folder, 1);
  if (argc > 2) {
    status = begin(&ivy);
    return ivy_exit_status(status == IVY_DONE ? ivy_leave(ivy) : status);
  }
  refuse_others();
  share_a_file();
  have_children();
  outlive_a_parent();
  puts("done");
  return 0;
}
