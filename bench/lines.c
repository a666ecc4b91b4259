/* Two plain processes that hand lines to and fro over two fifos, so many lines of so many characters.
 *
 *     cc -O2 bench/lines.c -o lines
 *     ./lines LINES LENGTH
 *
 * It is what nodes in processes of their own are measured against: the same lines, with nothing behind them. Each process
 * has a processor of its own, as nodes have that work at the same time: on one processor, where a line takes a third, they
 * could only work by turns.
 */
#define _GNU_SOURCE
#include <sched.h>
#include <stdio.h>
#include <stdlib.h>
#include <string.h>
#include <sys/wait.h>
#include <unistd.h>

static char *line;
static size_t length;

static void say(int to) {
    for (size_t done = 0; done < length;) {
        ssize_t more = write(to, line + done, length - done);
        if (more <= 0)
            _exit(1);
        done += more;
    }
}

/* Reads up to an LF. */
static void hear(int from) {
    for (size_t done = 0; !done || line[done - 1] != '\n';) {
        ssize_t more = read(from, line + done, length - done);
        if (more <= 0)
            _exit(1);
        done += more;
    }
}

/* Stays on the processor of this number among those that it may use, if there are as many. */
static void settle(int wanted) {
    cpu_set_t may, one;
    CPU_ZERO(&one);
    if (sched_getaffinity(0, sizeof may, &may))
        return;
    for (int cpu = 0; cpu < CPU_SETSIZE; cpu++)
        if (CPU_ISSET(cpu, &may) && wanted-- == 0) {
            CPU_SET(cpu, &one);
            sched_setaffinity(0, sizeof one, &one);
            return;
        }
}

int main(int words, char **word) {
    int there[2], back[2];
    if (words != 3 || atol(word[1]) < 2 || atol(word[2]) < 2) {
        fputs("lines: how many lines, and how many characters each has\n", stderr);
        return 2;
    }
    long each = atol(word[1]) / 2;
    length = atol(word[2]);
    line = malloc(length);
    if (!line || pipe(there) || pipe(back))
        return 1;
    memset(line, '0', length);
    line[length - 1] = '\n';
    pid_t other = fork();
    if (other < 0)
        return 1;
    settle(other ? 0 : 1);
    for (long k = 0; k < each; k++) {
        if (other)
            say(there[1]);
        hear(other ? back[0] : there[0]);
        if (!other)
            say(back[1]);
    }
    int status = 0;
    if (other)
        wait(&status);
    return status != 0;
}
