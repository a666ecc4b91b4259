/* Runs a program, and writes the greatest memory that it had into a file, in KiB.
 *
 *     cc -O2 bench/peak.c -o peak
 *     ./peak FILE PROGRAM WORD..
 *
 * The system counts for a process what its parent had when it was made, so a large parent, as a script in Python, would
 * hide what a small program takes. This one is small. It ends with the program's status.
 */
#include <signal.h>
#include <stdio.h>
#include <stdlib.h>
#include <sys/resource.h>
#include <sys/types.h>
#include <sys/wait.h>
#include <unistd.h>

static pid_t child;

static void pass_on(int number) { kill(child, number); }

int main(int words, char **word) {
    struct rusage usage;
    int ended;
    FILE *file;
    if (words < 3)
        return 125;
    child = fork();
    if (child == 0) {
        execvp(word[2], word + 2);
        _exit(126);
    }
    signal(SIGTERM, pass_on);
    signal(SIGINT, pass_on);
    if (child < 0 || wait4(child, &ended, 0, &usage) != child)
        return 125;
    file = fopen(word[1], "w");
    if (!file || fprintf(file, "%ld\n", usage.ru_maxrss) < 0 || fclose(file))
        return 125;
    return WIFEXITED(ended) ? WEXITSTATUS(ended) : 128 + WTERMSIG(ended);
}
