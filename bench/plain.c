/* Plain threads that hand a turn round, or meet, so often: by one mutex and one condition variable for all.
 *
 *     cc -O2 -pthread bench/plain.c -o plain
 *     ./plain ring THREADS HAND_OVERS
 *     ./plain meet THREADS MEETINGS
 *
 * It is what a session's hand-overs and meetings are measured against: the same waits, with no pages behind them.
 */
#include <pthread.h>
#include <stdio.h>
#include <stdlib.h>
#include <string.h>

static pthread_mutex_t lock = PTHREAD_MUTEX_INITIALIZER;
static pthread_cond_t moved = PTHREAD_COND_INITIALIZER;
static long count, threads, times;
static int meets;

/* Waits until the count is at least so great. The lock is held. */
static void await(long least) {
    while (count < least)
        pthread_cond_wait(&moved, &lock);
}

static void advance(void) {
    count++;
    pthread_cond_broadcast(&moved);
}

/* Advances the count each time that it is this thread's turn. */
static void hand_over(long me) {
    for (long turn = me; turn < times; turn += threads) {
        await(turn);
        advance();
    }
}

/* Advances the count, and waits until all have. */
static void meet(void) {
    for (long meeting = 1; meeting <= times; meeting++) {
        advance();
        await(meeting * threads);
    }
}

static void *work(void *me) {
    pthread_mutex_lock(&lock);
    if (meets)
        meet();
    else
        hand_over((long)me);
    pthread_mutex_unlock(&lock);
    return NULL;
}

int main(int words, char **word) {
    if (words != 4 || (strcmp(word[1], "ring") && strcmp(word[1], "meet"))) {
        fputs("plain: ring or meet, and how many threads, and how often\n", stderr);
        return 2;
    }
    meets = !strcmp(word[1], "meet");
    threads = atol(word[2]);
    times = atol(word[3]);
    pthread_t *all = calloc(threads, sizeof *all);
    for (long me = 0; me < threads; me++)
        if (pthread_create(&all[me], NULL, work, (void *)me))
            return 1;
    for (long me = 0; me < threads; me++)
        pthread_join(all[me], NULL);
    return 0;
}
