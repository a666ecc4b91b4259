/* What bindings_mpi.c and bindings_udp.c share: a read miss and a page handed over between two processes, node 0 and node 1,
 * by turns with the same bytes sent without Ivy. What is told are medians of all, and the ratios of the medians of each round,
 * since the machine may do other work. */
#ifndef BINDINGS_PACE_H
#define BINDINGS_PACE_H
#include "ivy_runtime.h"
#include <stdio.h>
#include <stdlib.h>
#include <time.h>

#ifndef MANAGER
#define MANAGER IVY_DYNAMIC
#endif

enum { ROUNDS = 10, TIMES = 500, ROW = 200, PAGES = 256 };

/* Microseconds, of all rounds. */
typedef struct { double took[ROUNDS * TIMES]; int many; } samples;

/* The bytes of the last request, and of the longest string since, with all that the runtime adds. */
static size_t asked, answered;
static ivy_transport inner;

static void send_measured(void *state, uint32_t to, size_t len) {
  if (!asked) asked = len;
  inner.send(state, to, len);
}

static const uint8_t *receive_measured(void *state, size_t *len, long wait_us) {
  const uint8_t *string = inner.receive(state, len, wait_us);
  if (string && *len > answered) answered = *len;
  return string;
}

static ivy_transport measured(ivy_transport transport) {
  inner = transport;
  ivy_transport t = { transport.state, transport.room, send_measured, receive_measured, transport.close };
  return t;
}

static double now_us(void) {
  struct timespec t;
  clock_gettime(CLOCK_MONOTONIC, &t);
  return (double)t.tv_sec * 1e6 + (double)t.tv_nsec / 1e3;
}

static int compare(const void *a, const void *b) {
  double x = *(const double *)a, y = *(const double *)b;
  return x < y ? -1 : x > y;
}

static double median_of(double *took, int many) {
  qsort(took, (size_t)many, sizeof took[0], compare);
  return took[many / 2];
}

/* The least and the greatest ratio of the medians of a round: each has as many samples. */
static void find_ratios(samples *ours, samples *plainly, double *least, double *most) {
  int own = ours->many / ROUNDS, other = plainly->many / ROUNDS;
  *least = 1e9, *most = 0;
  for (int i = 0; i < ROUNDS; i++) {
    double its = median_of(ours->took + i * own, own) / median_of(plainly->took + i * other, other);
    if (its < *least) *least = its;
    if (its > *most) *most = its;
  }
}

static void wrong(const char *what) {
  fprintf(stderr, "bindings: %s\n", what);
  exit(1);
}

/* Node 0 stores, and node 1 loads what it stored. */
static void miss(ivy_process *ivy, int me, uint64_t page, int round, samples *s) {
  for (uint64_t i = 1 + (uint64_t)round * TIMES; i <= ((uint64_t)round + 1) * TIMES; i++) {
    if (me) {
      ivy_await(ivy, 0, i);
      asked = answered = 0;
      double begun = now_us();
      if (ivy_load(ivy, 8, page) != i) wrong("a load is wrong");
      s->took[s->many++] = now_us() - begun;
      ivy_advance(ivy, 1);
    } else {
      ivy_store(ivy, 8, page, i);
      ivy_advance(ivy, 0);
      ivy_await(ivy, 1, i);
    }
  }
}

/* Node 0 stores in many pages and waits, and node 1 loads from one after another. */
static void in_a_row(ivy_process *ivy, int me, uint64_t page, int round, samples *s) {
  for (uint64_t k = 2; k < 2 + ROW && !me; k++) ivy_store(ivy, 8, k * page, k + (uint64_t)round);
  if (!me) ivy_advance(ivy, 2);
  ivy_await(ivy, me ? 2 : 3, (uint64_t)round + 1);
  for (uint64_t k = 2; k < 2 + ROW && me; k++) {
    double begun = now_us();
    if (ivy_load(ivy, 8, k * page) != k + (uint64_t)round) wrong("a load of a row is wrong");
    s->took[s->many++] = now_us() - begun;
  }
  if (me) ivy_advance(ivy, 3);
}

/* Each raises a number by turns, with the page in its hands: one fault that writes for each time that it goes over. */
static void hand_over(ivy_process *ivy, int me, uint64_t page, int round, samples *s) {
  for (uint64_t i = (uint64_t)round * TIMES; i < ((uint64_t)round + 1) * TIMES; i++) {
    uint64_t own = 2 * i + (uint64_t)me;
    double begun = now_us();
    while (ivy_compare_and_swap(ivy, 8, page + 8, own, own + 1) != own) ivy_progress_now(ivy);
    s->took[s->many++] = (now_us() - begun) / 2;
  }
}

/* Process 1 sends so many bytes, and process 0 sends so many back, without Ivy. What is told is a part of that time: a half of
 * it is one way. */
static void plain(int me, size_t out, size_t back, double part, samples *s, void (*put)(size_t len), void (*get)(size_t len)) {
  for (int i = 0; i < TIMES; i++) {
    double begun = now_us();
    if (me) put(out);
    get(me ? back : out);
    if (!me) put(back);
    s->took[s->many++] = (now_us() - begun) * part;
  }
}

static void tell(const char *by, uint32_t page, const char *what, samples *ours, const char *beside, samples *plainly) {
  double least, most;
  find_ratios(ours, plainly, &least, &most); /* before the rounds are put together */
  double own = median_of(ours->took, ours->many), other = median_of(plainly->took, plainly->many);
  printf("%s, pages of %u: %s %.2f us, %s %.2f, ratio %.2f, of rounds %.2f to %.2f\n", by, page, what, own, beside, other,
         own / other, least, most);
}

/* What node 1 found. */
static void tell_all(const char *by, uint32_t page, samples *missed, samples *rows, samples *exchanged) {
  static samples again;
  again = *exchanged;
  tell(by, page, "a read miss", missed, "a request and its reply of the same bytes", exchanged);
  tell(by, page, "a read miss of a row, whose owner waits", rows, "a request and its reply", &again);
}

#endif
