/* Strings over MPI. Not proved. */
#define _POSIX_C_SOURCE 200809L
#include "ivy_mpi.h"
#include "ivy_inside.h"
#include <stdlib.h>
#include <time.h>

enum { PLACES = 64, TAG_OF_STRINGS = 1989 };

/* MPI has no wait that sleeps: who waits sleeps for so long a part of its time between looks, and no less or longer. */
enum { PART = 20, LEAST_NAP_US = 10, MOST_NAP_US = 500 };

/* A longer string goes in two pieces, the first of this length: Open MPI hands over what has at most 4,096 bytes with its own
 * head at once, and for more than that it asks the receiver first. */
enum { PIECE = 4000 };

/* Who closes waits so long at most for the others, of whom some may be dead. */
static const double most_seconds = 5;

/* Strings under way, with a place for one that is lost where all others are taken, and one that is to come beside the one
 * that came last. What is lost a pulse sends again. */
typedef struct {
  uint8_t sent[PLACES + 1][IVY_STRING_MOST], came[2][IVY_STRING_MOST];
  MPI_Comm own;
  MPI_Request under_way[PLACES][2], coming[2];
  int place, next;
} mpi;

/* The first place that is free, since its bytes are near the processor still. */
static uint8_t *mpi_room(void *state) {
  mpi *m = (mpi *)state;
  int is_free = 0;
  for (m->place = 0; m->place < PLACES; m->place++) {
    MPI_Testall(2, m->under_way[m->place], &is_free, MPI_STATUSES_IGNORE);
    if (is_free) break;
  }
  return m->sent[m->place];
}

static void mpi_send(void *state, uint32_t to, size_t len) {
  mpi *m = (mpi *)state;
  if (m->place == PLACES) return;
  uint8_t *bytes = m->sent[m->place];
  MPI_Request *under_way = m->under_way[m->place];
  int first = len < PIECE ? (int)len : PIECE;
  MPI_Isend(bytes, first, MPI_BYTE, (int)to, TAG_OF_STRINGS, m->own, &under_way[0]);
  if (first == PIECE) MPI_Isend(bytes + PIECE, (int)len - PIECE, MPI_BYTE, (int)to, TAG_OF_STRINGS, m->own, &under_way[1]);
}

/* A string that came, or null where none is there at this look. What follows a first piece is the next from its source. The
 * next string is asked for before it comes, so MPI puts it in its place at once. One that names another source is none. */
static const uint8_t *take(mpi *m, size_t *len) {
  MPI_Status status;
  int is_there = 0, first = 0, rest = 0;
  uint8_t *bytes = m->came[m->next];
  MPI_Test(&m->coming[m->next], &is_there, &status);
  if (!is_there) return NULL;
  MPI_Get_count(&status, MPI_BYTE, &first);
  int from = status.MPI_SOURCE;
  if (first == PIECE) {
    MPI_Recv(bytes + PIECE, IVY_STRING_MOST - PIECE, MPI_BYTE, from, TAG_OF_STRINGS, m->own, &status);
    MPI_Get_count(&status, MPI_BYTE, &rest);
  }
  m->next = !m->next;
  MPI_Start(&m->coming[m->next]);
  *len = (size_t)(first + rest);
  return first > FROM_AT && bytes[FROM_AT] == from ? bytes : NULL;
}

static const uint8_t *mpi_receive(void *state, size_t *len, long wait_us) {
  mpi *m = (mpi *)state;
  const uint8_t *bytes = take(m, len);
  if (bytes || !wait_us) return bytes;
  long nap_us = wait_us / PART;
  if (nap_us < LEAST_NAP_US) nap_us = LEAST_NAP_US;
  if (nap_us > MOST_NAP_US) nap_us = MOST_NAP_US;
  const struct timespec nap = { 0, nap_us * 1000 };
  double last = MPI_Wtime() + (double)wait_us / 1e6;
  while (!bytes && MPI_Wtime() < last) {
    nanosleep(&nap, NULL);
    bytes = take(m, len);
  }
  return bytes;
}

/* What is under way is received before all go: so each send ends. Where others do not come, what MPI has of it stays. */
static void mpi_close(void *state) {
  mpi *m = (mpi *)state;
  MPI_Request barrier;
  double last = MPI_Wtime() + most_seconds;
  size_t len;
  int is_over = 0, is_sent = 0;
  while (!is_sent && MPI_Wtime() < last) {
    MPI_Testall(2 * PLACES, m->under_way[0], &is_sent, MPI_STATUSES_IGNORE);
    take(m, &len);
  }
  MPI_Ibarrier(m->own, &barrier);
  while (!is_over && MPI_Wtime() < last) {
    take(m, &len);
    MPI_Test(&barrier, &is_over, MPI_STATUS_IGNORE);
  }
  if (!is_over || !is_sent) return;
  MPI_Cancel(&m->coming[m->next]);
  MPI_Wait(&m->coming[m->next], MPI_STATUS_IGNORE);
  for (int i = 0; i < 2; i++) MPI_Request_free(&m->coming[i]);
  MPI_Comm_free(&m->own);
  free(m);
}

ivy_transport ivy_mpi_over(MPI_Comm communicator) {
  ivy_transport t = { NULL, NULL, NULL, NULL, NULL };
  mpi *m = (mpi *)malloc(sizeof *m);
  int level = MPI_THREAD_SINGLE;
  if (!m || MPI_Comm_dup(communicator, &m->own) != MPI_SUCCESS) {
    fprintf(stderr, "ivy: mpi: the communicator is not to be had\n");
    free(m);
    return t;
  }
  MPI_Comm_set_errhandler(m->own, MPI_ERRORS_RETURN);
  for (int i = 0; i < PLACES; i++) m->under_way[i][0] = m->under_way[i][1] = MPI_REQUEST_NULL;
  for (int i = 0; i < 2; i++)
    MPI_Recv_init(m->came[i], IVY_STRING_MOST, MPI_BYTE, MPI_ANY_SOURCE, TAG_OF_STRINGS, m->own, &m->coming[i]);
  m->next = 0;
  MPI_Start(&m->coming[0]);
  MPI_Query_thread(&level);
  if (level < MPI_THREAD_MULTIPLE) ivy_in_for_one_thread = mpi_close;
  const ivy_transport opened = { m, mpi_room, mpi_send, mpi_receive, mpi_close };
  return opened;
}

uint32_t ivy_open_mpi(ivy_transport *transport, MPI_Comm communicator) {
  *transport = ivy_mpi_over(communicator);
  return transport->receive ? (uint32_t)IVY_DONE : (uint32_t)IVY_NO_TRANSPORT;
}

ivy_transport ivy_mpi(void) { return ivy_mpi_over(MPI_COMM_WORLD); }

/* ---- By the environment ------------------------------------------------------------------------------------------------- */

static int finalizes;

/* Whether the launcher of some MPI has started this process. */
static int is_by_mpi(void) {
  int is_initialized = 0;
  MPI_Initialized(&is_initialized);
  return is_initialized || getenv("OMPI_COMM_WORLD_SIZE") || getenv("PMI_SIZE") || getenv("PMIX_RANK");
}

uint32_t ivy_init_mpi_as(int *argc, char ***argv, const ivy_config *config, ivy_process **process) {
  int is_initialized = 0, level, me, nodes;
  if (!is_by_mpi()) return ivy_init_as(argc, argv, config, process);
  *process = NULL;
  MPI_Initialized(&is_initialized);
  if (!is_initialized) {
    MPI_Init_thread(argc, argv, MPI_THREAD_MULTIPLE, &level);
    finalizes = 1;
  }
  MPI_Comm_rank(MPI_COMM_WORLD, &me);
  MPI_Comm_size(MPI_COMM_WORLD, &nodes);
  return ivy_start_over(ivy_mpi(), (uint32_t)me, (uint32_t)nodes, config, process);
}

ivy_process *ivy_init_mpi(int *argc, char ***argv) {
  ivy_process *process;
  ivy_init_mpi_as(argc, argv, NULL, &process);
  return process;
}

int ivy_finalize_mpi(ivy_process *process) {
  int status = ivy_finalize(process);
  if (finalizes) MPI_Finalize();
  return status;
}
