/* A process that is started by its environment: see ivy_runtime.h. Not proved. */
#define _POSIX_C_SOURCE 200809L
#include "ivy_inside.h"
#include <stdlib.h>
#include <string.h>
#include <time.h>

enum { PAGES = 256, PAGE_SIZE = 1024, START_MS = 10000, DEATH_MS = 5000, PORT = 7300, PATH = 4096 };

/* Reads the number that a variable of the environment has, if there is one. Whether it has no other text. */
static int read_number(const char *name, uint32_t *number) {
  const char *said = getenv(name);
  char *end;
  if (!said || !*said) return 1;
  unsigned long long found = strtoull(said, &end, 10);
  if (*end || *said == '-' || found > UINT32_MAX) {
    fprintf(stderr, "ivy: %s is %s, and not a number\n", name, said);
    return 0;
  }
  *number = (uint32_t)found;
  return 1;
}

static int is_said(const char *name, const char *word) {
  const char *said = getenv(name);
  return said && !strcmp(said, word);
}

/* Else as many as a node takes. */
int ivy_in_find_ahead(ivy_process *p) {
  p->ahead = MOST_FETCHED;
  if (!read_number("IVY_AHEAD", &p->ahead)) return 0;
  if (p->ahead <= MOST_FETCHED) return 1;
  fprintf(stderr, "ivy: IVY_AHEAD is %u, and not 0 to %d\n", p->ahead, MOST_FETCHED);
  return 0;
}

/* ---- A process alone: nothing comes, and nothing is sent --------------------------------------------------------------- */

static uint8_t *alone_room(void *state) { return (uint8_t *)state; }

static void alone_send(void *state, uint32_t to, size_t len) { (void)state, (void)to, (void)len; }

static const uint8_t *alone_receive(void *state, size_t *len, long wait_us) {
  const struct timespec nap = { wait_us / 1000000, wait_us % 1000000 * 1000 };
  (void)state;
  *len = 0;
  if (wait_us) nanosleep(&nap, NULL);
  return NULL;
}

static void alone_close(void *state) { free(state); }

static uint32_t open_alone(ivy_transport *transport) {
  const ivy_transport alone = { malloc(IVY_STRING_MOST), alone_room, alone_send, alone_receive, alone_close };
  *transport = alone;
  return alone.state ? (uint32_t)IVY_DONE : (uint32_t)IVY_MEMORY;
}

/* ---- By the environment -------------------------------------------------------------------------------------------------- */

/* The log of this node in the folder that IVY_LOG names, if there is one. */
static uint32_t open_log(ivy_start *start) {
  const char *folder = getenv("IVY_LOG");
  char path[PATH];
  if (!folder || !*folder) return IVY_DONE;
  snprintf(path, sizeof path, "%s/%u.log", folder, start->me);
  return ivy_open_log(path, &start->log);
}

/* What the variables say of the memory and of times. */
static int read_start(ivy_start *start) {
  uint32_t start_ms = START_MS, death_ms = DEATH_MS;
  if (is_said("IVY_MANAGER", "fixed")) start->config.manager = IVY_FIXED;
  if (is_said("IVY_MANAGER", "dynamic")) start->config.manager = IVY_DYNAMIC;
  if (is_said("IVY_MANAGER", "steady")) start->config.manager = IVY_STEADY;
  if (is_said("IVY_PROGRESS", "calls") || start->alone) start->progress = IVY_IN_CALLS;
  if (!read_number("IVY_PAGES", &start->config.pages) || !read_number("IVY_PAGE_SIZE", &start->config.page_size)) return 0;
  if (!read_number("IVY_START_MS", &start_ms) || !read_number("IVY_DEATH_MS", &death_ms)) return 0;
  start->start_ms = start_ms;
  start->death_ms = death_ms;
  return 1;
}

uint32_t ivy_start_over(ivy_transport transport, uint32_t me, uint32_t nodes, const ivy_config *config, ivy_process **process) {
  ivy_start start = { { 0, PAGES, PAGE_SIZE, IVY_STEADY }, me, transport, IVY_BY_THREAD, START_MS, DEATH_MS, NULL, nodes < 2 };
  *process = NULL;
  if (config) start.config = *config;
  start.config.nodes = nodes < 2 ? 2 : nodes;
  uint32_t status = read_start(&start) ? open_log(&start) : (uint32_t)IVY_BAD_ARGUMENT;
  if (status == IVY_DONE) return ivy_in_join(&start, 1, 1, process);
  if (transport.close) transport.close(transport.state);
  return status;
}

/* The place of this process among others, over UDP. */
typedef struct { uint32_t me, nodes, port, lost, twice, late; } place;

static int read_place(place *it) {
  return read_number("IVY_NODE", &it->me) && read_number("IVY_NODES", &it->nodes) && read_number("IVY_PORT", &it->port)
         && read_number("IVY_LOST", &it->lost) && read_number("IVY_TWICE", &it->twice) && read_number("IVY_LATE", &it->late);
}

/* Whether mpirun has started several processes, each of which would be alone. */
static int is_of_several(void) {
  const char *size = getenv("OMPI_COMM_WORLD_SIZE") ? getenv("OMPI_COMM_WORLD_SIZE") : getenv("PMI_SIZE");
  if (!size || atoi(size) < 2) return 0;
  fprintf(stderr, "ivy: a program that mpirun starts calls ivy_init_mpi\n");
  return 1;
}

/* Over UDP between the hosts that the environment names. */
static uint32_t open_hosts(place *it, const char *hosts, ivy_transport *transport) {
  const char *own = getenv("IVY_BIND");
  uint32_t many = ivy_hosts_in(hosts);
  if (!getenv("IVY_NODE") || (getenv("IVY_NODES") && it->nodes != many)) {
    fprintf(stderr, "ivy: IVY_HOSTS has %u hosts: IVY_NODE says which is this one, and IVY_NODES, if it is said, how many\n", many);
    return IVY_BAD_ARGUMENT;
  }
  it->nodes = many;
  return ivy_open_hosts(transport, it->me, hosts, own && *own ? own : NULL, it->port, it->lost, it->twice, it->late);
}

static uint32_t open_place(place *it, ivy_transport *transport) {
  const char *hosts = getenv("IVY_HOSTS");
  if (hosts && *hosts) return open_hosts(it, hosts, transport);
  if (it->nodes < 2) return is_of_several() ? (uint32_t)IVY_NO_TRANSPORT : open_alone(transport);
  return ivy_open_udp(transport, it->me, it->nodes, it->port, it->lost, it->twice, it->late);
}

uint32_t ivy_init_as(int *argc, char ***argv, const ivy_config *config, ivy_process **process) {
  place it = { 0, 1, PORT, 0, 0, 0 };
  ivy_transport transport;
  (void)argc, (void)argv;
  *process = NULL;
  if (!read_place(&it)) return IVY_BAD_ARGUMENT;
  uint32_t status = open_place(&it, &transport);
  return status == IVY_DONE ? ivy_start_over(transport, it.me, it.nodes, config, process) : status;
}

ivy_process *ivy_init(int *argc, char ***argv) {
  ivy_process *process;
  ivy_init_as(argc, argv, NULL, &process);
  return process;
}

static void report(ivy_process *process) {
  const ivy_counts c = ivy_counts_of(process);
  fprintf(stderr,
          "ivy: node %u: %llu calls, %llu hits, %llu misses, %llu waits; %llu strings sent, %llu again, %llu heard\n",
          ivy_me(process), (unsigned long long)c.calls, (unsigned long long)c.hits, (unsigned long long)c.misses,
          (unsigned long long)c.waits, (unsigned long long)c.sent, (unsigned long long)c.again, (unsigned long long)c.heard);
}

int ivy_finalize(ivy_process *process) {
  if (is_said("IVY_REPORT", "1")) report(process);
  return ivy_exit_status(ivy_leave(process));
}
