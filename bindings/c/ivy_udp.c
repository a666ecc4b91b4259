/* Strings over UDP, with loss, repeats and late ones drawn for tests. Not proved. */
#ifndef _GNU_SOURCE
#define _GNU_SOURCE
#endif
#include "ivy_inside.h"
#include <arpa/inet.h>
#include <errno.h>
#include <netdb.h>
#include <netinet/in.h>
#include <poll.h>
#include <stdlib.h>
#include <string.h>
#include <sys/socket.h>
#include <time.h>
#include <unistd.h>

enum { MOST_PORT = 65535, BUFFER = 1 << 21, MOST_HOST = 256 };

/* Where a node listens. */
typedef union { struct sockaddr any; struct sockaddr_in v4; struct sockaddr_in6 v6; } place;

typedef struct {
  int socket;
  uint32_t nodes;
  unsigned lost, twice, late;
  int is_drawn; /* what becomes of a string */
  uint64_t seed;
  place places[MOST_NODES];
  uint8_t sent[LONG_MOST], came[LONG_MOST + 1];
  uint8_t held[LONG_MOST]; /* the string that is held back */
  size_t held_len;
  uint32_t held_to;
} udp;

static unsigned draw(udp *u) {
  u->seed ^= u->seed << 13;
  u->seed ^= u->seed >> 7;
  u->seed ^= u->seed << 17;
  return (unsigned)(u->seed >> 33) % 100u;
}

static socklen_t length_of(const place *it) { return it->any.sa_family == AF_INET6 ? sizeof it->v6 : sizeof it->v4; }

static void put(udp *u, uint32_t to, const uint8_t *bytes, size_t len) {
  const place *it = &u->places[to];
  ssize_t sent = sendto(u->socket, bytes, len, MSG_DONTWAIT, &it->any, length_of(it));
  (void)sent; /* what is not sent is lost */
}

static uint8_t *udp_room(void *state) {
  udp *u = (udp *)state;
  return u->sent;
}

static void udp_send(void *state, uint32_t to, size_t len) {
  udp *u = (udp *)state;
  if (!u->is_drawn) {
    put(u, to, u->sent, len);
    return;
  }
  if (draw(u) < u->lost) return;
  if (!u->held_len && draw(u) < u->late) {
    memcpy(u->held, u->sent, len);
    u->held_len = len;
    u->held_to = to;
    return;
  }
  put(u, to, u->sent, len);
  if (draw(u) < u->twice) put(u, to, u->sent, len);
  if (u->held_len) {
    put(u, u->held_to, u->held, u->held_len);
    u->held_len = 0;
  }
}

/* Whether two places have one address and port. */
static int is_same(const place *one, const place *two) {
  if (one->any.sa_family != two->any.sa_family) return 0;
  if (one->any.sa_family == AF_INET)
    return one->v4.sin_port == two->v4.sin_port && one->v4.sin_addr.s_addr == two->v4.sin_addr.s_addr;
  return one->v6.sin6_port == two->v6.sin6_port && !memcmp(&one->v6.sin6_addr, &two->v6.sin6_addr, sizeof one->v6.sin6_addr);
}

/* A string that came from the address and port of whom it names, or null. One that is longer than any of a node is none of a
 * node still where it is cut. */
static const uint8_t *take(udp *u, size_t *len) {
  place from;
  socklen_t room = sizeof from;
  ssize_t came = recvfrom(u->socket, u->came, sizeof u->came, MSG_DONTWAIT, &from.any, &room);
  if (came <= FROM_AT || u->came[FROM_AT] >= u->nodes || !is_same(&from, &u->places[u->came[FROM_AT]])) return NULL;
  *len = (size_t)came;
  return u->came;
}

static const uint8_t *udp_receive(void *state, size_t *len, long wait_us) {
  udp *u = (udp *)state;
  const uint8_t *bytes = take(u, len);
  struct pollfd one = { u->socket, POLLIN, 0 };
  const struct timespec time = { wait_us / 1000000, wait_us % 1000000 * 1000 };
  if (!bytes && wait_us && ppoll(&one, 1, &time, NULL) > 0) bytes = take(u, len);
  return bytes;
}

static void udp_close(void *state) {
  udp *u = (udp *)state;
  close(u->socket);
  free(u);
}

/* ---- Opening -------------------------------------------------------------------------------------------------------------- */

/* The place is taken, and kept from programs that this one starts. A router may part a string: its pieces are put together
 * before it comes. */
static int open_socket(udp *u, const place *own) {
  int room = BUFFER, one = 1;
  u->socket = socket(own->any.sa_family, SOCK_DGRAM | SOCK_CLOEXEC, 0);
  if (u->socket < 0) return 0;
  if (own->any.sa_family == AF_INET6) setsockopt(u->socket, IPPROTO_IPV6, IPV6_V6ONLY, &one, sizeof one);
#ifdef IP_PMTUDISC_DONT
  int parts = IP_PMTUDISC_DONT;
  if (own->any.sa_family == AF_INET) setsockopt(u->socket, IPPROTO_IP, IP_MTU_DISCOVER, &parts, sizeof parts);
#endif
  if (bind(u->socket, &own->any, length_of(own))) {
    int why = errno;
    close(u->socket);
    errno = why;
    return 0;
  }
  setsockopt(u->socket, SOL_SOCKET, SO_RCVBUF, &room, sizeof room);
  return 1;
}

static uint32_t port_of(const place *it) {
  return ntohs(it->any.sa_family == AF_INET6 ? it->v6.sin6_port : it->v4.sin_port);
}

int ivy_in_takes_two(const ivy_transport *transport) { return transport->room == udp_room && transport->send == udp_send; }

/* A transport between these places, which takes over `u`: it listens at its own, or at another one. */
static uint32_t open_among(udp *u, uint32_t me, const place *own, ivy_transport *transport) {
  const ivy_transport opened = { u, udp_room, udp_send, udp_receive, udp_close };
  u->seed = 88172645463325252ull + me * 2654435761ull;
  if (!open_socket(u, own)) {
    fprintf(stderr, "ivy: udp: port %u: %s\n", port_of(own), strerror(errno));
    free(u);
    return IVY_NO_TRANSPORT;
  }
  *transport = opened;
  return IVY_DONE;
}

static udp *new_udp(uint32_t nodes, unsigned lost, unsigned twice, unsigned late) {
  udp *u = (udp *)calloc(1, sizeof *u);
  if (!u) return NULL;
  u->nodes = nodes;
  u->lost = lost;
  u->twice = twice;
  u->late = late;
  u->is_drawn = lost || twice || late;
  return u;
}

uint32_t ivy_open_udp(ivy_transport *transport, uint32_t me, uint32_t nodes, uint32_t port, unsigned lost, unsigned twice,
                      unsigned late) {
  memset(transport, 0, sizeof *transport);
  if (me >= nodes || nodes > MOST_NODES || port == 0 || port + nodes - 1 > MOST_PORT) {
    fprintf(stderr, "ivy: udp: node %u of %u from port %u on: ports end at %d\n", me, nodes, port, MOST_PORT);
    return IVY_NO_TRANSPORT;
  }
  udp *u = new_udp(nodes, lost, twice, late);
  for (uint32_t i = 0; u && i < nodes; i++) {
    u->places[i].v4.sin_family = AF_INET;
    u->places[i].v4.sin_port = htons((uint16_t)(port + i));
    u->places[i].v4.sin_addr.s_addr = htonl(INADDR_LOOPBACK);
  }
  return u ? open_among(u, me, &u->places[me], transport) : (uint32_t)IVY_MEMORY;
}

ivy_transport ivy_udp(uint32_t me, uint32_t nodes, uint16_t port, unsigned lost, unsigned twice, unsigned late) {
  ivy_transport transport;
  ivy_open_udp(&transport, me, nodes, port, lost, twice, late);
  return transport;
}

/* ---- Between machines ----------------------------------------------------------------------------------------------------- */

static int is_loopback(const place *it) {
  if (it->any.sa_family == AF_INET6) return IN6_IS_ADDR_LOOPBACK(&it->v6.sin6_addr);
  return ntohl(it->v4.sin_addr.s_addr) >> 24 == 127;
}

/* Parts a port from a host, if it has one: behind an address of IPv6 it has one where that is in brackets. */
static const char *part_port(char *host) {
  char *close = strchr(host, ']'), *colon = strrchr(host, ':');
  int has_port = colon && (close ? colon == close + 1 : strchr(host, ':') == colon);
  if (has_port) *colon = 0;
  if (*host == '[' && close) {
    *close = 0;
    memmove(host, host + 1, strlen(host));
  }
  return has_port ? colon + 1 : NULL;
}

/* The place that a text names: an address or a name, and its port, if it is not this one. A family other than 0 is that of the
 * places before it. Says what is wrong. */
static int find_place(const char *said, size_t len, uint32_t port, int family, place *found) {
  char host[MOST_HOST], number[12];
  struct addrinfo hints, *list = NULL;
  memset(&hints, 0, sizeof hints);
  hints.ai_family = family;
  hints.ai_socktype = SOCK_DGRAM;
  hints.ai_flags = AI_NUMERICSERV;
  snprintf(number, sizeof number, "%u", port);
  snprintf(host, sizeof host, "%.*s", len < MOST_HOST ? (int)len : MOST_HOST - 1, said);
  const char *own = part_port(host);
  int error = port <= MOST_PORT ? getaddrinfo(host, own ? own : number, &hints, &list) : EAI_SERVICE;
  if (error || (list->ai_family != AF_INET && list->ai_family != AF_INET6)) {
    fprintf(stderr, "ivy: udp: %.*s: %s\n", (int)len, said, error ? gai_strerror(error) : "neither IPv4 nor IPv6");
    if (list) freeaddrinfo(list);
    return 0;
  }
  memcpy(found, list->ai_addr, list->ai_addrlen < sizeof *found ? list->ai_addrlen : sizeof *found);
  freeaddrinfo(list);
  return 1;
}

uint32_t ivy_hosts_in(const char *hosts) {
  uint32_t many = *hosts != 0;
  for (; *hosts; hosts++) many += *hosts == ',';
  return many;
}

/* The places that a list names. Whether all are some, and one family has them. */
static int find_places(udp *u, const char *hosts, uint32_t port) {
  for (uint32_t i = 0; i < u->nodes; i++) {
    size_t len = strcspn(hosts, ",");
    if (!find_place(hosts, len, port + i, i ? u->places[0].any.sa_family : AF_UNSPEC, &u->places[i])) return 0;
    hosts += len + 1;
  }
  return 1;
}

/* Whether a key is said where one is wanted: what comes from another machine has no other sign of whom it is from. */
static int has_key_if_wanted(const udp *u, const place *own) {
  int is_wanted = !is_loopback(own);
  for (uint32_t i = 0; i < u->nodes; i++) is_wanted |= !is_loopback(&u->places[i]);
  if (!is_wanted || getenv("IVY_KEY") || getenv("IVY_KEY_FILE")) return 1;
  fprintf(stderr, "ivy: udp: between machines a key is wanted: IVY_KEY, or IVY_KEY_FILE\n");
  return 0;
}

uint32_t ivy_open_hosts(ivy_transport *transport, uint32_t me, const char *hosts, const char *own, uint32_t port, unsigned lost,
                        unsigned twice, unsigned late) {
  uint32_t nodes = ivy_hosts_in(hosts);
  place at;
  memset(transport, 0, sizeof *transport);
  memset(&at, 0, sizeof at);
  if (me >= nodes || nodes > MOST_NODES) {
    fprintf(stderr, "ivy: udp: node %u of %u hosts: %s\n", me, nodes, hosts);
    return IVY_NO_TRANSPORT;
  }
  udp *u = new_udp(nodes, lost, twice, late);
  if (!u) return IVY_MEMORY;
  int is_right = find_places(u, hosts, port);
  if (is_right && own) is_right = find_place(own, strlen(own), port_of(&u->places[me]), u->places[me].any.sa_family, &at);
  else at = u->places[me];
  if (is_right && has_key_if_wanted(u, &at)) return open_among(u, me, &at, transport);
  free(u);
  return is_right ? (uint32_t)IVY_NO_KEY : (uint32_t)IVY_NO_TRANSPORT;
}
