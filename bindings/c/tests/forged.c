/* Sends to nodes over UDP, from a port that is none of theirs, words that tell of deaths, and others: PORT NODES MS. */
#define _POSIX_C_SOURCE 200809L
#include <arpa/inet.h>
#include <netinet/in.h>
#include <stdint.h>
#include <stdlib.h>
#include <string.h>
#include <sys/socket.h>
#include <time.h>

enum { LENGTHS = 4, EACH_NS = 100000 };
static const size_t lengths[LENGTHS] = { 26, 87, 135, 62 };

int main(int argc, char **argv) {
  if (argc < 4) return 2;
  int from = socket(AF_INET, SOCK_DGRAM, 0), port = atoi(argv[1]), nodes = atoi(argv[2]);
  const struct timespec nap = { 0, EACH_NS };
  struct sockaddr_in address;
  uint8_t bytes[136];
  memset(&address, 0, sizeof address);
  address.sin_family = AF_INET;
  address.sin_addr.s_addr = htonl(INADDR_LOOPBACK);
  for (long i = 0; i < atol(argv[3]) * 1000000 / EACH_NS; i++) {
    memset(bytes, 0, sizeof bytes);
    memset(bytes + 3, i & 1 ? 0xff : 0, 60);
    bytes[0] = (uint8_t)(i % 13);
    bytes[1] = (uint8_t)(i / 13 % nodes);
    bytes[2] = (uint8_t)(i % nodes);
    address.sin_port = htons((uint16_t)(port + i % nodes));
    sendto(from, bytes, lengths[i / 7 % LENGTHS], 0, (struct sockaddr *)&address, sizeof address);
    nanosleep(&nap, NULL);
  }
  return 0;
}
