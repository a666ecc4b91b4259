/* A memory of 65,536 pages, of which 16 are used. Started by ivyrun, it ends with 0 where each process reads what all wrote, and
 * where at no moment more than 8 MiB of it were resident. */
#include "ivy_runtime.h"
#include <stdio.h>
#include <string.h>

enum { PAGES = 65536, PAGE = 4096, USED = 16, APART = PAGES / USED, STORED = 0, MOST_KIB = 8 * 1024 };

/* The most that was resident, in KiB. */
static long resident_kib(void) {
  char line[256];
  long kib = -1;
  FILE *file = fopen("/proc/self/status", "r");
  if (!file) return -1;
  while (fgets(line, sizeof line, file))
    if (sscanf(line, "VmHWM: %ld", &kib) == 1) break;
  fclose(file);
  return kib;
}

/* A word in each page that is used: the last one is in the last page. */
static uint64_t address(uint32_t k) { return (uint64_t)(k + 1) * APART * PAGE - 8; }

int main(int argc, char **argv) {
  ivy_config config;
  memset(&config, 0, sizeof config);
  config.pages = PAGES;
  config.page_size = PAGE;
  config.manager = IVY_DYNAMIC;
  ivy_process *ivy;
  uint64_t sum = 0;
  if (ivy_init_as(&argc, &argv, &config, &ivy) != IVY_DONE) return 2;
  ivy_exit_on_error(ivy, 1);
  for (uint32_t k = ivy_me(ivy); k < USED; k += ivy_nodes(ivy)) ivy_store(ivy, 8, address(k), k + 1);
  ivy_advance(ivy, STORED);
  ivy_await(ivy, STORED, ivy_nodes(ivy));
  for (uint32_t k = 0; k < USED; k++) sum += ivy_load(ivy, 8, address(k));
  if (sum != USED * (USED + 1) / 2) return 3;
  if (resident_kib() > MOST_KIB) {
    fprintf(stderr, "wide: %ld KiB were resident\n", resident_kib());
    return 4;
  }
  return ivy_finalize(ivy);
}
