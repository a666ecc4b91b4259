/* A hash table of plain pointers that all processes grow: a list for each bucket, under one of some locks. */
#include "pointers.h"

enum { BUCKETS = 64, LOCKS = 8, KEYS = 60, KEY = 24 };

typedef struct entry {
  struct entry *next;
  uint64_t count;
  char key[KEY];
} entry;

typedef struct { entry *first[BUCKETS]; } table;

static uint32_t bucket_of(const char *key) {
  uint32_t sum = 2166136261u;
  for (; *key; key++) sum = (sum ^ (uint8_t)*key) * 16777619u;
  return sum % BUCKETS;
}

static entry *find(const table *t, const char *key) {
  for (entry *it = t->first[bucket_of(key)]; it; it = it->next)
    if (!strcmp(it->key, key)) return it;
  return NULL;
}

static void count(table *t, const char *key) {
  uint32_t bucket = bucket_of(key);
  ivy_map_lock_acquire(ivy, bucket % LOCKS);
  entry *it = find(t, key);
  if (!it) {
    it = (entry *)ivy_map_malloc(ivy, sizeof *it);
    expect("room for an entry", it != NULL);
    memset(it, 0, sizeof *it);
    snprintf(it->key, KEY, "%s", key);
    it->next = t->first[bucket];
    t->first[bucket] = it;
  }
  it->count++;
  ivy_map_lock_release(ivy, bucket % LOCKS);
}

int main(int argc, char **argv) {
  char key[KEY];
  uint64_t entries = 0;
  begin(argc, argv);
  table *t = (table *)shared(sizeof *t);
  for (uint32_t i = 0; i < KEYS; i++) {
    snprintf(key, sizeof key, "common %u", (i + 7 * me) % KEYS);
    if (i % 2) count(t, key);
    snprintf(key, sizeof key, "own %u of %u", i, me);
    if (i % 4 == 0) count(t, key);
  }
  ivy_map_barrier(ivy);
  for (uint32_t b = 0; b < BUCKETS; b++)
    for (entry *it = t->first[b]; it; it = it->next) entries++;
  uint32_t common = 0;
  for (uint32_t k = 0; k < KEYS; k++) {
    uint64_t times = 0;
    for (uint32_t node = 0; node < nodes; node++)
      for (uint32_t i = 1; i < KEYS; i += 2) times += (i + 7 * node) % KEYS == k;
    snprintf(key, sizeof key, "common %u", k);
    const entry *it = find(t, key);
    expect("how often a key was counted", (it ? it->count : 0) == times);
    common += times > 0;
  }
  expect("how many entries there are", entries == common + (uint64_t)nodes * KEYS / 4);
  return end();
}
