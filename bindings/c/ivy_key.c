/* A key of the environment, IVY_KEY or the file IVY_KEY_FILE: who has it knows by the end of each string that it was sent by
 * one who has it, to this node, in this run. The keyed hash is BLAKE2b of libsodium, which is loaded where there is a key. Not
 * proved. */
#define _POSIX_C_SOURCE 200809L
#include "ivy_inside.h"
#include <dlfcn.h>
#include <stdlib.h>
#include <string.h>

enum { LEAST_KEY = 16 };

static int (*keyed_hash)(unsigned char *out, size_t out_length, const unsigned char *in, unsigned long long length,
                         const unsigned char *key, size_t key_length);

/* The library, which takes the instructions that this processor has once it is initialised. */
static int load_hash(void) {
  static const char *const names[] = { "libsodium.so.23", "libsodium.so.26", "libsodium.so" };
  void *library = NULL;
  int (*initialise)(void);
  for (size_t i = 0; !library && i < sizeof names / sizeof names[0]; i++) library = dlopen(names[i], RTLD_NOW | RTLD_LOCAL);
  void *init = library ? dlsym(library, "sodium_init") : NULL, *hash = library ? dlsym(library, "crypto_generichash") : NULL;
  memcpy(&initialise, &init, sizeof init);
  if (!init || initialise() < 0) return 0;
  memcpy(&keyed_hash, &hash, sizeof hash);
  return keyed_hash != NULL;
}

/* The bytes of a file but for the end of its line, as many as a key may have and one more. */
static size_t read_key(const char *path, uint8_t *key) {
  FILE *file = fopen(path, "rb");
  if (!file) return 0;
  size_t length = fread(key, 1, MOST_KEY + 1, file);
  fclose(file);
  return length && key[length - 1] == '\n' ? length - 1 : length;
}

int ivy_in_find_key(ivy_process *p) {
  const char *said = getenv("IVY_KEY"), *path = getenv("IVY_KEY_FILE");
  uint8_t key[MOST_KEY + 1] = { 0 };
  if (!said && !path) return 1;
  size_t length = said ? strlen(said) : read_key(path, key);
  if (said) memcpy(key, said, length < sizeof key ? length : sizeof key);
  if (length < LEAST_KEY || length > MOST_KEY) {
    fprintf(stderr, "ivy: a key has %d to %d bytes: IVY_KEY, or the file IVY_KEY_FILE\n", LEAST_KEY, MOST_KEY);
    return 0;
  }
  if (!load_hash()) {
    fprintf(stderr, "ivy: a key needs libsodium, which is not here\n");
    return 0;
  }
  memcpy(p->key, key, length);
  p->key_length = length;
  return 1;
}

void ivy_in_tag(const ivy_process *p, const uint8_t *bytes, size_t len, uint8_t *tag) {
  keyed_hash(tag, TAG, bytes, len, p->key, p->key_length);
}

int ivy_in_has_tag(const ivy_process *p, const uint8_t *bytes, size_t len) {
  uint8_t should[TAG], differs = 0;
  if (len < HEAD + TAG) return 0;
  ivy_in_tag(p, bytes, len - TAG, should);
  /* in the same time, wherever they differ */
  for (size_t i = 0; i < TAG; i++) differs |= should[i] ^ bytes[len - TAG + i];
  return !differs;
}
