/* The states of a verifier that SPIN made, kept in a store in the place of its own hash table.
 *
 * A verifier that is compiled with -DBITSTATE asks one function of each state whether it was met before: that to
 * which its pointer b_store points. It hands the state over as bytes, of which there may be fewer and more. */
#include "treedb.h"

#include <stdio.h>
#include <stdlib.h>

/* A slot has three bytes, and the first slot says how many bytes there are. */
enum { BYTES = 3, MOST_BYTES = 128, SLOTS = 1 + (MOST_BYTES + BYTES - 1) / BYTES };

int keep_state(char *state, int size);

static void fail(const char *what) {
  fprintf(stderr, "keep: %s\n", what);
  exit(3);
}

int keep_state(char *state, int size) {
  static treedb store = TREEDB_NONE;
  uint32_t vector[SLOTS] = {0};
  uint64_t id;
  if (!store.live) {
    const treedb_room room = {22, 20, 4194304}; /* a million states, which share most of their nodes */
    if (treedb_create(&store, 28, SLOTS, &room) != TREEDB_DONE) fail("no store");
  }
  if (size < 0 || size > MOST_BYTES) fail("a state of too many bytes");
  vector[0] = (uint32_t)size;
  for (int i = 0; i < size; i++) vector[1 + i / BYTES] |= (uint32_t)(unsigned char)state[i] << 8 * (i % BYTES);
  const int32_t code = treedb_insert(&store, vector, SLOTS, &id);
  if (code < 0) fail("a state was not kept");
  return code == TREEDB_SEEN;
}
