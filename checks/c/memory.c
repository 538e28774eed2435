/* Each allocation fails in turn: the call answers TREEDB_NO_MEMORY, nothing is lost, and what was there goes on.
 * This file has the three functions by which the library takes memory, in the place of the kit's archive. */
#include "test.h"
#include "treedb.h"

#include <stddef.h>
#include <string.h>

typedef struct {
  bool ok;
  void *at;
} block;

/* How many allocations are left before all fail, or -1; and how many blocks there are. */
static long left = -1, blocks;

static block taken(void *old, size_t size) {
  static char nothing[16];
  block none = {false, nothing};
  if (left == 0) return none;
  if (left > 0) left--;
  void *at = realloc(old, size ? size : 1);
  if (!at) return none;
  if (!old) blocks++;
  block got = {true, at};
  return got;
}

block rattle_alloc(size_t size, size_t align);
block rattle_realloc(void *old, size_t kept, size_t size, size_t align);
void rattle_dealloc(void *at);

block rattle_alloc(size_t size, size_t align) {
  (void)align;
  return taken(NULL, size);
}

block rattle_realloc(void *old, size_t kept, size_t size, size_t align) {
  (void)kept, (void)align;
  return taken(old, size);
}

void rattle_dealloc(void *at) {
  blocks--;
  free(at);
}

int main(void) {
  static const treedb_room room = {10, 10, 4194304};
  treedb store = TREEDB_NONE;
  long created = 0, divided = 0;
  for (;;) {
    left = created;
    const int32_t code = treedb_create(&store, 28, 16, &room);
    left = -1;
    if (code == TREEDB_DONE) break;
    TEST(code == TREEDB_NO_MEMORY && !store.live && blocks == 0);
    created++;
  }
  uint32_t vector[16] = {1, 2, 3}, back[16];
  uint64_t id, again, flags;
  treedb_sums sums;
  left = 0; /* no call from here on takes memory, but for split */
  TEST(treedb_insert(&store, vector, 16, &id) == TREEDB_NEW);
  TEST(treedb_set_flag(&store, id, 3) == TREEDB_WAS_CLEAR);
  const long before = blocks;
  for (;;) {
    treedb other = TREEDB_NONE;
    left = divided;
    const int32_t code = treedb_split(&store, &other);
    left = 0;
    TEST(treedb_insert(&store, vector, 16, &again) == TREEDB_SEEN && again == id);
    TEST(treedb_find(&store, id, back, 16) == TREEDB_SEEN && !memcmp(back, vector, sizeof back));
    TEST(treedb_flags(&store, id, &flags) == TREEDB_DONE && flags == 8);
    TEST(treedb_counts(&store, &sums) == TREEDB_DONE && sums.names == 1);
    if (code == TREEDB_DONE) {
      TEST(treedb_insert(&other, vector, 16, &again) == TREEDB_SEEN && again == id);
      treedb_free(&other);
      TEST(blocks == before);
      break;
    }
    TEST(code == TREEDB_NO_MEMORY && !other.live && blocks == before);
    divided++;
  }
  treedb_free(&store);
  TEST(blocks == 0 && created > 4 && divided > 2);
  return 0;
}
