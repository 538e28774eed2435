/* All states of the dining philosophers, by one thread: the store is the set of those met, and the frontier has
 * their identifiers. Prints how many states there are, and in how many nobody can make a step. */
#include "philosophers.h"
#include "treedb.h"

#include <stdio.h>
#include <stdlib.h>

enum { MOST = 100000 };

int main(void) {
  treedb_room room;
  treedb store = TREEDB_NONE;
  if (treedb_sizes(28, SLOTS, MOST, &room) != TREEDB_DONE) return 1;
  if (treedb_create(&store, 28, SLOTS, &room) != TREEDB_DONE) return 1;

  uint64_t *frontier = malloc(MOST * sizeof *frontier);
  uint32_t state[SLOTS] = {0}, next[PHILOSOPHERS][SLOTS];
  size_t first = 0, last = 0;
  unsigned long stuck = 0;
  if (!frontier || treedb_insert(&store, state, SLOTS, &frontier[last++]) != TREEDB_NEW) return 1;
  while (first < last) {
    if (treedb_find(&store, frontier[first++], state, SLOTS) != TREEDB_SEEN) return 1;
    const int count = successors(state, next);
    stuck += count == 0;
    for (int i = 0; i < count; i++) {
      uint64_t id;
      const int32_t code = treedb_insert(&store, next[i], SLOTS, &id);
      if (code < 0 || (code == TREEDB_NEW && last == MOST)) return 1;
      if (code == TREEDB_NEW) frontier[last++] = id;
    }
  }
  printf("%zu states, %lu stuck\n", last, stuck);
  free(frontier);
  treedb_free(&store);
  return 0;
}
