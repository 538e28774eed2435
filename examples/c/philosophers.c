/* All states of the dining philosophers, by several threads that share one store: a search by levels, whose
 * frontiers have the states' identifiers. Prints what it found beside what a plain search with whole vectors in a
 * hash set finds, and fails where they differ. usage: philosophers [THREADS] */
#define _POSIX_C_SOURCE 200809L
#include "philosophers.h"
#include "treedb.h"

#include <pthread.h>
#include <stdio.h>
#include <stdlib.h>

enum { MOST = 100000, PLACES = 1 << 18, DEALT = 16 };

static void fail(const char *what) {
  fprintf(stderr, "philosophers: %s\n", what);
  exit(1);
}

static void *taken(size_t count, size_t size) {
  void *memory = calloc(count, size);
  if (!memory) fail("no memory");
  return memory;
}

/* The plain search: whole vectors, by open addressing. */
static uint32_t (*states)[SLOTS];
static uint32_t *places;
static size_t state_count;
static unsigned long plain_edges;

static uint32_t *place_of(const uint32_t *state) {
  uint64_t hash = 1469598103934665603u;
  for (int i = 0; i < SLOTS; i++) hash = (hash ^ state[i]) * 1099511628211u;
  size_t at = (hash ^ hash >> 29) & (PLACES - 1);
  while (places[at] && memcmp(states[places[at] - 1], state, sizeof *states)) at = (at + 1) & (PLACES - 1);
  return &places[at];
}

static void meet(const uint32_t *state) {
  uint32_t *place = place_of(state);
  if (*place) return;
  if (state_count == MOST) fail("too many states");
  memcpy(states[state_count], state, sizeof *states);
  *place = (uint32_t)++state_count;
}

static void search_plainly(void) {
  static const uint32_t start[SLOTS];
  uint32_t next[PHILOSOPHERS][SLOTS];
  meet(start);
  for (size_t i = 0; i < state_count; i++) {
    const int count = successors(states[i], next);
    plain_edges += (unsigned long)count;
    for (int k = 0; k < count; k++) meet(next[k]);
  }
}

/* The search with the store. What the threads share is changed by atomic steps, or between two barriers. */
static uint64_t *level, *next_level;
static size_t level_count, dealt, next_count;
static pthread_barrier_t barrier;

typedef struct {
  treedb store;
  unsigned long edges;
  int first;
} worker;

static void expand(worker *me, uint64_t id) {
  uint32_t state[SLOTS], next[PHILOSOPHERS][SLOTS];
  if (treedb_find(&me->store, id, state, SLOTS) != TREEDB_SEEN) fail("an identifier without a state");
  const int count = successors(state, next);
  me->edges += (unsigned long)count;
  for (int i = 0; i < count; i++) {
    uint64_t found;
    const int32_t code = treedb_insert(&me->store, next[i], SLOTS, &found);
    if (code < 0) fail("a state was not inserted");
    if (code == TREEDB_NEW) next_level[__atomic_fetch_add(&next_count, 1, __ATOMIC_SEQ_CST)] = found;
  }
}

static void *work(void *arg) {
  worker *me = arg;
  for (;;) {
    pthread_barrier_wait(&barrier);
    if (!level_count) return NULL;
    for (;;) {
      const size_t begin = __atomic_fetch_add(&dealt, DEALT, __ATOMIC_SEQ_CST);
      if (begin >= level_count) break;
      for (size_t i = begin; i < begin + DEALT && i < level_count; i++) expand(me, level[i]);
    }
    pthread_barrier_wait(&barrier);
    if (me->first) {
      uint64_t *done = level;
      level = next_level;
      next_level = done;
      level_count = next_count;
      next_count = dealt = 0;
    }
  }
}

static void search_with_store(worker *workers, int count) {
  static const uint32_t start[SLOTS];
  treedb_room room;
  if (treedb_sizes(28, SLOTS, MOST, &room) != TREEDB_DONE) fail("no room");
  if (treedb_create(&workers[0].store, 28, SLOTS, &room) != TREEDB_DONE) fail("no store");
  workers[0].first = 1;
  for (int i = 1; i < count; i++)
    if (treedb_split(&workers[0].store, &workers[i].store) != TREEDB_DONE) fail("no further handle");
  if (treedb_insert(&workers[0].store, start, SLOTS, &level[0]) != TREEDB_NEW) fail("the first state");
  level_count = 1;
  pthread_t *threads = taken((size_t)count, sizeof *threads);
  if (pthread_barrier_init(&barrier, NULL, (unsigned)count)) fail("no barrier");
  for (int i = 1; i < count; i++)
    if (pthread_create(&threads[i], NULL, work, &workers[i])) fail("no thread");
  work(&workers[0]);
  for (int i = 1; i < count; i++) pthread_join(threads[i], NULL);
  pthread_barrier_destroy(&barrier);
  free(threads);
}

/* Every identifier reads back as a state that the plain search met, and as that one alone. */
static size_t read_back(treedb *store) {
  size_t count = 0;
  for (uint64_t id = 0; id < 1 << 17; id++) {
    uint32_t state[SLOTS];
    uint64_t again;
    const int32_t code = treedb_find(store, id, state, SLOTS);
    if (code == TREEDB_NO_NAME) continue;
    if (code != TREEDB_SEEN || !*place_of(state)) fail("a state that is none");
    if (treedb_insert(store, state, SLOTS, &again) != TREEDB_SEEN || again != id) fail("another identifier");
    count++;
  }
  return count;
}

int main(int argc, char **argv) {
  const int count = argc > 1 ? atoi(argv[1]) : 4;
  if (count < 1 || count > 64) return 2;
  states = taken(MOST, sizeof *states);
  places = taken(PLACES, sizeof *places);
  level = taken(MOST, sizeof *level);
  next_level = taken(MOST, sizeof *next_level);
  worker *workers = taken((size_t)count, sizeof *workers);
  search_plainly();
  search_with_store(workers, count);

  treedb_sums sums;
  unsigned long edges = 0;
  uint64_t names = 0;
  for (int i = 0; i < count; i++) {
    if (treedb_counts(&workers[i].store, &sums) != TREEDB_DONE) fail("no counts");
    names += sums.names;
    edges += workers[i].edges;
  }
  const size_t back = read_back(&workers[0].store);
  for (int i = 0; i < count; i++) treedb_free(&workers[i].store);
  printf("%zu states, %lu edges plainly\n", state_count, plain_edges);
  printf("%llu states, %lu edges with the store, %zu read back\n", (unsigned long long)names, edges, back);
  free(workers), free(next_level), free(level), free(places), free(states);
  return names == state_count && back == state_count && edges == plain_edges ? 0 : 1;
}
