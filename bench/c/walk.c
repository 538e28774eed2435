/* The walk through the library: how long the insertions take, by how many threads, and how many were new. With 0
 * rounds only the lines and the store are made, so that instructions can be told apart; with THREADS 0 the lines
 * are written. usage: walk THREADS LINES ROUNDS */
#define _POSIX_C_SOURCE 200809L
#include "treedb.h"
#include "walk.h"

#include <pthread.h>

static uint32_t *lines;
static size_t line_count, dealt;

typedef struct {
  treedb store;
  uint64_t fresh, full;
  double cpu;
  char apart[128];
} worker;

static void *work(void *arg) {
  worker *me = (worker *)arg;
  const double before = seconds(CLOCK_THREAD_CPUTIME_ID);
  for (;;) {
    const size_t begin = __atomic_fetch_add(&dealt, DEALT, __ATOMIC_SEQ_CST);
    if (begin >= line_count) break;
    for (size_t k = begin; k < begin + DEALT && k < line_count; k++) {
      uint64_t id;
      const int32_t code = treedb_insert(&me->store, lines + k * SLOTS, SLOTS, &id);
      me->fresh += code == TREEDB_NEW;
      me->full += code < 0;
    }
  }
  me->cpu = seconds(CLOCK_THREAD_CPUTIME_ID) - before;
  return NULL;
}

int main(int argc, char **argv) {
  static worker workers[MOST_WORKERS];
  pthread_t threads[MOST_WORKERS];
  const int count = argc > 1 ? atoi(argv[1]) : 1;
  line_count = argc > 2 ? strtoull(argv[2], NULL, 10) : 1000000;
  lines = walk_lines(line_count);
  if (count < 1) {
    write_lines(lines, line_count);
    return 0;
  }
  const treedb_room room = {24, 21, 4194304};
  if (count > MOST_WORKERS || treedb_create(&workers[0].store, 28, SLOTS, &room)) return 1;
  for (int i = 1; i < count; i++)
    if (treedb_split(&workers[0].store, &workers[i].store)) return 1;
  if (argc > 3 && atoi(argv[3]) == 0) return 0;
  const double begin = seconds(CLOCK_MONOTONIC);
  for (int i = 1; i < count; i++) pthread_create(&threads[i], NULL, work, &workers[i]);
  work(&workers[0]);
  for (int i = 1; i < count; i++) pthread_join(threads[i], NULL);
  const double wall = seconds(CLOCK_MONOTONIC) - begin;
  double cpu = 0;
  uint64_t fresh = 0, full = 0;
  for (int i = 0; i < count; i++) {
    cpu += workers[i].cpu, fresh += workers[i].fresh, full += workers[i].full;
    treedb_free(&workers[i].store);
  }
  printf("%.4f %.4f %llu %llu\n", wall, cpu, (unsigned long long)fresh, (unsigned long long)full);
  free(lines);
  return 0;
}
