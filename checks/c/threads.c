/* Eight threads insert the same vectors in orders of their own, find what they were given, and set the same flags:
 * each vector is new to one of them and has one identifier, and each flag was clear to one of them.
 * usage: threads [VECTORS] */
#define _POSIX_C_SOURCE 200809L
#include "test.h"
#include "treedb.h"

#include <pthread.h>
#include <string.h>

enum { THREADS = 8, SLOTS = 6 };

static uint32_t count;

typedef struct {
  treedb store;
  uint32_t stride;
  uint64_t *ids;       /* the identifier of each vector */
  unsigned char *made; /* whether it was new; and whether its flag was clear */
  unsigned char *first;
} worker;

/* Vector k: its digits in base 8, and its number again. */
static void vector_of(uint32_t k, uint32_t *vector) {
  for (int i = 0; i < SLOTS - 1; i++) vector[i] = k >> 3 * i & 7;
  vector[SLOTS - 1] = k;
}

static void *work(void *arg) {
  worker *me = arg;
  uint32_t vector[SLOTS], back[SLOTS];
  for (uint32_t i = 0, k = 0; i < count; i++, k = (k + me->stride) % count) {
    vector_of(k, vector);
    const int32_t code = treedb_insert(&me->store, vector, SLOTS, &me->ids[k]);
    TEST(code == TREEDB_NEW || code == TREEDB_SEEN);
    me->made[k] = code == TREEDB_NEW;
    TEST(treedb_find(&me->store, me->ids[k], back, SLOTS) == TREEDB_SEEN && !memcmp(back, vector, sizeof back));
    const int32_t flag = treedb_set_flag(&me->store, me->ids[k], 5);
    TEST(flag == TREEDB_WAS_CLEAR || flag == TREEDB_WAS_SET);
    me->first[k] = flag == TREEDB_WAS_CLEAR;
  }
  return NULL;
}

int main(int argc, char **argv) {
  static const uint32_t strides[THREADS] = {1, 3, 7, 9, 11, 13, 17, 19}; /* without a factor 2 or 5 */
  static worker workers[THREADS];
  pthread_t threads[THREADS];
  treedb_room room;
  count = argc > 1 ? (uint32_t)atoi(argv[1]) : 100000;
  TEST(treedb_sizes(28, SLOTS, count, &room) == TREEDB_DONE);
  TEST(treedb_create(&workers[0].store, 28, SLOTS, &room) == TREEDB_DONE);
  for (int i = 0; i < THREADS; i++) {
    if (i) TEST(treedb_split(&workers[0].store, &workers[i].store) == TREEDB_DONE);
    workers[i].stride = strides[i];
    workers[i].ids = malloc(count * sizeof *workers[i].ids);
    workers[i].made = calloc(count, 1);
    workers[i].first = calloc(count, 1);
    TEST(workers[i].ids && workers[i].made && workers[i].first);
  }
  for (int i = 0; i < THREADS; i++) TEST(!pthread_create(&threads[i], NULL, work, &workers[i]));
  for (int i = 0; i < THREADS; i++) TEST(!pthread_join(threads[i], NULL));

  unsigned char *used = calloc(1u << room.roots, 1);
  TEST(used);
  for (uint32_t k = 0; k < count; k++) {
    int made = 0, first = 0;
    for (int i = 0; i < THREADS; i++) {
      TEST(workers[i].ids[k] == workers[0].ids[k]);
      made += workers[i].made[k];
      first += workers[i].first[k];
    }
    TEST(made == 1 && first == 1);
    TEST(workers[0].ids[k] < 1u << room.roots && !used[workers[0].ids[k]]++);
  }
  uint64_t names = 0;
  for (int i = 0; i < THREADS; i++) {
    treedb_sums sums;
    TEST(treedb_counts(&workers[i].store, &sums) == TREEDB_DONE);
    names += sums.names;
    treedb_free(&workers[i].store);
    free(workers[i].ids), free(workers[i].made), free(workers[i].first);
  }
  TEST(names == count);
  free(used);
  return 0;
}
