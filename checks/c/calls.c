/* Each call of the C library: what it is for, each code, in which order they come, and what a refusal leaves. */
#include "test.h"
#include "treedb.h"

#include <string.h>

static const treedb_room small = {10, 3, 4194304};

static void null_pointers(void) {
  treedb store = TREEDB_NONE, other = TREEDB_NONE;
  treedb_room room;
  treedb_sums sums;
  uint32_t vector[2] = {1, 2};
  uint64_t id;
  TEST(treedb_sizes(28, 4, 1, NULL) == TREEDB_NULL);
  TEST(treedb_create(NULL, 28, 4, &small) == TREEDB_NULL);
  TEST(treedb_create(&store, 28, 4, NULL) == TREEDB_NULL);
  TEST(treedb_split(NULL, &other) == TREEDB_NULL);
  TEST(treedb_split(&store, NULL) == TREEDB_NULL);
  TEST(treedb_insert(NULL, vector, 2, &id) == TREEDB_NULL);
  TEST(treedb_insert(&store, NULL, 2, &id) == TREEDB_NULL);
  TEST(treedb_insert(&store, vector, 2, NULL) == TREEDB_NULL);
  TEST(treedb_find(NULL, 0, vector, 2) == TREEDB_NULL);
  TEST(treedb_find(&store, 0, NULL, 2) == TREEDB_NULL);
  TEST(treedb_set_flag(NULL, 0, 0) == TREEDB_NULL);
  TEST(treedb_clear_flag(NULL, 0, 0) == TREEDB_NULL);
  TEST(treedb_flags(NULL, 0, &id) == TREEDB_NULL);
  TEST(treedb_flags(&store, 0, NULL) == TREEDB_NULL);
  TEST(treedb_counts(NULL, &sums) == TREEDB_NULL);
  TEST(treedb_counts(&store, NULL) == TREEDB_NULL);
  treedb_free(NULL);
  TEST(treedb_sizes(28, 4, 1, &room) == TREEDB_DONE);
}

static void handles_that_stand_for_nothing(void) {
  treedb store = TREEDB_NONE, other = TREEDB_NONE;
  treedb_sums sums = {8, 9};
  uint32_t vector[2] = {1, 2};
  uint64_t id = 99;
  TEST(treedb_split(&store, &store) == TREEDB_SAME);
  TEST(treedb_split(&store, &other) == TREEDB_NO_HANDLE && !other.live && !store.live);
  TEST(treedb_insert(&store, vector, 2, &id) == TREEDB_NO_HANDLE && id == 99);
  TEST(treedb_find(&store, 0, vector, 2) == TREEDB_NO_HANDLE && vector[0] == 1 && vector[1] == 2);
  TEST(treedb_set_flag(&store, 0, 0) == TREEDB_NO_HANDLE);
  TEST(treedb_clear_flag(&store, 0, 0) == TREEDB_NO_HANDLE);
  TEST(treedb_flags(&store, 0, &id) == TREEDB_NO_HANDLE && id == 99);
  TEST(treedb_counts(&store, &sums) == TREEDB_NO_HANDLE && sums.nodes == 8 && sums.names == 9);
  treedb_free(&store);
  TEST(!store.live);
}

/* The greatest and the least of each size are taken, those beside them are not, and the first fault is told. */
static void sizes_of_stores(void) {
  static const struct {
    uint32_t profile;
    size_t slots;
    treedb_room room;
    int32_t code;
  } cases[] = {
      {29, 1, {2, 2, 0}, TREEDB_BAD_PROFILE},   {0, 4, {10, 10, 1}, TREEDB_BAD_PROFILE},
      {28, 1, {2, 2, 0}, TREEDB_BAD_SLOTS},     {28, 1025, {10, 10, 1}, TREEDB_BAD_SLOTS},
      {28, 0, {10, 10, 1}, TREEDB_BAD_SLOTS},   {28, 4, {2, 2, 0}, TREEDB_BAD_NODES},
      {28, 4, {26, 10, 1}, TREEDB_BAD_NODES},   {16, 4, {17, 10, 1}, TREEDB_BAD_NODES},
      {28, 4, {10, 2, 0}, TREEDB_BAD_ROOTS},    {28, 4, {10, 25, 1}, TREEDB_BAD_ROOTS},
      {28, 4, {10, 10, 0}, TREEDB_BAD_PROBE},   {28, 4, {10, 10, 4194305}, TREEDB_BAD_PROBE},
      {28, 4, {UINT32_MAX, 10, 1}, TREEDB_BAD_NODES}, {28, 4, {10, 10, UINT64_MAX}, TREEDB_BAD_PROBE},
      {16, 2, {3, 3, 1}, TREEDB_DONE},          {16, 1024, {16, 3, 4194304}, TREEDB_DONE},
      {31, 2, {3, 3, 1}, TREEDB_DONE},          {28, SIZE_MAX, {10, 10, 1}, TREEDB_BAD_SLOTS},
  };
  for (size_t i = 0; i < sizeof cases / sizeof *cases; i++) {
    treedb store = TREEDB_NONE;
    TEST(treedb_create(&store, cases[i].profile, cases[i].slots, &cases[i].room) == cases[i].code);
    TEST(store.live == (cases[i].code == TREEDB_DONE));
    treedb_free(&store);
    TEST(!store.live);
  }
}

/* The least powers of two that reach states and (slots - 2) * states. */
static void room_for_states(void) {
  static const struct {
    uint32_t profile;
    size_t slots;
    uint64_t states;
    int32_t code;
    uint32_t nodes, roots;
  } cases[] = {
      {28, 2, 0, TREEDB_DONE, 3, 3},          {28, 3, 8, TREEDB_DONE, 3, 3},
      {28, 3, 9, TREEDB_DONE, 4, 4},          {28, 16, 1000000, TREEDB_DONE, 24, 20},
      {28, 16, 1048577, TREEDB_DONE, 24, 21}, {31, 2, 16777216, TREEDB_DONE, 3, 24},
      {31, 2, 16777217, TREEDB_TOO_MANY, 0, 0}, {28, 4, 16777216, TREEDB_DONE, 25, 24},
      {28, 5, 16777216, TREEDB_TOO_MANY, 0, 0}, {16, 4, 32768, TREEDB_DONE, 16, 15},
      {16, 4, 32769, TREEDB_TOO_MANY, 0, 0},  {28, 1024, UINT64_MAX, TREEDB_TOO_MANY, 0, 0},
      {27, 1, 1, TREEDB_BAD_PROFILE, 0, 0},   {28, 1, UINT64_MAX, TREEDB_BAD_SLOTS, 0, 0},
  };
  for (size_t i = 0; i < sizeof cases / sizeof *cases; i++) {
    treedb_room room = {77, 78, 79};
    TEST(treedb_sizes(cases[i].profile, cases[i].slots, cases[i].states, &room) == cases[i].code);
    if (cases[i].code == TREEDB_DONE)
      TEST(room.nodes == cases[i].nodes && room.roots == cases[i].roots && room.probe == 4194304);
    else
      TEST(room.nodes == 77 && room.roots == 78 && room.probe == 79);
  }
}

static void vectors(void) {
  treedb store = TREEDB_NONE, other = TREEDB_NONE;
  treedb_sums sums;
  uint32_t vector[4] = {1, 2, 3, 4}, back[4];
  uint64_t id = 99, largest = 99, again;
  TEST(treedb_create(&store, 28, 4, &small) == TREEDB_DONE && store.live);
  TEST(treedb_create(&store, 29, 1, &small) == TREEDB_IN_USE && store.live);
  TEST(treedb_insert(&store, vector, 3, &id) == TREEDB_BAD_VECTOR && id == 99);
  TEST(treedb_insert(&store, vector, 5, &id) == TREEDB_BAD_VECTOR && id == 99);
  for (int i = 0; i < 4; i++) {
    uint32_t large[4] = {0};
    large[i] = 1u << 28;
    TEST(treedb_insert(&store, large, 4, &id) == TREEDB_BAD_VECTOR && id == 99);
    large[i]--;
    TEST(i > 0 || treedb_insert(&store, large, 4, &largest) == TREEDB_NEW);
  }
  for (uint64_t none = 0; none < 8; none++)
    TEST(treedb_find(&store, none, back, 4) == (none == largest ? TREEDB_SEEN : TREEDB_NO_NAME));
  TEST(treedb_insert(&store, vector, 4, &id) == TREEDB_NEW && id < 8);
  TEST(treedb_insert(&store, vector, 4, &again) == TREEDB_SEEN && again == id);
  TEST(treedb_split(&store, &other) == TREEDB_DONE && other.live);
  TEST(treedb_split(&store, &other) == TREEDB_IN_USE && other.live);
  again = 99;
  TEST(treedb_insert(&other, vector, 4, &again) == TREEDB_SEEN && again == id);
  TEST(treedb_find(&other, id, back, 4) == TREEDB_SEEN && !memcmp(vector, back, sizeof back));
  memset(back, 7, sizeof back);
  TEST(treedb_find(&other, id, back, 3) == TREEDB_BAD_VECTOR && back[0] == 0x07070707);
  TEST(treedb_find(&other, 8, back, 4) == TREEDB_NO_NAME && back[0] == 0x07070707);
  TEST(treedb_find(&other, UINT64_MAX, back, 4) == TREEDB_NO_NAME && back[3] == 0x07070707);

  int full = 0;
  for (uint32_t k = 0; k < 20; k++) {
    vector[0] = 100 + k;
    again = 99;
    const int32_t code = treedb_insert(&other, vector, 4, &again);
    TEST(code == TREEDB_NEW || (code == TREEDB_FULL_ROOTS && again == 99));
    full += code == TREEDB_FULL_ROOTS;
  }
  TEST(full == 14); /* 8 places, of which 2 were taken */
  TEST(treedb_insert(&other, vector, 4, &again) == TREEDB_FULL_ROOTS);
  TEST(treedb_counts(&store, &sums) == TREEDB_DONE && sums.names == 2);
  TEST(treedb_counts(&other, &sums) == TREEDB_DONE && sums.names == 6);
  treedb_free(&store);
  TEST(!store.live && treedb_find(&other, id, back, 4) == TREEDB_SEEN && back[3] == 4);
  treedb_free(&other);
  treedb_free(&other);
}

/* A table of 8 nodes: no more than 8 pairs, and what is full stays so. */
static void full_nodes(void) {
  static const treedb_room few = {3, 10, 4194304};
  treedb store = TREEDB_NONE;
  uint64_t id;
  uint32_t vector[3] = {0, 0, 0};
  TEST(treedb_create(&store, 31, 3, &few) == TREEDB_DONE);
  int full = 0;
  for (uint32_t k = 0; k < 12; k++) {
    vector[1] = vector[2] = k;
    full += treedb_insert(&store, vector, 3, &id) == TREEDB_FULL_NODES;
  }
  TEST(full == 4);
  TEST(treedb_insert(&store, vector, 3, &id) == TREEDB_FULL_NODES);
  vector[1] = vector[2] = 0;
  TEST(treedb_insert(&store, vector, 3, &id) == TREEDB_SEEN);
  vector[0] = 0x7fffffff;
  TEST(treedb_insert(&store, vector, 3, &id) == TREEDB_NEW);
  vector[0] = 0x80000000;
  TEST(treedb_insert(&store, vector, 3, &id) == TREEDB_BAD_VECTOR);
  treedb_free(&store);
}

static void flags(void) {
  static const struct {
    uint32_t profile, count;
  } profiles[] = {{16, 8}, {28, 7}, {31, 1}};
  for (int i = 0; i < 3; i++) {
    treedb store = TREEDB_NONE;
    uint32_t vector[2] = {3, 5};
    uint64_t id, now = 99;
    TEST(treedb_create(&store, profiles[i].profile, 2, &small) == TREEDB_DONE);
    TEST(treedb_insert(&store, vector, 2, &id) == TREEDB_NEW);
    TEST(treedb_set_flag(&store, 8, profiles[i].count) == TREEDB_BAD_FLAG);
    TEST(treedb_set_flag(&store, id, UINT32_MAX) == TREEDB_BAD_FLAG);
    TEST(treedb_clear_flag(&store, id, profiles[i].count) == TREEDB_BAD_FLAG);
    TEST(treedb_set_flag(&store, id ^ 1, 0) == TREEDB_NO_NAME);
    TEST(treedb_clear_flag(&store, id ^ 1, 0) == TREEDB_NO_NAME);
    TEST(treedb_flags(&store, id ^ 1, &now) == TREEDB_NO_NAME && now == 99);
    for (uint32_t flag = 0; flag < profiles[i].count; flag++) {
      TEST(treedb_set_flag(&store, id, flag) == TREEDB_WAS_CLEAR);
      TEST(treedb_set_flag(&store, id, flag) == TREEDB_WAS_SET);
      TEST(treedb_flags(&store, id, &now) == TREEDB_DONE && now == (2u << flag) - 1);
    }
    TEST(treedb_clear_flag(&store, id, 0) == TREEDB_WAS_SET);
    TEST(treedb_clear_flag(&store, id, 0) == TREEDB_WAS_CLEAR);
    TEST(treedb_flags(&store, id, &now) == TREEDB_DONE && now == (1u << profiles[i].count) - 2);
    TEST(treedb_insert(&store, vector, 2, &id) == TREEDB_SEEN);
    treedb_free(&store);
  }
}

int main(void) {
  TEST(treedb_version() == TREEDB_VERSION);
  null_pointers();
  handles_that_stand_for_nothing();
  sizes_of_stores();
  room_for_states();
  vectors();
  full_nodes();
  flags();
  return 0;
}
