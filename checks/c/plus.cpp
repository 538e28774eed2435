// The library from C++: a vector is inserted, found and seen.
#include "test.h"
#include "treedb.h"

#include <vector>

int main() {
  treedb store = TREEDB_NONE;
  treedb_room room;
  TEST(treedb_sizes(31, 3, 100, &room) == TREEDB_DONE);
  TEST(treedb_create(&store, 31, 3, &room) == TREEDB_DONE);
  const std::vector<uint32_t> state = {7, 0x7fffffff, 0};
  std::vector<uint32_t> back(3);
  uint64_t id, again;
  TEST(treedb_insert(&store, state.data(), state.size(), &id) == TREEDB_NEW);
  TEST(treedb_find(&store, id, back.data(), back.size()) == TREEDB_SEEN && back == state);
  TEST(treedb_insert(&store, back.data(), back.size(), &again) == TREEDB_SEEN && again == id);
  treedb_free(&store);
  return 0;
}
