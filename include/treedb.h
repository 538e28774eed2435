/* treedb.h - a store of state vectors for model checkers, as a static library for C99 and C++11.
 *
 * A store gives each different vector one identifier, and answers whether the vector is new or was seen
 * before. docs/C.md says what is proved of each call; this header says how to call it.
 *
 * HANDLES. A `treedb` is an object that the caller owns. It stands for a store, or for nothing: TREEDB_NONE,
 * which is all zeros. `treedb_create` makes a store and its first handle, `treedb_split` a further handle of
 * the same store. A store is freed with its last handle. The caller neither copies nor changes a handle,
 * except by these calls.
 *
 * THREADS. A handle is used by one thread at a time. Handles of one store may be used at the same time by
 * different threads, without any lock: no call waits for another. A handle may go from one thread to another
 * if a lock, the start or end of a thread, or a sequentially consistent atomic orders that. No call may be
 * made from a signal handler, nor in a child that a process with threads has forked.
 *
 * MEMORY. `treedb_create` and `treedb_split` take memory (by rattle_alloc, rattle_realloc and rattle_dealloc,
 * which the archive liblibc_c.a implements by malloc); no other call does. A store takes 8 bytes for each
 * place of its two tables, and twice as much while it is created. It does not grow.
 *
 * CODES. A call returns a code of `treedb_code`: 0 or above if it did what was asked, below 0 for each reason
 * why it did not. A call that returns less than 0 gives no identifier, sets no flag, writes nothing through
 * its pointers, and leaves the handle as good as before.
 *
 * WHAT IS NOT TESTED, so the caller has to ensure it: that a pointer points to as many numbers as the call
 * says; that the objects of one call do not overlap; that a handle is TREEDB_NONE or as one of these calls
 * left it; and what THREADS asks for. Everything else is tested, and has a code. */
#ifndef TREEDB_H
#define TREEDB_H

#include <stdbool.h>
#include <stddef.h>
#include <stdint.h>

#ifdef __cplusplus
extern "C" {
#endif

/* The version that this header describes: 10000 * major + 100 * minor + patch. */
#define TREEDB_VERSION 10000

/* A handle. Its fields belong to the library, but `live` may be read: whether it stands for a store. */
typedef struct treedb {
  void *at;
  bool live;
} treedb;

#define TREEDB_NONE {0, false}

/* How large the two tables of a store are. */
typedef struct treedb_room {
  uint32_t nodes; /* 2^nodes places for inner nodes: 3 to 25, and at most 16 with profile 16 */
  uint32_t roots; /* 2^roots places for vectors: 3 to 24 */
  uint64_t probe; /* how many cache lines of 8 places are searched for one, 1 to 4194304, which is all */
} treedb_room;

/* What was done through a handle since it was made. */
typedef struct treedb_sums {
  uint64_t nodes; /* inner nodes that it put */
  uint64_t names; /* vectors that it was told are TREEDB_NEW */
} treedb_sums;

/* What a call returns. */
typedef enum treedb_code {
  TREEDB_DONE = 0,         /* done */
  TREEDB_NEW = 1,          /* the vector got its identifier by this call */
  TREEDB_SEEN = 2,         /* the vector already had its identifier */
  TREEDB_WAS_CLEAR = 3,    /* the flag was clear until this call */
  TREEDB_WAS_SET = 4,      /* the flag was set until this call */
  TREEDB_NO_HANDLE = -1,   /* the handle stands for nothing */
  TREEDB_IN_USE = -2,      /* the handle to be made already stands for a store */
  TREEDB_NO_MEMORY = -3,   /* memory ran out */
  TREEDB_BAD_PROFILE = -4, /* not 16, 28 or 31 */
  TREEDB_BAD_SLOTS = -5,   /* not 2 to 1024 slots */
  TREEDB_BAD_NODES = -6,   /* `nodes` is out of its range */
  TREEDB_BAD_ROOTS = -7,   /* `roots` is out of its range */
  TREEDB_BAD_PROBE = -8,   /* `probe` is out of its range */
  TREEDB_BAD_VECTOR = -9,  /* not the store's number of slots, or a slot that is too large */
  TREEDB_BAD_FLAG = -10,   /* the store has no such flag */
  TREEDB_NO_NAME = -11,    /* no vector has the identifier */
  TREEDB_FULL_NODES = -12, /* the table of nodes has no place for the vector, for good */
  TREEDB_FULL_ROOTS = -13, /* the table of roots has no place for the vector, for good */
  TREEDB_TOO_MANY = -14,   /* no store has room for that many states */
  TREEDB_NULL = -15,       /* a pointer is null */
  TREEDB_SAME = -16        /* both handles are the same object */
} treedb_code;

/* The library's own symbols. Programs call the functions below instead, which test what these assume. */
int32_t treedb_c_version(void);
int32_t treedb_c_sizes(uint32_t profile, size_t slots, uint64_t states, treedb_room *room);
int32_t treedb_c_create(treedb *handle, uint32_t profile, size_t slots, const treedb_room *room);
int32_t treedb_c_split(treedb *from, treedb *handle);
int32_t treedb_c_insert(treedb *handle, const uint32_t *vector, size_t slots, uint64_t *id);
int32_t treedb_c_find(treedb *handle, uint64_t id, uint32_t *vector, size_t slots);
int32_t treedb_c_set_flag(treedb *handle, uint64_t id, uint32_t flag);
int32_t treedb_c_clear_flag(treedb *handle, uint64_t id, uint32_t flag);
int32_t treedb_c_flags(treedb *handle, uint64_t id, uint64_t *flags);
int32_t treedb_c_counts(treedb *handle, treedb_sums *sums);
void treedb_c_free(treedb *handle);

/* The version of the linked library, in the form of TREEDB_VERSION. Any thread may call it at any time. */
static inline int32_t treedb_version(void) { return treedb_c_version(); }

/* Writes the least room for that many distinct states of that many slots in a store of this profile:
 * TREEDB_DONE. Else, the first of these that holds: TREEDB_NULL, TREEDB_BAD_PROFILE, TREEDB_BAD_SLOTS,
 * TREEDB_TOO_MANY. A store of this room is never full for them: it has a place for each vector, and for each
 * inner node of its tree. The call takes no memory, and any thread may make it. */
static inline int32_t treedb_sizes(uint32_t profile, size_t slots, uint64_t states, treedb_room *room) {
  return room ? treedb_c_sizes(profile, slots, states, room) : TREEDB_NULL;
}

/* Makes a store without vectors, and its first handle, in an object that stands for nothing: TREEDB_DONE. A
 * vector has `slots` numbers, 2 to 1024. Profile 16 has slots of 16 bits and 8 flags a vector, profile 28
 * slots of 28 bits and 7 flags, profile 31 slots of 31 bits and 1 flag. Else, the first of these that holds:
 * TREEDB_NULL, TREEDB_IN_USE, TREEDB_BAD_PROFILE, TREEDB_BAD_SLOTS, TREEDB_BAD_NODES, TREEDB_BAD_ROOTS,
 * TREEDB_BAD_PROBE, TREEDB_NO_MEMORY. */
static inline int32_t treedb_create(treedb *handle, uint32_t profile, size_t slots, const treedb_room *room) {
  return handle && room ? treedb_c_create(handle, profile, slots, room) : TREEDB_NULL;
}

/* Makes a further handle of the store of `from`, in an object that stands for nothing: TREEDB_DONE. The new
 * handle has counted nothing, and knows each identifier that `from` was told. Else, the first of these that
 * holds: TREEDB_NULL, TREEDB_SAME, TREEDB_IN_USE, TREEDB_NO_HANDLE, TREEDB_NO_MEMORY. */
static inline int32_t treedb_split(treedb *from, treedb *handle) {
  if (!from || !handle) return TREEDB_NULL;
  return from == handle ? TREEDB_SAME : treedb_c_split(from, handle);
}

/* Inserts a vector, unless the store has it, and writes its identifier, below 2^roots, to *id: TREEDB_NEW for
 * the one call that gave the vector this identifier, TREEDB_SEEN for every other. Else, the first of these
 * that holds: TREEDB_NULL, TREEDB_NO_HANDLE, TREEDB_BAD_VECTOR; or TREEDB_FULL_NODES or TREEDB_FULL_ROOTS,
 * after which this vector never gets an identifier, while others may. The call costs least if the vector
 * differs little from the last one for which this handle was given an identifier. */
static inline int32_t treedb_insert(treedb *handle, const uint32_t *vector, size_t slots, uint64_t *id) {
  return handle && vector && id ? treedb_c_insert(handle, vector, slots, id) : TREEDB_NULL;
}

/* Writes the vector that has this identifier, which may be any number: TREEDB_SEEN. Else, the first of these
 * that holds: TREEDB_NULL, TREEDB_NO_HANDLE, TREEDB_BAD_VECTOR (not the store's number of slots),
 * TREEDB_NO_NAME. */
static inline int32_t treedb_find(treedb *handle, uint64_t id, uint32_t *vector, size_t slots) {
  return handle && vector ? treedb_c_find(handle, id, vector, slots) : TREEDB_NULL;
}

/* Sets a flag, numbered from 0, of the vector that has this identifier, in one atomic step: TREEDB_WAS_CLEAR
 * for the one call that changed it, TREEDB_WAS_SET if it was set. Else, the first of these that holds:
 * TREEDB_NULL, TREEDB_NO_HANDLE, TREEDB_BAD_FLAG, TREEDB_NO_NAME. */
static inline int32_t treedb_set_flag(treedb *handle, uint64_t id, uint32_t flag) {
  return handle ? treedb_c_set_flag(handle, id, flag) : TREEDB_NULL;
}

/* Clears a flag in the same way: TREEDB_WAS_SET for the one call that changed it, TREEDB_WAS_CLEAR if it was
 * clear. */
static inline int32_t treedb_clear_flag(treedb *handle, uint64_t id, uint32_t flag) {
  return handle ? treedb_c_clear_flag(handle, id, flag) : TREEDB_NULL;
}

/* Writes the flags of the vector that has this identifier, bit b for flag b: TREEDB_DONE. Else, the first of
 * these that holds: TREEDB_NULL, TREEDB_NO_HANDLE, TREEDB_NO_NAME. */
static inline int32_t treedb_flags(treedb *handle, uint64_t id, uint64_t *flags) {
  return handle && flags ? treedb_c_flags(handle, id, flags) : TREEDB_NULL;
}

/* Writes what was done through this handle: TREEDB_DONE, or TREEDB_NULL, TREEDB_NO_HANDLE. The sums over all
 * handles that a store ever had are the store's. */
static inline int32_t treedb_counts(treedb *handle, treedb_sums *sums) {
  return handle && sums ? treedb_c_counts(handle, sums) : TREEDB_NULL;
}

/* Frees a handle: it stands for nothing from then on, and its store is freed if it was the last handle. Does
 * nothing if the handle stands for nothing, or is null. */
static inline void treedb_free(treedb *handle) {
  if (handle) treedb_c_free(handle);
}

#ifdef __cplusplus
}
#endif

#endif
