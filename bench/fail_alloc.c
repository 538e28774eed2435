/* Loaded before a program (LD_PRELOAD), it lets allocations fail: the one whose number is in FAIL_ALLOC, counted from 1, and with FAIL_ALLOC_ON=1 all after it.
   With FAIL_ALLOC_COUNT=1 it tells at the end, on standard error, how many there were. */
#define _GNU_SOURCE
#include <dlfcn.h>
#include <stdatomic.h>
#include <stddef.h>
#include <stdio.h>
#include <stdlib.h>
#include <sys/syscall.h>
#include <unistd.h>

static atomic_ulong calls;
static unsigned long failing;
static int on;
static void *(*real_malloc)(size_t);
static void *(*real_realloc)(void *, size_t);

__attribute__((constructor)) static void begin(void) {
  real_malloc = (void *(*)(size_t))dlsym(RTLD_NEXT, "malloc");
  real_realloc = (void *(*)(void *, size_t))dlsym(RTLD_NEXT, "realloc");
  const char *number = getenv("FAIL_ALLOC");
  failing = number ? strtoul(number, NULL, 10) : 0;
  on = getenv("FAIL_ALLOC_ON") != NULL;
}

/* the program ends by this call */
void _exit(int status) {
  if (getenv("FAIL_ALLOC_COUNT")) fprintf(stderr, "allocations %lu\n", atomic_load(&calls));
  syscall(SYS_exit_group, status);
  __builtin_unreachable();
}

static int fails(void) {
  unsigned long call = atomic_fetch_add(&calls, 1) + 1;
  return failing && (call == failing || (on && call > failing));
}

void *malloc(size_t size) {
  if (!real_malloc) begin();
  return fails() ? NULL : real_malloc(size);
}

void *realloc(void *block, size_t size) {
  if (!real_realloc) begin();
  return fails() ? NULL : real_realloc(block, size);
}
