// fragment MIB: takes so much memory, gives back every other 64 KiB of it, says so, and keeps the rest until its input ends.
// What is free then lies in pieces of 64 KiB, so that a page of 2 MiB has to be made room for first.
#include <cstdio>
#include <cstdlib>
#include <cstring>
#include <sys/mman.h>

int main(int count, char **words) {
  const size_t piece = 64 << 10;
  const size_t bytes = (count > 1 ? strtoull(words[1], nullptr, 10) : 0) << 20;
  char *all = static_cast<char *>(mmap(nullptr, bytes, PROT_READ | PROT_WRITE, MAP_PRIVATE | MAP_ANONYMOUS | MAP_NORESERVE, -1, 0));
  if (bytes == 0 || all == MAP_FAILED) return 1;
  madvise(all, bytes, MADV_NOHUGEPAGE);
  memset(all, 1, bytes);
  for (size_t at = 0; at + piece <= bytes; at += 2 * piece) madvise(all + at, piece, MADV_DONTNEED);
  puts("fragmented");
  fflush(stdout);
  while (getchar() != EOF) {}
}
