#!/usr/bin/env bash
# bench/c.sh: a walk of a million vectors of 16 slots through the library for C, by 1 and 4 threads, beside the yardstick's unproved twin in the same rounds, both with
# pages of 4 KiB: processor time and wall time of the insertions, the best of so many rounds, and the ratios. Then the instructions of an insertion,
# of the library and of the twin, by callgrind.
source "$(dirname "${BASH_SOURCE[0]}")/setup.sh"
rounds=${ROUNDS:-7}
lines=${LINES_OF_WALK:-1000000}
./clib "$out/c"
cc -O2 -Iinclude -Ibench/c -o "$out/walk" bench/c/walk.c "$out/c/libtreedb.a" -lpthread
g++ -O3 -march=x86-64-v3 -std=c++17 -I"$yard" -Ibench/c -o "$out/walk_twin" bench/c/walk_twin.cpp -lpthread
export GLIBC_TUNABLES=glibc.malloc.hugetlb=0

# best PROGRAM THREADS: in turns, the least wall time and processor time, and what was new
echo "$(nproc) cores, load $(cut -d' ' -f1 /proc/loadavg); seconds of $lines insertions"
for threads in 1 4; do
  : > "$out/library" > "$out/twin"
  for ((i = 0; i < rounds; i++)); do
    "$out/walk" $threads "$lines" 1 >> "$out/library"
    "$out/walk_twin" $threads "$lines" 1 >> "$out/twin"
  done
  paste "$out/library" "$out/twin" | awk -v threads=$threads '
    $3 != $7 { print "another number of new vectors: " $3 " and " $7; exit 1 }
    NR == 1 || $1 < w { w = $1 } NR == 1 || $2 < c { c = $2 } NR == 1 || $5 < v { v = $5 } NR == 1 || $6 < d { d = $6 }
    END { printf "%d threads: wall %.3f and %.3f, processor %.3f and %.3f, ratios %.2f and %.2f; %d new\n", threads, w, v, c, d, w / v, c / d, $3 }'
done

# instructions PROGRAM: of the insertions, a line, by callgrind: those of a run without what comes before them
counted=100000
instructions() {
  collected() { valgrind --tool=callgrind --callgrind-out-file="$out/cg" "$out/$1" 1 $counted "$2" 2>&1 > /dev/null | sed -n 's/.*Collected : //p'; }
  echo $((($(collected "$1" 1) - $(collected "$1" 0)) / counted))
}
echo "instructions an insertion, $counted lines: library $(instructions walk), twin $(instructions walk_twin)"
