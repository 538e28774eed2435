#!/usr/bin/env bash
# bench/nodes.sh: find or put of nodes beside the same loop over the yardstick's table, and what it costs to make a large table, in one run, as ratios. The two
# programs take turns, and each keeps its best. Needs ../shared/yardstick and g++.
source "$(dirname "${BASH_SOURCE[0]}")/setup.sh"
rounds=${ROUNDS:-9}

g++ -O3 -std=c++17 -march=x86-64-v3 -pthread -I"$yard" bench/nodes.cpp -o "$out/nodes"
build_measure

log=$(mktemp)
trap 'rm -f "$log"' EXIT
for ((i = 0; i < rounds; i++)); do
  for threads in 1 2 4; do
    "$measure" nodes 3 "$threads" 2>&1 | awk -v t="$threads" '/pairs by/ { print "treedb", t, $7, $(NF - 1) }'
    "$out/nodes" "$threads" | awk -v t="$threads" '{ print "yardstick", t, $7, $(NF - 1) }'
  done
done > "$log"
echo "2^19 pairs into 2^20 buckets, $(nproc) cores, load $(cut -d' ' -f1 /proc/loadavg), best of $rounds rounds; microseconds"
awk '{ key = $1 " " $2; if (!(key in put) || $3 < put[key]) put[key] = $3; if (!(key in found) || $4 < found[key]) found[key] = $4 }
  END { for (t = 1; t <= 4; t *= 2) { a = "treedb " t; b = "yardstick " t
    printf "%d threads: put %d beside %d (%.2f), all found by each %d beside %d (%.2f)\n", t, put[a], put[b], put[a] / put[b], found[a], found[b], found[a] / found[b] } }' "$log"
for ((i = 0; i < 5; i++)); do "$measure" nodes 25 1 2>&1 | awk '/^create/ { print $4 }'; done | sort -n | awk 'NR == 1 { printf "a table of 2^25 buckets is made in %.0f ms\n", $1 / 1000 }'
