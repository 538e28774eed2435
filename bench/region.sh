#!/usr/bin/env bash
# bench/region.sh: a region's calls beside the yardstick's region on the same drawn keys, in one run, as ratios. The two programs take turns, and each keeps its
# best, since a single time on a busy machine says little. Needs ../shared/yardstick and g++.
source "$(dirname "${BASH_SOURCE[0]}")/setup.sh"
rounds=${ROUNDS:-3}

g++ -O3 -march=x86-64-v3 -std=c++17 -I"$yard" bench/region.cpp -o "$out/region"
build_measure

echo "$(nproc) cores, load $(cut -d' ' -f1 /proc/loadavg), best of $rounds rounds; nanoseconds a call, and ours / theirs"
printf '%4s %5s  %-22s %-22s %-22s\n' s fill insert 'find, present' 'find, absent'
for s in 6 8 12; do
  for fill in 25 50 75 90; do
    for ((i = 0; i < rounds; i++)); do
      "$measure" region "$s" "$fill" 1 2>&1 | sed 's/^/ours /'
      "$out/region" "$s" "$fill" 1 2>&1 | sed 's/^/theirs /'
    done | awk -v s="$s" -v fill="$fill" '
      { for (i = 3; i <= 7; i += 2) if (!(($1, i) in low) || $i < low[$1, i]) low[$1, i] = $i; seen[$1] = $NF }
      END {
        if (seen["ours"] != seen["theirs"]) { print "the two programs answered differently"; exit 1 }
        calls = 16 * int(2 ^ s * fill / 100) * 2 ^ (16 - s)
        printf "%4d %4d%%", s, fill
        for (i = 3; i <= 7; i += 2) printf "  %6.1f / %6.1f = %4.2f", low["ours", i] / calls, low["theirs", i] / calls, low["ours", i] / low["theirs", i]
        print ""
      }'
  done
done
