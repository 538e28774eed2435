#!/usr/bin/env bash
# bench/flags.sh: set_flag on roots that are there beside a plain fetch_or on the words of an array as large, in the same random order and in turns in one process; best
# ratio and median ratio of so many rounds at 2^18, 2^20 and 2^22 roots, half of them there. Needs no yardstick.
source "$(dirname "${BASH_SOURCE[0]}")/setup.sh"
rounds=${ROUNDS:-9}
build_measure

echo "$(nproc) cores, load $(cut -d' ' -f1 /proc/loadavg); nanoseconds a call"
for roots in 18 20 22; do
  for ((i = 0; i < rounds; i++)); do "$measure" flags "$roots" 2>&1; done | awk '{ print $2 / $3, $2, $3 }' | sort -n | awk -v calls=$((7 * (1 << (roots - 1)))) -v roots="$roots" '
    { ratio[NR] = $1; if (NR == 1 || $2 < set) set = $2; if (NR == 1 || $3 < or) or = $3 }
    END { printf "2^%d roots: set_flag %.1f, fetch_or %.1f, ratio %.2f at best, %.2f in the middle\n", roots, set * 1000 / calls, or * 1000 / calls, ratio[1], ratio[int((NR + 1) / 2)] }'
done
